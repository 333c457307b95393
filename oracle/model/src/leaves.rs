//! The leaves: root, arctangent, and the test probes over vectors, chords, sides and caps.
use crate::angle;
use crate::read::{Judged, answer, refuse_if, vec3};
use jord::spherical::sloop::probe as sloop;
use jord::spherical::{Cap, ChordLength, Side, Sphere, base_probe, cap, chord_length};
use jord::{NVector, Vec3, numbers_probe as numbers};

/// The NaN that stands for every NaN where bits are answered.
pub const NAN: u64 = 0x7FF8_0000_0000_0000;

pub fn bits(f: f64) -> u64 {
    if f.is_nan() { NAN } else { f.to_bits() }
}

pub fn desk_root(b: u64) -> u64 {
    bits(f64::from_bits(b).sqrt())
}

pub fn desk_atan2(y: u64, x: u64) -> u64 {
    bits(angle::atan2(f64::from_bits(y), f64::from_bits(x)))
}

struct Operands {
    a: Vec3,
    b: Vec3,
    c: Vec3,
}

fn operands(input: &[f64]) -> Operands {
    Operands { a: vec3(&input[0..3]), b: vec3(&input[3..6]), c: vec3(&input[6..9]) }
}

/// The midpoint that stands in (SCOPE 3): the unit vector of start plus end, and none where the ends are antipodes or that
/// vector is zero.
pub fn midpoint(a: NVector, b: NVector) -> Option<NVector> {
    let (v, w) = (a.as_vec3(), b.as_vec3());
    let m = Vec3::new_unit(v.x() + w.x(), v.y() + w.y(), v.z() + w.z());
    if a.is_antipode_of(b) || m == Vec3::ZERO { None } else { Some(NVector::new(m)) }
}

fn mean(o: &Operands) -> Option<NVector> {
    Sphere::triangle_mean_position(NVector::new(o.a), NVector::new(o.b), NVector::new(o.c))
}

pub fn leaf_vec(op: u32, input: &[f64], out: &mut [f64]) -> u32 {
    let o = operands(input);
    let Operands { a, b, .. } = o;
    let r = match op {
        0 => Vec3::new(input[0], input[1], input[2]),
        1 => Vec3::new_unit(a.x(), a.y(), a.z()),
        2 => a.unit(),
        3 => a.cross_prod(b),
        4 => a.cross_prod_unit(b),
        5 => a.stable_cross_prod_unit(b),
        6 => a.orthogonal(),
        7 => a.orthogonal_to(b),
        8 => a + b,
        9 => a - b,
        10 => -a,
        11 => a * b.x(),
        12 => mean(&o).map_or(Vec3::ZERO, |m| m.as_vec3()),
        _ => midpoint(NVector::new(a), NVector::new(b)).map_or(Vec3::ZERO, |m| m.as_vec3()),
    };
    out[0] = r.x();
    out[1] = r.y();
    out[2] = r.z();
    0
}

/// The sine that `angle_radians_between(a, b, Some(c))` hands to atan2.
pub fn sine(a: Vec3, b: Vec3, c: Vec3) -> f64 {
    let p = a.cross_prod(b);
    let norm = p.norm();
    if p.dot_prod(c) >= 0.0 { norm } else { -norm }
}

/// The turning angle by the port's own arctangent.
pub fn turning(a: Vec3, b: Vec3, c: Vec3) -> f64 {
    angle::atan2(sine(a, b, c), a.dot_prod(b))
}

pub fn leaf_number(op: u32, input: &[f64]) -> u64 {
    let Operands { a, b, c } = operands(input);
    let chord = chord_length::probe::of_length2;
    let length2 = chord_length::probe::length2;
    bits(match op {
        0 => a.dot_prod(b),
        1 => a.squared_norm(),
        2 => a.norm(),
        3 => length2(ChordLength::new(NVector::new(a), NVector::new(b))),
        4 => length2(chord(a.x()) + chord(a.y())),
        5 => sine(a, b, c),
        6 => a.dot_prod(b),
        _ => turning(a, b, c),
    })
}

/// What the Rust itself says of the angle, to be compared within 2^-45.
pub fn rust_turning(input: &[f64]) -> f64 {
    let Operands { a, b, c } = operands(input);
    base_probe::angle_radians_between(a, b, Some(c))
}

pub fn side_code(s: Side) -> u32 {
    match s {
        Side::Collinear => 0,
        Side::Left => 1,
        Side::Right => 2,
    }
}

fn cap_of(centre: Vec3, radius: f64) -> Cap {
    cap::probe::of_parts(NVector::new(centre), chord_length::probe::of_length2(radius))
}

pub fn leaf_case(op: u32, input: &[f64]) -> u32 {
    let o = operands(input);
    let Operands { a, b, c } = o;
    match op {
        0 => u32::from(numbers::eq(a.x(), a.y())),
        1 => u32::from(numbers::eq_zero(a.x())),
        2 => u32::from(numbers::lte(a.x(), a.y())),
        3 => u32::from(numbers::gte(a.x(), a.y())),
        4 => u32::from(a == b),
        5 => u32::from(NVector::new(a).is_antipode_of(NVector::new(b))),
        6 => side_code(base_probe::side(a, b, c)),
        7 => u32::from(cap_of(a, b.x()).contains_position(NVector::new(c))),
        8 => u32::from(cap_of(a, b.x()).intersects(cap_of(c, b.y()))),
        _ => u32::from(mean(&o).is_some()),
    }
}

pub fn leaf_cap(list: &[f64], out: &mut [f64]) -> u32 {
    answer(cap_into(list, out))
}

fn cap_into(list: &[f64], out: &mut [f64]) -> Judged<u32> {
    refuse_if(list.len() % 3 != 0, 1)?;
    refuse_if(out.len() < 4, 5)?;
    let vs: Vec<NVector> = list.chunks(3).map(|c| NVector::new(vec3(c))).collect();
    let cap = sloop::calc_bounding_cap(&vs);
    let centre = cap.centre().as_vec3();
    let radius = chord_length::probe::length2(cap::probe::radius(cap));
    out[..4].copy_from_slice(&[centre.x(), centre.y(), centre.z(), radius]);
    Ok(0)
}
