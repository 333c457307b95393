//! Runs over the leaves: root, arctangent, vectors, chords, sides, caps.
use crate::calls::{Arg, Export, blank_floats};
use crate::random::{P, Random, add, along, cross, dot, list_floats, neg, nudge, scale, unit};
use crate::shapes;
use crate::tally::Tally;

const EPS: f64 = f64::EPSILON;

fn put_root(t: &mut Tally, bits: u64) {
    t.put(Export::Root, vec![Arg::Word(bits)]);
    t.put(Export::Root, vec![Arg::Word(bits ^ (1 << 63))]);
}

/// Every exponent, every leading bit of the subnormals, squares with their neighbours, special patterns.
pub fn root(t: &mut Tally, r: &mut Random, n: usize) {
    let ends = [0u64, 1, 2, (1 << 52) - 1, (1 << 52) - 2, 1 << 51, (1 << 51) - 1, 0x6A09E667F3BCC, 0x6A09E667F3BCD];
    for e in 0..2048u64 {
        for m in ends {
            put_root(t, e << 52 | m);
        }
        for _ in 0..3 {
            put_root(t, e << 52 | r.bits() >> 12);
        }
    }
    for k in 0..52 {
        for _ in 0..4 {
            put_root(t, 1 << k | (r.bits() & ((1 << k) - 1)));
        }
    }
    for _ in 0..n / 4 {
        // A square of at most 27 bits is exact; its neighbours are next to a tie or a whole root.
        let m = (r.bits() >> (37 + r.below(20))) as f64;
        let square = m * m * 4.0_f64.powi(r.below(800) as i32 - 400);
        for k in -2..=2 {
            put_root(t, nudge(square, k).to_bits());
        }
        // Squares of halves between two doubles: the root lies next to a tie.
        let half = f64::from_bits(r.bits() >> 2 | 1 << 61);
        for k in -1..=1 {
            put_root(t, nudge(half * half, k).to_bits());
        }
    }
    for _ in 0..n {
        put_root(t, r.bits());
    }
}

fn put_atan(t: &mut Tally, y: f64, x: f64) {
    t.put(Export::Atan2, vec![Arg::Word(y.to_bits()), Arg::Word(x.to_bits())]);
}

/// NaNs of both signs, quiet and signalling, with various payloads, on either side and on both, beside zeros, infinities and numbers.
fn atan_nans(t: &mut Tally, r: &mut Random, n: usize) {
    let ends = [1u64 << 51, (1 << 51) + 1, (1 << 52) - 1, 0xC_0000_0000_1234, 1, (1 << 51) - 1];
    let mut nans: Vec<f64> = ends.iter().flat_map(|m| [0x7FF, 0xFFF].map(|e| f64::from_bits(e << 52 | m))).collect();
    for _ in 0..n / 500 {
        nans.push(f64::from_bits(r.bits() | 0x7FF8 << 48));
    }
    let others = [0.0, -0.0, 1.0, -1.0, 5e-324, -5e-324, f64::MAX, f64::MIN, f64::INFINITY, f64::NEG_INFINITY];
    for nan in &nans {
        for x in others {
            put_atan(t, *nan, x);
            put_atan(t, x, *nan);
        }
        put_atan(t, *nan, *r.pick(&nans));
        let x = r.spread(-1074, 1023);
        put_atan(t, *nan, x);
        put_atan(t, x, *nan);
    }
}

/// Where the definition goes by cases, and the ends of the range.
#[rustfmt::skip]
const SPECIAL: [f64; 18] = [
    0.0, -0.0, 1.0, -1.0, f64::INFINITY, f64::NEG_INFINITY, f64::NAN, f64::MAX, f64::MIN, f64::MIN_POSITIVE,
    5e-324, -5e-324, 0.5, 2.0, 1e-163, -1e-163, 1e300, EPS,
];

/// A pair of any bits, of nearly equal sizes, of exponents near each other, or of a sine and its cosine.
fn pair(r: &mut Random) -> (f64, f64) {
    match r.below(5) {
        0 => (f64::from_bits(r.bits()), f64::from_bits(r.bits())),
        1 => {
            let y = r.spread(-1000, 1000);
            let off = r.below(9) as i64 - 4;
            let x = nudge(y, off);
            (y, if r.chance(2) { -x } else { x })
        }
        2 => {
            let y = r.spread(-500, 500);
            (y, y * r.spread(-60, 60))
        }
        _ => {
            let a = r.between(-4.0, 4.0);
            (a.sin(), a.cos())
        }
    }
}

/// A subnormal of any count of bits, or zero.
fn subnormal(r: &mut Random) -> f64 {
    f64::from_bits(r.bits() >> (12 + r.below(53)) | (r.bits() & 1) << 63)
}

/// A pair as above, or one with a special number, with a subnormal, or near a multiple of an eighth circle, where the
/// definition goes by cases.
fn pair_by_cases(r: &mut Random) -> (f64, f64) {
    let (y, x) = match r.below(12) {
        0 => (*r.pick(&SPECIAL), *r.pick(&SPECIAL)),
        1 => (*r.pick(&SPECIAL), r.spread(-1074, 1023)),
        2 => (subnormal(r), subnormal(r)),
        3 => (subnormal(r), r.spread(-1074, -960)),
        4 => {
            let a = std::f64::consts::FRAC_PI_4 * r.below(9) as f64 + r.spread(-60, -2);
            (a.sin(), a.cos())
        }
        _ => return pair(r),
    };
    if r.chance(2) { (x, y) } else { (y, x) }
}

/// A pair of finite floats: what has an exact angle.
pub fn finite_pair(r: &mut Random) -> (f64, f64) {
    loop {
        let (y, x) = pair_by_cases(r);
        if y.is_finite() && x.is_finite() {
            return (y, x);
        }
    }
}

/// Pairs over all exponents, zeros of both signs, near-equal ones, infinities and NaN.
pub fn atan(t: &mut Tally, r: &mut Random, n: usize) {
    for y in SPECIAL {
        for x in SPECIAL {
            put_atan(t, y, x);
        }
        for _ in 0..200 {
            let other = r.spread(-1074, 1023);
            put_atan(t, y, other);
            put_atan(t, other, y);
        }
    }
    for _ in 0..n {
        let (y, x) = pair(r);
        put_atan(t, y, x);
    }
    atan_nans(t, r, n);
}

/// Free of -0.0, as every vector of the source is.
fn clean(p: P) -> P {
    p.map(|c| 0.0 + c)
}

fn nine(a: P, b: P, c: P) -> Vec<f64> {
    [a, b, c].into_iter().flat_map(clean).collect()
}

fn wild(r: &mut Random) -> f64 {
    match r.below(9) {
        0 => 0.0,
        1 => f64::NAN,
        2 => f64::INFINITY,
        3 => f64::NEG_INFINITY,
        4 => r.spread(400, 1023),
        5 => r.spread(-1074, -400),
        6 => 1.0,
        _ => f64::from_bits(r.bits()),
    }
}

/// Three vectors: random, equal, opposite, nearly parallel, round, underflowing, in one plane, wild.
fn three(r: &mut Random) -> (P, P, P) {
    let a = r.position();
    let b = r.position();
    match r.below(12) {
        0 => (a, a, b),
        1 => (a, neg(a), b),
        2 => {
            let ulps = 1 + r.below(4) as u64;
            (a, r.jitter(a, ulps), b)
        }
        3 => {
            let d = r.spread(-60, -3).abs();
            (b, a, r.near(a, d))
        }
        4 => {
            let d = r.spread(-60, -3).abs();
            (b, a, neg(r.near(a, d)))
        }
        5 => (along(a, b, r.between(-1.0, 2.0)), a, b),
        6 => {
            let off = r.between(-8.0, 8.0) * EPS;
            let p = along(a, b, r.fraction());
            (unit(add(p, scale(unit(cross(a, b)), off))), a, b)
        }
        7 => (r.round(), r.round(), r.round()),
        8 => (r.tiny(), r.tiny(), r.tiny()),
        9 => {
            let p = [wild(r), wild(r), wild(r)];
            let q = [wild(r), wild(r), wild(r)];
            (p, if r.chance(2) { q } else { b }, if r.chance(2) { a } else { p })
        }
        10 => (scale(a, r.spread(-300, 300)), scale(b, r.spread(-300, 300)), r.unit()),
        _ => (a, b, r.unit()),
    }
}

/// A number within a few doubles of `at`, or a few times 2^-52 away.
fn close(r: &mut Random, at: f64) -> f64 {
    match r.below(3) {
        0 => nudge(at, r.below(7) as i64 - 3),
        1 => at + (r.below(7) as f64 - 3.0) * EPS,
        _ => at + r.between(-4.0, 4.0) * EPS,
    }
}

fn put_case(t: &mut Tally, op: u32, input: Vec<f64>) {
    t.put(Export::LeafCase, vec![Arg::Int(op), Arg::Floats(input)]);
}

fn put_number(t: &mut Tally, op: u32, input: Vec<f64>) {
    t.put(Export::LeafNumber, vec![Arg::Int(op), Arg::Floats(input)]);
}

/// The comparisons of numbers.rs at their borders.
fn numbers(t: &mut Tally, r: &mut Random) {
    let x = match r.below(4) {
        0 => 0.0,
        1 => r.between(-4.0, 4.0),
        2 => wild(r),
        _ => r.spread(-60, 4),
    };
    let steps = [0.0, EPS, -EPS, nudge(EPS, 1), nudge(EPS, -1), -nudge(EPS, 1), 2.0 * EPS, 0.5 * EPS];
    let y = if r.chance(6) { wild(r) } else { 0.0 + (x + *r.pick(&steps)) };
    for op in 0..4 {
        put_case(t, op, nine([x, y, 0.0], [0.0; 3], [0.0; 3]));
    }
    put_case(t, 1, nine([*r.pick(&steps), 0.0, 0.0], [0.0; 3], [0.0; 3]));
}

/// Sides whose first product is within a few doubles of 10 * 2^-52, or whose retest is within a few of 2^-52.
fn sides(t: &mut Tally, r: &mut Random) {
    let at = *r.pick(&[10.0 * EPS, -10.0 * EPS, EPS, -EPS]);
    let z = close(r, at);
    let q = unit([r.between(-1.0, 1.0), r.between(-1.0, 1.0), 0.0]);
    // (x, y, z) against X and Y: the first product is z itself.
    put_case(t, 6, nine([q[0], q[1], z], [1.0, 0.0, 0.0], [0.0, 1.0, 0.0]));
    // Longer ones, as an altered normal may be: the first product is z again, but the retest sees a smaller one.
    let (k, m) = (2.0_f64.powi(r.below(12) as i32), 2.0_f64.powi(r.below(12) as i32));
    put_case(t, 6, nine([q[0], q[1], z / (k * m)], [k, 0.0, 0.0], [0.0, m, 0.0]));
    let (a, b) = (r.unit(), r.unit());
    let c = cross(a, b);
    let share = z / dot(c, c).sqrt();
    let p = add(along(a, b, r.fraction()), scale(unit(c), if r.chance(2) { share } else { z }));
    put_case(t, 6, nine(p, a, b));
    // Nearly parallel ends: the first product is small, the retest decides.
    let d = r.spread(-52, -20).abs();
    let b = r.near(a, d);
    let p = add(along(a, b, r.between(-3.0, 3.0)), scale(unit(cross(a, b)), z));
    put_case(t, 6, nine(p, a, b));
}

fn caps(t: &mut Tally, r: &mut Random) {
    let (a, c) = (r.position(), r.position());
    let d = [a[0] - c[0], a[1] - c[1], a[2] - c[2]];
    let chord = dot(d, d);
    let at = *r.pick(&[chord, chord, 0.0, 4.0, 2.0]);
    let radius = match r.below(8) {
        0 => -1.0,
        1 => 0.0,
        2 => 4.0,
        3 => wild(r),
        _ => close(r, at),
    };
    put_case(t, 7, nine(a, [radius, 0.0, 0.0], c));
    // Two caps whose radii add up to about the distance of their centres.
    let (s, f) = (chord.sqrt().min(2.0), r.fraction());
    let (u, v) = (2.0 * ((s / 2.0).asin() * f / 2.0).sin(), 2.0 * ((s / 2.0).asin() * (1.0 - f) / 2.0).sin());
    let (one, two) = (close(r, u * u * 4.0), close(r, v * v * 4.0));
    let mut radii = [one, two];
    if r.chance(6) {
        radii[r.below(2)] = *r.pick(&[-1.0, 0.0, 4.0, -2.0, nudge(-1.0, 1)]);
    }
    if r.chance(20) {
        radii[r.below(2)] = wild(r);
    }
    put_case(t, 8, nine(a, [radii[0], radii[1], 0.0], c));
    put_number(t, 4, nine([radii[0], radii[1], 0.0], a, c));
    let x = r.between(0.0, 4.0);
    put_number(t, 4, nine([x, close(r, 4.0 - x), 0.0], a, c));
}

fn bounding(t: &mut Tally, r: &mut Random) {
    let n = shapes::length(r);
    let list = match r.below(8) {
        0 => {
            // The farthest corner about a quarter circle away: the threshold.
            let centre = r.position();
            let half = std::f64::consts::FRAC_PI_2 + r.between(-1e-9, 1e-9);
            shapes::polygon(centre, n.max(3), true, |_| half)
        }
        1 => shapes::symmetric(r, n),
        _ => shapes::any(r, n),
    };
    let mut f = list_floats(&list);
    if r.chance(20) && !f.is_empty() {
        let i = r.below(f.len());
        f[i] = wild(r);
    }
    if r.chance(20) {
        f.truncate(f.len().saturating_sub(1 + r.below(2)));
    }
    let room = *r.pick(&[4, 4, 5, 8, 3, 0]);
    t.put(Export::LeafCap, vec![Arg::Floats(f), Arg::OutFloats(blank_floats(room))]);
}

/// The bounding cap alone: its lists are long, so it has a group for the long run.
pub fn bounding_caps(t: &mut Tally, r: &mut Random, n: usize) {
    for _ in 0..n {
        bounding(t, r);
    }
}

pub fn leaves(t: &mut Tally, r: &mut Random, n: usize) {
    for i in 0..n {
        let (a, b, c) = three(r);
        for op in 0..14 {
            let mut input = nine(a, b, c);
            if op == 0 && r.chance(2) {
                input[r.below(3)] = -0.0;
            }
            let room = 3 + r.below(3);
            t.put(Export::LeafVec, vec![Arg::Int(op), Arg::Floats(input), Arg::OutFloats(blank_floats(room))]);
        }
        for op in [0, 1, 2, 3, 5, 6, 7] {
            put_number(t, op, nine(a, b, c));
        }
        for op in [4, 5, 6, 9] {
            put_case(t, op, nine(a, b, c));
        }
        numbers(t, r);
        sides(t, r);
        caps(t, r);
        if i % 4 == 0 {
            bounding(t, r);
        }
    }
}
