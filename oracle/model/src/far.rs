//! How far a position is from an arc and from a loop's border (SCOPE 49, 50 and 53), and the radians of a squared chord (SCOPE 51).
use crate::angle::atan2;
use crate::arcs::read_arc;
use crate::leaves::bits;
use crate::loops::{Handed, read_loop, take_loop};
use crate::read::{Judged, answer, position, query, refuse_if};
use jord::spherical::base_probe::side;
use jord::spherical::chord_length::probe::{length2, of_length2};
use jord::spherical::sloop::probe as sloop;
use jord::spherical::{ChordLength, Loop, MinorArc, Side};
use jord::{NVector, Vec3};

/// How far radians may be from the Rust's own.
pub const NEAR: f64 = 1.0 / (1u64 << 45) as f64;

/// What a distance from an arc was decided by.
#[derive(Clone, Copy, Debug, PartialEq, Eq)]
pub enum Decided {
    /// The foot is on the arc: its chord.
    Foot,
    /// The chord to the nearer end.
    End,
    /// The steady product is zero: the chord to the start.
    Pole,
}

fn chord(a: NVector, b: NVector) -> f64 {
    length2(ChordLength::new(a, b))
}

/// Of a point of the arc's circle: not right of (normal, start) and not left of (normal, end).
fn on_arc(arc: MinorArc, v: Vec3) -> bool {
    side(v, arc.normal(), arc.start().as_vec3()) != Side::Right
        && side(v, arc.normal(), arc.end().as_vec3()) != Side::Left
}

/// The distance from an arc by the steps of the rule, and which of them decided.
pub fn by_steps(arc: MinorArc, p: NVector) -> (f64, Decided) {
    let (xa, xb, ab) = (chord(p, arc.start()), chord(p, arc.end()), chord(arc.start(), arc.end()));
    let nearer = if xb < xa { xb } else { xa };
    if xa - xb >= ab + f64::EPSILON {
        return (nearer, Decided::End);
    }
    let i = p.as_vec3().stable_cross_prod_unit(arc.normal());
    if i == Vec3::ZERO {
        return (xa, Decided::Pole);
    }
    let foot = arc.normal().orthogonal_to(i);
    if on_arc(arc, foot) { (chord(p, NVector::new(foot)), Decided::Foot) } else { (nearer, Decided::End) }
}

/// What the source says, and what decided it; its answer is the steps' own, bit for bit.
fn from_arc(arc: MinorArc, p: NVector) -> (f64, Decided) {
    let (stepped, by) = by_steps(arc, p);
    let far = length2(arc.distance_to(p));
    if cfg!(feature = "held") {
        assert_eq!(far.to_bits(), stepped.to_bits(), "the distance from an arc is the source's: {arc:?} {p:?}");
    }
    (far, by)
}

/// What the source says, and what decided the edge that is nearest; none where the loop has no corner or no edge is below 4.
fn from_border(l: &Loop, p: NVector) -> (f64, Option<Decided>) {
    let edges = sloop::edges_of(l);
    let mut least = (if edges.is_empty() { 0.0 } else { 4.0 }, None);
    for e in edges {
        let (stepped, by) = by_steps(*e, p);
        if stepped < least.0 {
            least = (stepped, Some(by));
        }
    }
    let far = length2(l.distance_to_boundary(p));
    if cfg!(feature = "held") {
        assert_eq!(far.to_bits(), least.0.to_bits(), "the distance from a border is the source's: {l:?} {p:?}");
    }
    (far, least.1)
}

/// A squared chord, and what decided it.
pub type Far = (f64, Option<Decided>);

/// An arc judged, then the query.
pub fn arc_far(arc: &[u8], p: &[u8]) -> Judged<Far> {
    let arc = read_arc(arc)?;
    let (far, by) = from_arc(arc, query(p)?);
    Ok((far, Some(by)))
}

/// A loop judged, then the query.
fn border_far(handed: Handed, p: impl FnOnce() -> Judged<NVector>) -> Judged<Far> {
    let l = handed.judge()?;
    Ok(from_border(&l, p()?))
}

pub fn loop_far(of: &[u8], p: &[u8]) -> Judged<Far> {
    border_far(read_loop(of)?, || query(p))
}

pub fn parts_far(header: &[u8], positions: &[f64], normals: &[f64], classes: &[u8], p: [f64; 3]) -> Judged<Far> {
    border_far(take_loop(header, positions, Some(normals), classes)?, || position(&p))
}

/// A squared chord into a lent buffer of bytes; 5 comes last of all.
pub fn lay(far: Judged<Far>, out: &mut [u8]) -> u32 {
    answer((|| {
        let (far, _) = far?;
        refuse_if(out.len() < 8, 5)?;
        out[..8].copy_from_slice(&far.to_le_bytes());
        Ok(0)
    })())
}

/// The same into floats.
pub fn lay_float(far: Judged<Far>, out: &mut [f64]) -> u32 {
    answer((|| {
        let (far, _) = far?;
        refuse_if(out.is_empty(), 5)?;
        out[0] = far;
        Ok(0)
    })())
}

pub fn desk_far(of: &[u8], p: &[u8], out: &mut [u8]) -> u32 {
    lay(loop_far(of, p), out)
}

pub fn desk_arc_far(arc: &[u8], p: &[u8], out: &mut [u8]) -> u32 {
    lay(arc_far(arc, p), out)
}

#[allow(clippy::too_many_arguments)]
pub fn desk_far_f64(
    header: &[u8],
    positions: &[f64],
    normals: &[f64],
    classes: &[u8],
    x: f64,
    y: f64,
    z: f64,
    out: &mut [f64],
) -> u32 {
    lay_float(parts_far(header, positions, normals, classes, [x, y, z]), out)
}

/// How far a position is from the border of a loop that was judged.
pub fn far_of(l: &Loop, p: NVector) -> f64 {
    from_border(l, p).0
}

fn arcsine(u: f64) -> f64 {
    atan2(u, ((1.0 - u) * (1.0 + u)).sqrt())
}

/// The radians of a squared chord, by the port's own arctangent.
pub fn radians(c: f64) -> f64 {
    if c < 0.0 {
        return -1.0;
    }
    2.0 * arcsine(c.sqrt() * 0.5)
}

/// What the Rust itself says of them.
pub fn rust_radians(c: f64) -> f64 {
    of_length2(c).to_angle().as_radians()
}

/// Whether radians are as near as they must be to the Rust's: within 2^-45 where these are finite, else NaN as they are.
pub fn near_rust(ours: f64, rust: f64) -> bool {
    if rust.is_finite() { (ours - rust).abs() <= NEAR } else { ours.is_nan() && rust.is_nan() }
}

pub fn desk_radians(c: u64) -> u64 {
    let c = f64::from_bits(c);
    let ours = radians(c);
    if cfg!(feature = "held") {
        assert!(near_rust(ours, rust_radians(c)), "the radians of {c:e} are near the source's");
    }
    bits(ours)
}

#[cfg(test)]
mod tests {
    use super::{Decided, arc_far, desk_arc_far, desk_far, desk_far_f64, desk_radians, loop_far, radians};
    use crate::read::{REFUSED, floats};
    use crate::{desk_arc, desk_build};

    type P = [f64; 3];
    const X: P = [1.0, 0.0, 0.0];
    const Y: P = [0.0, 1.0, 0.0];
    const Z: P = [0.0, 0.0, 1.0];
    const NAN: P = [f64::NAN, 0.0, 0.0];
    const LONG: P = [2.0, 0.0, 0.0];

    fn bytes(list: &[P]) -> Vec<u8> {
        list.iter().flatten().flat_map(|c| c.to_le_bytes()).collect()
    }

    fn arc(start: P, end: P) -> Vec<u8> {
        let mut out = vec![0; 72];
        assert_eq!(desk_arc(&bytes(&[start]), &bytes(&[end]), &mut out), 0);
        out
    }

    fn with_normal(mut arc: Vec<u8>, normal: P) -> Vec<u8> {
        arc[48..].copy_from_slice(&bytes(&[normal]));
        arc
    }

    fn built(list: &[P]) -> Vec<u8> {
        let mut out = vec![0; 88 + 49 * list.len()];
        let n = desk_build(&bytes(list), &mut out);
        out.truncate(88 + 49 * n as usize);
        out
    }

    fn of_arc(arc: &[u8], p: P) -> (f64, Decided) {
        let (far, by) = arc_far(arc, &bytes(&[p])).unwrap();
        (far, by.unwrap())
    }

    /// Beside the arc the foot decides, past an end that end, at a pole the start.
    #[test]
    fn each_decides() {
        let a = arc(X, Y);
        assert_eq!(of_arc(&a, [0.36, 0.48, 0.8]).1, Decided::Foot);
        assert_eq!(of_arc(&a, [-0.6, 0.8, 0.0]).1, Decided::End);
        assert_eq!(of_arc(&a, [0.6, -0.8, 0.0]).1, Decided::End);
        assert_eq!(of_arc(&a, Z), (2.0, Decided::Pole));
        assert_eq!(of_arc(&a, [0.0, 0.0, -1.0]), (2.0, Decided::Pole));
        assert_eq!(of_arc(&a, [-0.6, -0.8, 0.0]).1, Decided::End);
    }

    /// At a pole it is the start, though the end be nearer.
    #[test]
    fn a_pole_is_as_far_as_the_start() {
        let a = with_normal(arc(X, Y), [0.0; 3]);
        let (far, by) = of_arc(&a, [0.6, 0.8, 0.0]);
        assert!(far > 0.79 && by == Decided::Pole, "the end's is 0.4");
    }

    /// Of a normal as large as may be, a NaN beside the end alone does not make the foot miss the arc, and the foot is the zero vector.
    #[test]
    fn a_nan_beside_the_end_alone() {
        let d = std::f64::consts::FRAC_1_SQRT_2;
        let a = with_normal(arc([d, d, 0.0], X), [0.0, 0.0, f64::MAX * 0.66]);
        assert_eq!(of_arc(&a, [1e-200, -1e-200, 1.0]), (1.0, Decided::Foot));
    }

    #[test]
    fn borders() {
        let far = |l: &[u8], p: P| loop_far(l, &bytes(&[p])).unwrap();
        let l = built(&[X, Y, Z]);
        assert_eq!((far(&l, X).0, far(&l, [0.6, 0.8, 0.0]).0), (0.0, 0.0));
        assert_eq!(far(&l, [0.48, 0.6, 0.64]).0.to_bits(), 0x3FCF_6B55_1652_38B9);
        for without in [built(&[]), built(&[X, [0.6, 0.8, 0.0], Y])] {
            assert_eq!(far(&without, Z), (0.0, None));
            assert_eq!(desk_far(&without, &bytes(&[Z]), &mut [7; 8]), 0);
        }
    }

    /// 1 of what is asked, its own, 1 of the query, its 3 and 4, then 5; nothing is written on a refusal, nor past the result.
    #[test]
    fn refusals_in_their_order() {
        let mut wrong = built(&[X, Y, Z]);
        wrong[88 + 144] = 3;
        let a = arc(X, Y);
        let faulty = with_normal(a.clone(), NAN);
        let mut out = [7; 11];
        for (number, arc, p) in [
            (1, &a[..71], bytes(&[NAN])),
            (3, &faulty[..], vec![0; 23]),
            (1, &a[..], vec![0; 23]),
            (3, &a[..], bytes(&[NAN])),
            (4, &a[..], bytes(&[LONG])),
            (5, &a[..], bytes(&[Z])),
        ] {
            assert_eq!(desk_arc_far(arc, &p, &mut out[..7]), REFUSED + number);
        }
        let l = built(&[X, Y, Z]);
        for (number, l, p) in [
            (1, &l[..l.len() - 1], bytes(&[NAN])),
            (6, &wrong[..], vec![0; 23]),
            (1, &l[..], vec![0; 25]),
            (3, &l[..], bytes(&[NAN])),
            (4, &l[..], bytes(&[LONG])),
            (5, &l[..], bytes(&[Z])),
        ] {
            assert_eq!(desk_far(l, &p, &mut out[..7]), REFUSED + number);
        }
        assert_eq!(out, [7; 11]);
        assert_eq!(desk_far(&l, &bytes(&[Z]), &mut out), 0);
        assert_eq!(out, [0, 0, 0, 0, 0, 0, 0, 0, 7, 7, 7]);
        let (f, mut float) = (floats(&l[88..88 + 144]), [7.0; 2]);
        let mut asked = |p: P, room: usize| {
            desk_far_f64(&l[..88], &f[..9], &f[9..], &l[88 + 144..], p[0], p[1], p[2], &mut float[..room])
        };
        assert_eq!((asked(NAN, 0), asked(LONG, 0), asked(Z, 0)), (REFUSED + 3, REFUSED + 4, REFUSED + 5));
        assert_eq!(asked([0.48, 0.6, 0.64], 2), 0);
        assert_eq!((float[0].to_bits(), float[1]), (0x3FCF_6B55_1652_38B9, 7.0));
    }

    #[test]
    fn edges_of_radians() {
        let of = |c: f64| f64::from_bits(desk_radians(c.to_bits()));
        let pi = std::f64::consts::PI;
        assert_eq!((of(0.0).to_bits(), of(-0.0).to_bits()), (0, 1 << 63));
        assert_eq!((of(4.0), of(4.0_f64.next_up())), (pi, pi));
        for c in [4.0_f64.next_up().next_up(), 5.0, f64::MAX, f64::INFINITY, f64::NAN, -f64::NAN] {
            assert_eq!(desk_radians(c.to_bits()), 0x7FF8_0000_0000_0000, "{c}");
        }
        for c in [-5e-324, -1.0, f64::MIN, f64::NEG_INFINITY] {
            assert_eq!(of(c), -1.0);
        }
        assert!(radians(5e-324) > 0.0 && radians(4.0_f64.next_down()) < pi);
    }
}
