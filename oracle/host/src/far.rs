//! Runs over distances: of positions from arcs and from the borders of loops, and the radians of squared chords.
use crate::arcs::{alter, arc, damage, ends, normal, set_normal, two_faults};
use crate::calls::{Answer, Arg, Call, Export, blank, blank_floats};
use crate::random::{P, Random, add, along, bytes, dot, neg, nudge, scale, unit};
use crate::rings::{HEADER, at, bad_float, count, parts, query, query_bytes, some_loop, vertex};
use crate::shapes;
use crate::tally::Tally;
use model::far::{Decided, Far, arc_far, lay, lay_float, loop_far, parts_far};
use model::read::Judged;

/// How often each decided, by the kind of position.
struct Deciders<const N: usize> {
    names: [&'static str; N],
    counts: [[u64; 5]; N],
}

impl<const N: usize> Deciders<N> {
    fn new(names: [&'static str; N]) -> Self {
        Deciders { names, counts: [[0; 5]; N] }
    }

    fn count(&mut self, kind: usize, far: &Judged<Far>) {
        let by = match far {
            Ok((_, Some(Decided::Foot))) => 0,
            Ok((_, Some(Decided::End))) => 1,
            Ok((_, Some(Decided::Pole))) => 2,
            Ok((_, None)) => 3,
            Err(_) => 4,
        };
        self.counts[kind][by] += 1;
    }

    /// A line for each kind of position, and one for all.
    fn report(&self, t: &mut Tally) {
        let mut line = |name: &str, c: [u64; 5]| {
            let [foot, end, pole, none, refused] = c;
            t.lines.push(format!(
                "{name:<30} foot {foot:>9}  an end {end:>9}  xa {pole:>9}  none {none:>8}  refused {refused:>8}"
            ));
        };
        let mut all = [0; 5];
        for (name, counts) in self.names.iter().zip(self.counts) {
            line(name, counts);
            all.iter_mut().zip(counts).for_each(|(a, c)| *a += c);
        }
        line("decided by, in all", all);
    }
}

// ---- arcs

const FROM_ARC: [&str; 11] = [
    "on the arc",
    "beside it",
    "behind it",
    "past the start",
    "past the end",
    "square to an end",
    "a few doubles off an end",
    "at a pole",
    "the antipode of an end",
    "at the pole of a long normal",
    "anywhere",
];

fn signed(r: &mut Random, v: P) -> P {
    if r.chance(2) { v } else { neg(v) }
}

/// Off a point of the arc to either side of it, by any distance up to about a quarter circle.
fn beside(r: &mut Random, on: P, side: P) -> P {
    let d = if r.chance(2) { r.spread(-55, -1) } else { r.between(-1.6, 1.6) };
    unit(add(scale(on, d.cos()), scale(side, d.sin())))
}

/// A position of that kind to an arc, whose normal may be of any size.
fn position_to(r: &mut Random, kind: usize, a: P, b: P, n: P) -> P {
    let side = unit(n);
    let side = if dot(side, side).is_finite() { side } else { r.unit() };
    let end = if r.chance(2) { a } else { b };
    match kind {
        0 => along(a, b, *r.pick(&[0.0, 0.25, 0.5, 0.75, 1.0, 0.123, 0.9999999])),
        1 => {
            let on = along(a, b, r.fraction());
            beside(r, on, side)
        }
        2 => {
            let on = along(a, b, r.fraction());
            neg(beside(r, on, side))
        }
        3 | 4 => {
            let t = r.spread(-50, 1).abs();
            let past = along(a, b, if kind == 3 { -t } else { 1.0 + t });
            if r.chance(2) { past } else { beside(r, past, side) }
        }
        5 => {
            // So near that the circles' bend is lost in rounding, and both tests may go either way.
            let most = if r.chance(4) { -1 } else { -20 };
            let d = r.spread(-54, most);
            let p = unit(add(end, scale(side, d)));
            let ulps = r.below(3) as u64;
            r.jitter(p, ulps)
        }
        6 => {
            let ulps = 1 + r.below(4) as u64;
            r.jitter(end, ulps)
        }
        7 => {
            let pole = signed(r, side);
            match r.below(3) {
                0 => pole,
                1 => r.jitter(pole, 2),
                _ => {
                    let d = r.spread(-54, -5).abs();
                    r.near(pole, d)
                }
            }
        }
        8 => {
            let ulps = r.below(3) as u64;
            neg(r.jitter(end, ulps))
        }
        _ => r.position(),
    }
}

/// The arc of an axis for a normal so long that products run over, and a position next to its pole.
fn long_normal(r: &mut Random) -> (Vec<u8>, P) {
    let axis = r.below(3);
    let across = |v: [f64; 2]| {
        let mut p = [v[0], v[1], 0.0];
        p.rotate_right((axis + 1) % 3);
        p
    };
    let mut flat = || match r.below(3) {
        0 => *r.pick(&[[1.0, 0.0], [0.0, 1.0], [0.6, 0.8], [-0.8, 0.6], [0.0, -1.0]]),
        _ => {
            let turn = r.between(-3.2, 3.2);
            [turn.cos(), turn.sin()]
        }
    };
    let mut a = arc(unit(across(flat())), unit(across(flat())));
    let (mut n, mut p) = ([0.0; 3], [0.0; 3]);
    n[axis] = match r.below(3) {
        0 => f64::MAX * r.between(0.3, 1.0),
        1 => r.spread(900, 1023),
        _ => r.spread(480, 530),
    };
    for (k, c) in p.iter_mut().enumerate() {
        *c = if k == axis { 1.0 } else { r.spread(-1060, -140) };
    }
    set_normal(&mut a, n);
    (a, signed(r, p))
}

/// An arc, and a position of that kind to it.
fn arc_and_position(r: &mut Random, kind: usize) -> (Vec<u8>, P) {
    if kind == 9 {
        return long_normal(r);
    }
    let (s, e) = ends(r);
    let mut a = arc(s, e);
    match r.below(10) {
        0 => alter(r, &mut a),
        1 => {
            let longer = scale(normal(&a), r.spread(-1074, 1023));
            if longer.iter().all(|c| c.is_finite()) {
                set_normal(&mut a, longer);
            }
        }
        _ => {}
    }
    let p = position_to(r, kind, s, e, normal(&a));
    (a, p)
}

/// Mostly as long as the result, else longer, or too short.
fn room(r: &mut Random) -> Vec<u8> {
    blank(*r.pick(&[8, 8, 8, 8, 8, 8, 8, 8, 8, 8, 8, 8, 8, 9, 16, 100, 7, 0]))
}

fn put_arc(t: &mut Tally, a: Vec<u8>, p: Vec<u8>, mut out: Vec<u8>) -> Judged<Far> {
    let far = arc_far(&a, &p);
    let call = Call { export: Export::ArcFar, args: vec![Arg::Bytes(a), Arg::Bytes(p), Arg::OutBytes(out.clone())] };
    let value = u64::from(lay(far, &mut out));
    t.put_known(call, Answer { value, outs: vec![out] });
    far
}

pub fn arcs(t: &mut Tally, r: &mut Random, n: usize) {
    let mut deciders = Deciders::new(FROM_ARC);
    for i in 0..n {
        let kind = i % FROM_ARC.len();
        let (mut a, p) = arc_and_position(r, kind);
        let mut p = bytes(p);
        // Both at once: which is judged first shows.
        let both = r.chance(40);
        for one in [&mut a, &mut p] {
            if both || r.chance(30) {
                *one = damage(r, std::mem::take(one));
            }
            if r.chance(60) {
                two_faults(r, one);
            }
        }
        let out = room(r);
        let far = put_arc(t, a, p, out);
        deciders.count(kind, &far);
    }
    deciders.report(t);
}

// ---- loops

const FROM_LOOP: [&str; 2] = ["asked as a place is", "asked of one edge"];
/// Positions that are asked of one loop.
const OF_ONE: usize = 8;

/// A position of either kind to a loop, and which it is.
fn position_of(r: &mut Random, l: &[u8]) -> (usize, P) {
    let n = if l.len() >= HEADER { count(l) } else { 0 };
    if n == 0 || l.len() != HEADER + 49 * n || r.chance(2) {
        return (0, query(r, l));
    }
    let i = if r.chance(4) { n - 1 } else { r.below(n) };
    let kind = r.below(9);
    (1, position_to(r, kind, vertex(l, i), vertex(l, i + 1), at(l, HEADER + 24 * (n + i))))
}

fn put_loop(t: &mut Tally, l: &[u8], p: Vec<u8>, mut out: Vec<u8>) -> Judged<Far> {
    let far = loop_far(l, &p);
    let args = vec![Arg::Bytes(l.to_vec()), Arg::Bytes(p), Arg::OutBytes(out.clone())];
    let value = u64::from(lay(far, &mut out));
    t.put_known(Call { export: Export::Far, args }, Answer { value, outs: vec![out] });
    far
}

type Parts = (Vec<u8>, Vec<f64>, Vec<f64>, Vec<u8>);

fn put_parts(t: &mut Tally, (h, p, m, c): Parts, q: P, mut out: Vec<f64>) -> Judged<Far> {
    let far = parts_far(&h, &p, &m, &c, q);
    let args = vec![
        Arg::Bytes(h),
        Arg::Floats(p),
        Arg::Floats(m),
        Arg::Bytes(c),
        Arg::Float(q[0]),
        Arg::Float(q[1]),
        Arg::Float(q[2]),
        Arg::OutFloats(out.clone()),
    ];
    let value = u64::from(lay_float(far, &mut out));
    let out = out.iter().flat_map(|f| f.to_le_bytes()).collect();
    t.put_known(Call { export: Export::FarF64, args }, Answer { value, outs: vec![out] });
    far
}

/// One of the parts a little too short or too long.
fn spoil(r: &mut Random, (h, p, m, c): &mut Parts) {
    match r.below(60) {
        0 => drop(h.pop()),
        1 => drop(p.pop()),
        2 => drop(m.pop()),
        3 => drop(c.pop()),
        4 => h.push(0),
        5 => p.push(0.0),
        6 => m.push(0.0),
        7 => c.push(0),
        _ => {}
    }
}

/// One loop, asked as bytes and in parts.
fn one_loop(t: &mut Tally, r: &mut Random, deciders: &mut Deciders<2>, times: usize) {
    let len = shapes::length(r);
    let l = some_loop(r, len);
    for _ in 0..times {
        let (kind, p) = position_of(r, &l);
        let p = if kind == 0 && r.chance(4) { query_bytes(r, &l) } else { bytes(p) };
        let out = room(r);
        let far = put_loop(t, &l, p, out);
        deciders.count(kind, &far);
        let mut of = parts(&l);
        spoil(r, &mut of);
        let (kind, mut q) = position_of(r, &l);
        if r.chance(30) {
            q[r.below(3)] = bad_float(r);
        }
        let out = blank_floats(*r.pick(&[1, 1, 1, 1, 1, 1, 1, 1, 1, 2, 5, 0]));
        let far = put_parts(t, of, q, out);
        deciders.count(kind, &far);
    }
}

/// So many of each of the two.
pub fn loops(t: &mut Tally, r: &mut Random, n: usize) {
    let mut deciders = Deciders::new(FROM_LOOP);
    for first in (0..n).step_by(OF_ONE) {
        one_loop(t, r, &mut deciders, OF_ONE.min(n - first));
    }
    deciders.report(t);
}

// ---- radians

type Family = (&'static str, fn(&mut Random, usize, usize) -> f64);

/// Each with the i-th of n squared chords.
const CHORDS: [Family; 8] = [
    ("radians evenly from 0 to 4", |r, i, n| 4.0 * (i as f64 + r.fraction()) / n as f64),
    ("radians evenly in bits, from 0 to 4", |r, i, n| {
        let most = u128::from(4.0_f64.to_bits());
        let start = |i: usize| (most * i as u128 / n as u128) as u64;
        f64::from_bits(start(i) + r.bits() % (start(i + 1) - start(i)).max(1))
    }),
    ("radians of the last million doubles below 4", |r, i, n| {
        let below = if n >= MILLION { i % MILLION } else { i * MILLION / n + r.below(MILLION / n) };
        nudge(4.0, -1 - below as i64)
    }),
    ("radians of 4 - 2^-k, and about it", |r, i, _| match i {
        0..54 => 4.0 - 2.0_f64.powi(2 - i as i32),
        _ => 4.0 - r.spread(-52, 1).abs(),
    }),
    ("radians of subnormals", |r, _, _| f64::from_bits(r.bits() >> (12 + r.below(52)))),
    ("radians of squared chords of positions", |r, _, _| {
        let a = r.position();
        let d = r.spread(-53, 0).abs();
        let b = match r.below(3) {
            0 => r.position(),
            1 => r.near(a, d),
            _ => neg(r.near(a, d)),
        };
        let d = [a[0] - b[0], a[1] - b[1], a[2] - b[2]];
        dot(d, d).min(4.0)
    }),
    ("radians below 0 and above 4", |r, _, _| match r.below(3) {
        0 => -r.spread(-1074, 1023).abs(),
        1 => 4.0 + r.spread(-52, 1020).abs(),
        _ => nudge(4.0, r.below(100) as i64),
    }),
    ("radians of any bits", |r, _, _| f64::from_bits(r.bits())),
];

const MILLION: usize = 1_000_000;

/// What rule 51 names, and the ends of the range.
#[rustfmt::skip]
const EDGES: [f64; 26] = [
    0.0, -0.0, 4.0, 2.0, 1.0, 3.0, -1.0, 0.5, 5e-324, -5e-324, 1e-323, f64::MIN_POSITIVE, -f64::MIN_POSITIVE, f64::EPSILON,
    f64::MAX, f64::MIN, f64::INFINITY, f64::NEG_INFINITY, f64::NAN, -f64::NAN, -2.0, -4.0, 5.0, 8.0, 16.0, 1e300,
];

fn put_radians(t: &mut Tally, family: &'static str, c: f64) {
    t.put_as(Export::Radians, vec![Arg::Word(c.to_bits())], family);
}

/// So many of each family.
pub fn radians(t: &mut Tally, r: &mut Random, n: usize) {
    for c in EDGES {
        for k in -3..=3 {
            put_radians(t, "radians at the edges", nudge(c, k));
        }
    }
    for nan in [1, 1 << 51, (1 << 51) + 1, (1 << 52) - 1] {
        for sign in [0x7FF, 0xFFF] {
            put_radians(t, "radians at the edges", f64::from_bits(sign << 52 | nan));
        }
    }
    for (name, chord) in CHORDS {
        for i in 0..n {
            let c = chord(r, i, n);
            put_radians(t, name, c);
        }
    }
}

#[cfg(test)]
mod tests {
    use super::{CHORDS, FROM_ARC, arc_and_position};
    use crate::random::{Random, bytes};
    use model::far::{Decided, arc_far};

    /// Each of the three decides often enough to be told from the others.
    #[test]
    fn all_three_decide() {
        let mut r = Random::new(1);
        let mut met = [0; 3];
        for i in 0..3_000 {
            let (a, p) = arc_and_position(&mut r, i % FROM_ARC.len());
            match arc_far(&a, &bytes(p)) {
                Ok((_, Some(Decided::Foot))) => met[0] += 1,
                Ok((_, Some(Decided::End))) => met[1] += 1,
                Ok((_, Some(Decided::Pole))) => met[2] += 1,
                _ => {}
            }
        }
        assert!(met.iter().all(|n| *n > 100), "{met:?}");
    }

    /// The families lie where they say.
    #[test]
    fn chords_lie_where_they_say() {
        let mut r = Random::new(1);
        for (name, chord) in &CHORDS[..6] {
            for n in [1, 10, 1_000] {
                for i in 0..n {
                    let c = chord(&mut r, i, n);
                    assert!((0.0..=4.0).contains(&c), "{name}: {c:e}");
                }
            }
        }
        let last: std::collections::BTreeSet<u64> =
            (0..1_000_000).map(|i| CHORDS[2].1(&mut r, i, 2_000_000).to_bits()).collect();
        let four = 4.0_f64.to_bits();
        assert_eq!((last.len(), last.first(), last.last()), (1_000_000, Some(&(four - 1_000_000)), Some(&(four - 1))));
    }
}
