//! Runs over arcs: made, turned round, asked, met and related, whole and damaged.
use crate::calls::{Arg, Export, blank};
use crate::random::{P, Random, add, along, border_lengths, bytes, cross, frame, neg, scale, unit};
use crate::tally::Tally;

/// 72 bytes, the normal by the source.
pub fn arc(start: P, end: P) -> Vec<u8> {
    let mut out = vec![0; 72];
    model::desk_arc(&bytes(start), &bytes(end), &mut out);
    out
}

pub fn ends(r: &mut Random) -> (P, P) {
    let a = r.position();
    match r.below(8) {
        0 => (a, a),
        1 => (a, neg(a)),
        2 => {
            let d = r.spread(-50, -20).abs();
            (a, r.near(a, d))
        }
        3 => {
            let d = r.spread(-50, -3).abs();
            (a, neg(r.near(a, d)))
        }
        4 => (r.round(), r.round()),
        _ => (a, r.position()),
    }
}

/// Points of one great circle through two frame directions.
fn circle(r: &mut Random) -> impl Fn(f64) -> P + use<> {
    let pole = if r.chance(2) { r.round() } else { r.unit() };
    let (u, v) = frame(pole);
    move |t: f64| unit(add(scale(u, t.cos()), scale(v, t.sin())))
}

/// Two arcs that stand to each other in some way worth trying.
pub fn two(r: &mut Random) -> [P; 4] {
    let (a, b) = ends(r);
    match r.below(12) {
        0 => [a, b, b, r.position()],
        1 => [a, b, a, r.position()],
        2 => [a, b, r.position(), along(a, b, r.fraction())],
        3 => {
            // Through one point, both ways.
            let p = r.position();
            let (c, d) = (r.near(p, 0.5), r.near(p, 0.5));
            [c, unit(add(scale(p, 1.5), neg(c))), d, unit(add(scale(p, 1.5), neg(d)))]
        }
        4 | 5 => {
            let on = circle(r);
            let mut at = [0.0; 4].map(|_: f64| r.below(16) as f64 * 0.2);
            if r.chance(2) {
                at = [r.between(0.0, 3.0), r.between(0.0, 3.0), r.between(0.0, 3.0), r.between(0.0, 3.0)];
            }
            at.map(on)
        }
        6 => [a, b, a, b],
        7 => [a, b, b, a],
        8 => {
            let on = circle(r);
            let off = *r.pick(&[1e-16, 1e-15, 1e-13]);
            let mut q = [0.1, 1.0, 0.5, 1.4].map(on);
            q[2] = r.near(q[2], off);
            q
        }
        9 => [r.round(), r.round(), r.round(), r.round()],
        10 => [a, b, along(a, b, 0.25), along(a, b, 0.75)],
        _ => {
            let (c, d) = ends(r);
            [a, b, c, d]
        }
    }
}

pub fn set_normal(arc: &mut [u8], n: P) {
    arc[48..72].copy_from_slice(&bytes(n));
}

pub fn normal(arc: &[u8]) -> P {
    std::array::from_fn(|i| f64::from_le_bytes(arc[48 + 8 * i..56 + 8 * i].try_into().unwrap()))
}

/// A normal that the arc was not built with.
pub fn alter(r: &mut Random, arc: &mut [u8]) {
    let n = normal(arc);
    let with = match r.below(9) {
        0 => neg(n),
        1 => r.jitter(n, 3),
        2 => r.unit(),
        3 => [0.0; 3],
        4 => scale(n, 1e308),
        5 => scale(n, 1e-308),
        6 => n.map(|c| if c == 0.0 { -0.0 } else { c }),
        7 => cross(n, r.unit()),
        _ => [f64::MAX, -f64::MAX, f64::MAX],
    };
    set_normal(arc, with);
}

/// One field wrong: a component, a norm at the border, a length.
pub fn damage(r: &mut Random, mut b: Vec<u8>) -> Vec<u8> {
    let floats = b.len() / 8;
    match r.below(6) {
        0 | 1 if floats > 0 => {
            let at = 8 * r.below(floats);
            let bad = *r.pick(&[f64::NAN, f64::INFINITY, f64::NEG_INFINITY, 1e200, 2.0, 0.0, -0.0]);
            b[at..at + 8].copy_from_slice(&bad.to_le_bytes());
        }
        2 | 3 if floats >= 3 => {
            let at = 24 * r.below(floats / 3);
            let borders = border_lengths();
            let mut p = [0.0; 3];
            p[r.below(3)] = *r.pick(&borders) * if r.chance(2) { 1.0 } else { -1.0 };
            b[at..at + 24].copy_from_slice(&bytes(p));
        }
        4 => {
            let keep = r.below(b.len() + 1);
            b.truncate(keep);
        }
        _ => b.extend(blank(1 + r.below(30))),
    }
    b
}

/// Two of: a position that is not finite, one out of range, a normal that is not finite.
pub fn two_faults(r: &mut Random, b: &mut [u8]) {
    for _ in 0..2 {
        let at = 24 * r.below((b.len() / 24).max(1));
        if b.len() < at + 24 {
            return;
        }
        let f = *r.pick(&[f64::NAN, f64::INFINITY, 0.5, 3.0]);
        let at = at + 8 * r.below(3);
        b[at..at + 8].copy_from_slice(&f.to_le_bytes());
    }
}

fn near_point(r: &mut Random, q: [P; 4]) -> P {
    let (a, b) = (q[0], q[1]);
    match r.below(7) {
        0 => a,
        1 => b,
        2 => along(a, b, r.fraction()),
        3 => along(a, b, r.between(-1.0, 2.0)),
        4 => {
            let d = r.spread(-53, -40).abs();
            let p = along(a, b, r.fraction());
            r.near(p, d)
        }
        5 => neg(along(a, b, r.fraction())),
        _ => r.position(),
    }
}

pub fn room(r: &mut Random) -> Vec<u8> {
    blank(*r.pick(&[72, 72, 72, 100, 71, 24, 23, 0]))
}

pub fn arcs(t: &mut Tally, r: &mut Random, n: usize) {
    for _ in 0..n {
        let q = two(r);
        let (mut a, mut b) = (arc(q[0], q[1]), arc(q[2], q[3]));
        let (mut s, mut e) = (bytes(q[0]), bytes(q[1]));
        let mut p = bytes(near_point(r, q));
        if r.chance(5) {
            alter(r, &mut a);
        }
        if r.chance(5) {
            alter(r, &mut b);
        }
        for one in [&mut a, &mut b, &mut s, &mut e, &mut p] {
            if r.chance(12) {
                *one = damage(r, std::mem::take(one));
            }
            if r.chance(24) {
                // Two faults in one: their order shows.
                two_faults(r, one);
            }
        }
        let by = |b: &Vec<u8>| Arg::Bytes(b.clone());
        let out = Arg::OutBytes(room(r));
        t.put(Export::Arc, vec![by(&s), by(&e), out]);
        let out = Arg::OutBytes(room(r));
        t.put(Export::ArcOpposite, vec![by(&a), out]);
        t.put(Export::ArcSide, vec![by(&a), by(&p)]);
        t.put(Export::ArcContains, vec![by(&a), by(&p)]);
        let out = Arg::OutBytes(room(r));
        t.put(Export::ArcIntersection, vec![by(&a), by(&b), out]);
        let out = Arg::OutBytes(room(r));
        t.put(Export::ArcRelate, vec![by(&a), by(&b), out]);
    }
}
