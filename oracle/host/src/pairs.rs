//! Runs over two loops.
use crate::calls::{Arg, Export};
use crate::random::{P, Random, add, along, around, bytes, neg, unit};
use crate::rings::{HEADER, built_or_empty, count, damaged_loop, parts, some_loop, vertex};
use crate::shapes;
use crate::tally::Tally;

/// Midpoints of the sides: a loop inscribed in the other.
fn inscribed(list: &[P]) -> Vec<P> {
    let n = list.len();
    (0..n).map(|i| along(list[i], list[(i + 1) % n], 0.5)).collect()
}

/// The same boundary with a corner added on each of some sides.
fn subdivided(r: &mut Random, list: &[P]) -> Vec<P> {
    let n = list.len();
    let mut out = Vec::new();
    for i in 0..n {
        out.push(list[i]);
        if r.chance(2) {
            out.push(along(list[i], list[(i + 1) % n], 0.5));
        }
    }
    out
}

pub fn two_lists(r: &mut Random) -> (Vec<P>, Vec<P>) {
    let n = 3 + r.below(8);
    let m = 3 + r.below(8);
    let a = shapes::plain(r, n);
    match r.below(16) {
        0 => {
            let centre = r.unit();
            let (big, share) = (shapes::size(r).min(1.5), r.between(0.1, 1.0));
            let one = shapes::polygon(centre, n, r.chance(2), |_| big);
            let two = shapes::polygon(centre, m, r.chance(2), |_| big * share);
            (one, two)
        }
        1 => {
            // One corner shared, else apart.
            let p = a[r.below(a.len())];
            let centre = r.near(p, 0.3);
            let mut b = shapes::polygon(centre, m, true, |_| 0.1);
            b[0] = p;
            (a, b)
        }
        2 => {
            // One side shared.
            let i = r.below(a.len());
            let (p, q) = (a[i], a[(i + 1) % a.len()]);
            let apex = r.near(along(p, q, 0.5), 0.2);
            (a, vec![p, q, apex])
        }
        3 => {
            let mut b = a.clone();
            let k = r.below(b.len());
            b.rotate_left(k);
            if r.chance(2) {
                b.reverse();
            }
            (a, b)
        }
        4 => {
            let b = inscribed(&a);
            (a, b)
        }
        5 => {
            let b = subdivided(r, &a);
            (a, b)
        }
        6 => {
            // Some corners of the other, in order.
            let b: Vec<P> = a.iter().copied().filter(|_| !r.chance(3)).collect();
            (a, b)
        }
        7 => {
            let centre = r.unit();
            let one = shapes::polygon(centre, n, true, |_| 0.3);
            let two = shapes::polygon(around(centre, 1.0, 0.3), m, false, |_| 0.3);
            (one, two)
        }
        8 => {
            let centre = r.unit();
            let (one, two) = (r.between(1.3, 1.6), r.between(1.3, 1.6));
            let b = shapes::polygon(if r.chance(2) { neg(centre) } else { centre }, m, true, |_| two);
            (shapes::polygon(centre, n, true, |_| one), b)
        }
        9 => (shapes::round_set(r, n), shapes::round_set(r, m)),
        10 => {
            // A corner of one on a side of the other.
            let i = r.below(a.len());
            let p = along(a[i], a[(i + 1) % a.len()], r.fraction());
            let c = r.near(p, 0.2);
            (a, vec![p, r.near(c, 0.1), r.near(c, 0.1)])
        }
        11 => {
            let p = r.unit();
            let b = a.iter().map(|q| unit(add(*q, crate::random::scale(p, 1e-14)))).collect();
            (a, b)
        }
        12 => (shapes::lat_long_box(r, n.max(4)), shapes::lat_long_box(r, m.max(4))),
        13 => {
            let (x, y) = (shapes::any(r, n), shapes::any(r, m));
            (x, y)
        }
        14 => {
            // Octants and their kin: long sides, refusal 7.
            let pick = |r: &mut Random| (0..3).map(|_| r.round()).collect::<Vec<P>>();
            (pick(r), pick(r))
        }
        _ => {
            let b = shapes::plain(r, m);
            (a, b)
        }
    }
}

fn loop_like(r: &mut Random, list: &[P]) -> Vec<u8> {
    let list = if r.chance(8) { shapes::altered(r, list.to_vec()) } else { list.to_vec() };
    let l = built_or_empty(&list);
    if r.chance(16) {
        return damaged_loop(r, &l);
    }
    if r.chance(24) {
        // An empty cap, or a full one, round what it was not made for.
        let mut b = l.clone();
        let radius: f64 = *r.pick(&[-1.0, -1.0, 4.0, 0.0, -2.0]);
        b[32..40].copy_from_slice(&radius.to_le_bytes());
        return b;
    }
    if r.chance(16) && count(&l) > 3 {
        // Mute: the insides taken away.
        let mut b = l.clone();
        b[3] &= !4;
        return b;
    }
    l
}

fn note_domain(t: &mut Tally, a: &[u8], b: &[u8]) {
    let Ok((x, y)) = model::ask::judge_two(a, b) else { return };
    let related = model::pair::relate(&x, &y);
    if related.outside {
        t.note("outside the domain: a midpoint was needed, held to the stand-in");
    } else if a[3] & 2 != 0 || b[3] & 2 != 0 {
        t.note("outside the domain: weak");
    }
    if !model::pair::steps_agree(&x, &y) {
        println!("DIFFERENCE: the model's steps are not the source's");
        t.differences += 1;
    }
}

pub fn pair(t: &mut Tally, r: &mut Random, n: usize) {
    // Loops as built that meet refusal 7 (docs/DIFFERENCES.md).
    let a = built_or_empty(&[[-0.8, 0.0, -0.6], [1.0, 0.0, 0.0], [0.64, -0.48, 0.6]]);
    let b = built_or_empty(&[[0.0, -1.0, 0.0], [0.0, 0.0, 1.0], [1.0, 0.0, 0.0]]);
    t.put(Export::Pair, vec![Arg::Bytes(a.clone()), Arg::Bytes(b.clone())]);
    t.put(Export::Pair, vec![Arg::Bytes(b), Arg::Bytes(a)]);
    for _ in 0..n {
        let (x, y) = two_lists(r);
        let (mut a, mut b) = (loop_like(r, &x), loop_like(r, &y));
        if r.chance(20) {
            let one = if r.chance(2) { built_or_empty(&[]) } else { full() };
            if r.chance(2) { a = one } else { b = one }
        }
        if r.chance(40) {
            let len = shapes::length(r);
            a = some_loop(r, len);
        }
        note_domain(t, &a, &b);
        t.put(Export::Pair, vec![Arg::Bytes(a.clone()), Arg::Bytes(b.clone())]);
        if r.chance(3) {
            note_domain(t, &b, &a);
            t.put(Export::Pair, vec![Arg::Bytes(b.clone()), Arg::Bytes(a.clone())]);
        }
        if r.chance(3) {
            let (h, p, m, c) = parts(&a);
            let (mut h2, p2, m2, c2) = parts(&b);
            if r.chance(20) {
                h2.pop();
            }
            t.put(
                Export::PairF64,
                vec![
                    Arg::Bytes(h),
                    Arg::Floats(p),
                    Arg::Floats(m),
                    Arg::Bytes(c),
                    Arg::Bytes(h2),
                    Arg::Floats(p2),
                    Arg::Floats(m2),
                    Arg::Bytes(c2),
                ],
            );
        }
        if r.chance(4) && a.len() >= HEADER && count(&a) > 2 && a.len() == HEADER + 49 * count(&a) {
            // A corner asked as a place of the other: what relate does on its way.
            let p = vertex(&a, r.below(count(&a)));
            t.put(Export::Place, vec![Arg::Bytes(b), Arg::Bytes(bytes(p))]);
        }
    }
}

/// The full loop in bytes.
pub fn full() -> Vec<u8> {
    built_or_empty(&[[1.0, 0.0, 0.0], [0.6, 0.8, 0.0], [0.0, 1.0, 0.0]])
}
