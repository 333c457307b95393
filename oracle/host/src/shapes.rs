//! Lists of positions of every shape that the runs feed to the builder.
use crate::random::{P, Random, add, along, around, cross, degrees, frame, neg, nudge, scale, unit};
use std::f64::consts::TAU;

/// A polygon round a centre; the radius of corner i is `radius(i)`; clockwise seen from outside if `clockwise`.
pub fn polygon(centre: P, n: usize, clockwise: bool, radius: impl Fn(usize) -> f64) -> Vec<P> {
    let sign = if clockwise { -1.0 } else { 1.0 };
    (0..n).map(|i| around(centre, sign * TAU * i as f64 / n as f64, radius(i))).collect()
}

/// Convex, of any size below a quarter circle.
pub fn convex(r: &mut Random, n: usize) -> Vec<P> {
    let radius = size(r);
    let clockwise = r.chance(2);
    polygon(r.unit(), n, clockwise, |_| radius)
}

/// Radii in turn long and short.
pub fn star(r: &mut Random, n: usize) -> Vec<P> {
    let (long, share) = (size(r), r.between(0.2, 0.9));
    let clockwise = r.chance(2);
    polygon(r.unit(), n, clockwise, |i| if i % 2 == 0 { long } else { long * share })
}

/// Radii at random: simple, with reflex corners anywhere.
pub fn ragged(r: &mut Random, n: usize) -> Vec<P> {
    let long = size(r);
    let radii: Vec<f64> = (0..n).map(|_| long * r.between(0.3, 1.0)).collect();
    let clockwise = r.chance(2);
    polygon(r.unit(), n, clockwise, |i| radii[i])
}

/// From 1e-9 to beyond a quarter circle.
pub fn size(r: &mut Random) -> f64 {
    match r.below(8) {
        0 => 1e-9,
        1 => r.between(1e-8, 1e-6),
        2 => r.between(1.2, 1.6),
        3 => r.between(1.5, 1.64),
        _ => r.between(0.001, 1.2),
    }
}

/// Corners of a comb: many reflex ones, long scans for an ear.
pub fn comb(r: &mut Random, n: usize) -> Vec<P> {
    let teeth = (n / 2).max(2);
    let (lat, long) = (r.between(-40.0, 40.0), r.between(-180.0, 180.0));
    let step = 30.0 / teeth as f64;
    let mut list = Vec::new();
    for i in 0..teeth {
        list.push(degrees(lat + if i % 2 == 0 { 0.0 } else { 8.0 }, long + step * i as f64));
    }
    for i in (0..teeth).rev() {
        list.push(degrees(lat + if i % 2 == 0 { -1.0 } else { 7.0 }, long + step * i as f64));
    }
    list
}

/// Points of one great circle, in order or not.
pub fn great_circle(r: &mut Random, n: usize) -> Vec<P> {
    let pole = if r.chance(2) { r.round() } else { r.unit() };
    let (u, v) = frame(pole);
    let span = *r.pick(&[TAU, TAU / 2.0, 1.0, 0.001]);
    let at = |t: f64| unit(add(scale(u, t.cos()), scale(v, t.sin())));
    (0..n).map(|i| at(if r.chance(8) { r.between(0.0, span) } else { span * i as f64 / n as f64 })).collect()
}

/// A box of latitudes and longitudes with points on its sides.
pub fn lat_long_box(r: &mut Random, n: usize) -> Vec<P> {
    let south = *r.pick(&[-90.0, -45.0, 0.0, 10.0, 60.0]);
    let north = south + *r.pick(&[1e-6, 1.0, 10.0, 30.0]);
    let west = *r.pick(&[-180.0, -10.0, 0.0, 170.0, 179.5]);
    let east = west + *r.pick(&[1e-6, 1.0, 10.0, 90.0]);
    let mut list = vec![degrees(south, west), degrees(south, east), degrees(north, east), degrees(north, west)];
    while list.len() < n {
        let i = r.below(list.len());
        let next = list[(i + 1) % list.len()];
        list.insert(i + 1, along(list[i], next, r.fraction()));
    }
    list
}

/// A small set of round positions: equal corners, antipodes and great circles all turn up.
pub fn round_set(r: &mut Random, n: usize) -> Vec<P> {
    (0..n).map(|_| r.round()).collect()
}

/// Near one axis, where cross products underflow.
pub fn underflowing(r: &mut Random, n: usize) -> Vec<P> {
    let first = r.tiny();
    let axis = (0..3).find(|i| first[*i].abs() == 1.0).unwrap();
    (0..n)
        .map(|_| {
            let mut p = [r.spread(-545, -535), r.spread(-545, -535), r.spread(-545, -535)];
            if r.chance(4) {
                p[r.below(3)] = 0.0;
            }
            p[axis] = first[axis];
            if r.chance(12) {
                p[axis] = 0.0 - p[axis];
            }
            p
        })
        .collect()
}

/// Corners symmetric about the centre of the sphere: their sum is near zero.
pub fn symmetric(r: &mut Random, n: usize) -> Vec<P> {
    let half: Vec<P> = (0..n.div_ceil(2)).map(|_| r.position()).collect();
    half.iter().copied().chain(half.iter().map(|p| neg(*p))).take(n).collect()
}

/// Corners on both sides of a great circle by a few ulps: nearly collinear.
pub fn nearly_collinear(r: &mut Random, n: usize) -> Vec<P> {
    let (a, b) = (r.unit(), r.unit());
    let normal = unit(cross(a, b));
    let off = *r.pick(&[1e-17, 1e-16, 1e-15, 1e-14, 1e-12]);
    (0..n)
        .map(|i| {
            let p = along(a, b, i as f64 / n as f64);
            unit(add(p, scale(normal, r.between(-off, off))))
        })
        .collect()
}

/// What may happen to a list before it is given: closed, closed twice, corners repeated, -0.0, turned, a few ulps off.
pub fn altered(r: &mut Random, mut list: Vec<P>) -> Vec<P> {
    if list.is_empty() {
        return list;
    }
    if r.chance(6) {
        let i = r.below(list.len());
        list.insert(i, list[i]);
    }
    if r.chance(12) {
        let (i, j) = (r.below(list.len()), r.below(list.len()));
        list.insert(i, list[j]);
    }
    if r.chance(4) {
        list.reverse();
    }
    if r.chance(6) {
        let k = r.below(list.len());
        list.rotate_left(k);
    }
    if r.chance(4) {
        list.push(list[0]);
        if r.chance(4) {
            list.push(list[0]);
        }
    }
    if r.chance(8) {
        let i = r.below(list.len());
        list[i] = list[i].map(|c| nudge(c, 1));
    }
    if r.chance(3) {
        for p in &mut list {
            *p = p.map(|c| if c == 0.0 && r.chance(2) { -0.0 } else { c });
        }
    }
    list
}

/// A list of about n positions, of any shape.
pub fn any(r: &mut Random, n: usize) -> Vec<P> {
    let list = match r.below(13) {
        0 | 1 => convex(r, n),
        2 => star(r, n),
        3 => ragged(r, n),
        4 => comb(r, n),
        5 => great_circle(r, n),
        6 => lat_long_box(r, n),
        7 => round_set(r, n),
        8 => underflowing(r, n),
        9 => symmetric(r, n),
        10 => nearly_collinear(r, n),
        11 => {
            let p = r.position();
            let spread = *r.pick(&[1e-15, 1e-9, 1e-3, 0.5]);
            (0..n).map(|_| r.near(p, spread)).collect()
        }
        _ => (0..n).map(|_| r.position()).collect(),
    };
    altered(r, list)
}

/// Mostly short, now and then long.
pub fn length(r: &mut Random) -> usize {
    match r.below(40) {
        0 => 100 + r.below(412),
        1..=4 => 13 + r.below(60),
        5 => r.below(3),
        _ => 3 + r.below(10),
    }
}

/// A shape that makes a simple ring with insides, for questions.
pub fn plain(r: &mut Random, n: usize) -> Vec<P> {
    match r.below(5) {
        0 => star(r, n),
        1 => ragged(r, n),
        2 => lat_long_box(r, n.max(4)),
        _ => convex(r, n),
    }
}
