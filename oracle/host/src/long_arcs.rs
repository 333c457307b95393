//! Runs over arcs in long mode: of any length up to a half circle and about it, with how often the two modes differ.
use crate::arcs::{alter, arc, damage, normal, room, set_normal, two, two_faults};
use crate::calls::{Answer, Arg, Call, Export};
use crate::random::{P, Random, add, along, cross, frame, neg, scale, unit};
use crate::tally::Tally;
use jord::Vec3;
use jord::spherical::{MinorArc, MinorArcRelation};
use model::arcs::read_arc;
use model::long::{Mode, relation};
use std::f64::consts::{FRAC_PI_2, PI, TAU};

/// The point of the great circle through s in direction d, at an angle from s.
fn turned(s: P, d: P, angle: f64) -> P {
    unit(add(scale(s, angle.cos()), scale(d, angle.sin())))
}

/// A direction square to s.
pub fn across(r: &mut Random, s: P) -> P {
    let (u, v) = frame(s);
    let turn = if r.chance(4) { FRAC_PI_2 * r.below(4) as f64 } else { r.between(0.0, TAU) };
    unit(add(scale(u, turn.cos()), scale(v, turn.sin())))
}

/// The start and the direction of an arc, and how long it is: mostly above a quarter circle.
fn long(r: &mut Random) -> (P, P, f64) {
    let s = r.position();
    let d = across(r, s);
    let angle = match r.below(8) {
        0 => r.between(0.01, FRAC_PI_2),
        1 => FRAC_PI_2 + r.spread(-52, -10),
        2 => PI - r.spread(-50, -3).abs(),
        _ => r.between(FRAC_PI_2, PI),
    };
    (s, d, angle)
}

/// The arc through p in any direction, with so much of it on either side.
fn through(r: &mut Random, p: P, most: f64) -> (P, P) {
    let d = across(r, p);
    let before = r.between(0.0, most);
    let after = r.between(0.0, most.min(PI - before));
    (turned(p, d, -before), turned(p, d, after))
}

fn reach(r: &mut Random) -> f64 {
    *r.pick(&[0.01, 0.5, FRAC_PI_2, 3.0])
}

type Two = (Vec<u8>, Vec<u8>);

/// The first arc, and one through the point at that share of it.
fn meeting_at(r: &mut Random, share: impl Fn(&mut Random) -> f64) -> Two {
    let (s, d, angle) = long(r);
    let at = share(r) * angle;
    let most = reach(r);
    let (b, c) = through(r, turned(s, d, at), most);
    (arc(s, turned(s, d, angle)), arc(b, c))
}

/// Half a circle from s in direction d: between antipodes, its normal of its own.
fn half(s: P, d: P) -> Vec<u8> {
    let mut a = arc(s, neg(s));
    set_normal(&mut a, cross(s, d));
    a
}

fn some_half(r: &mut Random, s: P) -> Vec<u8> {
    let d = across(r, s);
    if r.chance(6) { arc(s, neg(s)) } else { half(s, d) }
}

fn halves(r: &mut Random) -> Two {
    let s = r.position();
    let a = some_half(r, s);
    let b = match r.below(5) {
        0 => some_half(r, s),
        1 => some_half(r, neg(s)),
        2 => {
            let q = r.position();
            some_half(r, q)
        }
        3 => arc(s, r.position()),
        _ => arc(r.position(), neg(s)),
    };
    if r.chance(2) { (a, b) } else { (b, a) }
}

/// Nearly half circles, from one start or two.
fn near_halves(r: &mut Random) -> Two {
    let s = r.position();
    let near = |r: &mut Random, s: P| {
        let off = r.spread(-56, -8).abs();
        let end = neg(r.near(s, off));
        let start = if r.chance(3) { r.jitter(s, 2) } else { s };
        if r.chance(2) { arc(start, end) } else { arc(end, start) }
    };
    let other = if r.chance(3) { r.position() } else { s };
    (near(r, s), near(r, other))
}

/// Two arcs of one great circle, anywhere round it. In the plane of two axes their normals are the same but for the sign; elsewhere
/// they are off by last bits, and the arcs meet somewhere on the circle.
fn on_one_circle(r: &mut Random, off: f64) -> Two {
    let (mut s, mut d, angle) = long(r);
    if r.chance(2) {
        (s, d) = ([1.0, 0.0, 0.0], [0.0, 1.0, 0.0]);
        let k = r.below(3);
        s.rotate_right(k);
        d.rotate_right(k);
    }
    let begin = match r.below(4) {
        0 => 0.0,
        1 => angle,
        2 => r.below(32) as f64 * PI / 16.0,
        _ => r.between(0.0, TAU),
    };
    let span = if r.chance(3) { r.below(16) as f64 * PI / 16.0 } else { r.between(0.0, PI) };
    let mut q = [0.0, angle, begin, begin + span].map(|t| turned(s, d, t));
    if off > 0.0 {
        let k = r.below(4);
        q[k] = r.near(q[k], off);
    }
    if r.chance(4) {
        q.swap(2, 3);
    }
    (arc(q[0], q[1]), arc(q[2], q[3]))
}

/// A normal of a size at which products, squares or sums run over, or are lost beside others.
fn sized(r: &mut Random, a: &mut [u8]) {
    let n = match r.below(4) {
        0 => [r.spread(1000, 1023), r.spread(1000, 1023), r.spread(1000, 1023)],
        1 => [f64::MAX, -f64::MAX, f64::MAX].map(|c| if r.chance(3) { 0.0 } else { c }),
        _ => {
            let by = match r.below(4) {
                0 => r.spread(252, 260),
                1 => r.spread(505, 515),
                2 => r.spread(1000, 1022),
                _ => r.spread(-1070, -20),
            };
            scale(normal(a), by)
        }
    };
    if n.iter().all(|c| c.is_finite()) {
        set_normal(a, n);
    }
}

/// A direction in the plane square to an axis, mostly one whose products come out round.
pub fn flat(r: &mut Random) -> [f64; 2] {
    match r.below(3) {
        0 => {
            let turn = r.between(-PI, PI);
            let p = unit([turn.cos(), turn.sin(), 0.0]);
            [p[0], p[1]]
        }
        _ => *r.pick(&[[1.0, 0.0], [0.0, 1.0], [0.6, 0.8], [-0.8, 0.6], [0.0, -1.0], [-0.6, -0.8]]),
    }
}

/// That direction where the axis is.
pub fn in_plane(axis: usize, v: [f64; 2]) -> P {
    let mut p = [v[0], v[1], 0.0];
    p.rotate_right((axis + 1) % 3);
    p
}

/// A normal along the axis, so long that the retest of a side is NaN.
pub fn too_long(r: &mut Random, axis: usize) -> P {
    let mut n = [0.0; 3];
    n[axis] = f64::MAX * r.between(0.3, 1.0) * if r.chance(2) { 1.0 } else { -1.0 };
    n
}

/// A normal along the axis that leans by so little that its product with such a one stays finite, and points that way.
pub fn leaning(r: &mut Random, axis: usize, towards: [f64; 2]) -> P {
    let mut pole = [0.0; 3];
    pole[axis] = if r.chance(2) { 1.0 } else { -1.0 };
    add(pole, scale(in_plane(axis, [-towards[1], towards[0]]), r.spread(-560, -500)))
}

/// Two arcs of the plane square to an axis, of which the circles meet at an end of one, or anywhere in the plane.
fn beside_nan(r: &mut Random) -> Two {
    let axis = r.below(3);
    let [s, e, b, c, other] = [0; 5].map(|_| flat(r));
    let towards = *r.pick(&[s, e, e, b, other]);
    let (mut first, mut second) =
        (arc(in_plane(axis, s), in_plane(axis, e)), arc(in_plane(axis, b), in_plane(axis, c)));
    set_normal(&mut first, too_long(r, axis));
    set_normal(&mut second, leaning(r, axis, towards));
    if r.chance(3) { (second, first) } else { (first, second) }
}

fn with_normals(r: &mut Random, alter: fn(&mut Random, &mut [u8])) -> Two {
    let mut q = match r.below(3) {
        0 => halves(r),
        1 => meeting_at(r, Random::fraction),
        _ => {
            let p = two(r);
            (arc(p[0], p[1]), arc(p[2], p[3]))
        }
    };
    match r.below(3) {
        0 => alter(r, &mut q.0),
        1 => alter(r, &mut q.1),
        _ => {
            alter(r, &mut q.0);
            alter(r, &mut q.1);
        }
    }
    q
}

/// Ends that are shared, or opposite to each other.
fn shared(r: &mut Random) -> Two {
    let (s, d, angle) = long(r);
    let e = turned(s, d, angle);
    let end = *r.pick(&[s, e, neg(s), neg(e)]);
    let other = match r.below(4) {
        0 => *r.pick(&[s, e, neg(s), neg(e)]),
        1 => r.position(),
        _ => {
            let (_, d, angle) = long(r);
            turned(end, unit(cross(end, d)), angle)
        }
    };
    let b = if r.chance(2) { arc(end, other) } else { arc(other, end) };
    (arc(s, e), b)
}

/// An end of the second on the first, behind its start or before it.
fn end_on(r: &mut Random) -> Two {
    let (s, d, angle) = long(r);
    let share = if r.chance(3) { r.below(5) as f64 / 4.0 } else { r.fraction() };
    let mut on = turned(s, d, share * angle);
    if r.chance(4) {
        on = neg(on);
    }
    let far = r.position();
    let (a, b) = (arc(s, turned(s, d, angle)), if r.chance(2) { arc(on, far) } else { arc(far, on) });
    if r.chance(3) { (b, a) } else { (a, b) }
}

type Family = (&'static str, bool, fn(&mut Random) -> Two);

/// Each with a name, and whether its arcs are as built.
const FAMILIES: [Family; 15] = [
    ("both long", true, |r| {
        let ((s, d, angle), (t, e, other)) = (long(r), long(r));
        (arc(s, turned(s, d, angle)), arc(t, turned(t, e, other)))
    }),
    ("met behind the start", true, |r| meeting_at(r, |r| r.between(0.5, 1.0))),
    ("met before it", true, |r| meeting_at(r, |r| r.between(0.0, 0.5))),
    ("the opposite met", true, |r| {
        let (s, d, angle) = long(r);
        let (at, most) = (r.fraction() * angle, reach(r));
        let (b, c) = through(r, neg(turned(s, d, at)), most);
        (arc(s, turned(s, d, angle)), arc(b, c))
    }),
    ("an end on the other", true, end_on),
    ("ends shared or opposite", true, shared),
    ("half circles", false, halves),
    ("nearly half circles", true, near_halves),
    ("of one circle", true, |r| on_one_circle(r, 0.0)),
    ("nearly of one circle", true, |r| {
        let off = r.spread(-56, -30).abs();
        on_one_circle(r, off)
    }),
    ("equal ends", true, |r| {
        let p = r.position();
        let q = *r.pick(&[p, neg(p), along(p, neg(p), 0.5)]);
        let a = arc(p, p);
        let b = if r.chance(3) { arc(q, q) } else { arc(q, r.position()) };
        if r.chance(2) { (a, b) } else { (b, a) }
    }),
    ("round positions", true, |r| (arc(r.round(), r.round()), arc(r.round(), r.round()))),
    ("altered normals", false, |r| with_normals(r, alter)),
    ("normals that run over", false, |r| with_normals(r, sized)),
    ("a NaN beside an end", false, beside_nan),
];

/// What became of a family's pairs: by relation in each mode, how many differ, and how many were refused.
#[derive(Clone, Copy, Default)]
struct Row {
    plain: [u64; 4],
    long: [u64; 4],
    differ: u64,
    refused: u64,
    /// The point itself is NaN, or a product by which it is placed.
    nan: u64,
}

impl Row {
    fn line(&self, name: &str) -> String {
        let told = |c: [u64; 4]| format!("{} {} {} {}", c[0], c[1], c[2], c[3]);
        let pairs: u64 = self.plain.iter().sum();
        format!(
            "{name:<24} plain {:<36} long {:<36} {} of {pairs} differ, {} refused, {} NaN",
            told(self.plain),
            told(self.long),
            self.differ,
            self.refused,
            self.nan
        )
    }

    fn add(&mut self, o: &Row) {
        self.plain.iter_mut().zip(o.plain).for_each(|(a, b)| *a += b);
        self.long.iter_mut().zip(o.long).for_each(|(a, b)| *a += b);
        self.differ += o.differ;
        self.refused += o.refused;
        self.nan += o.nan;
    }
}

/// Both modes' answers with room for all, into a row: the value and what is written.
fn count(row: &mut Row, a: &[u8], b: &[u8]) {
    let (mut plain, mut long) = (vec![0; 72], vec![0; 72]);
    let told = model::desk_arc_relate(a, b, &mut plain);
    let told_long = model::desk_arc_relate_long(a, b, &mut long);
    if told >= 65_536 {
        row.refused += 1;
        return;
    }
    row.plain[told as usize] += 1;
    row.long[told_long as usize] += 1;
    row.differ += u64::from((told, plain) != (told_long, long));
    row.nan += u64::from(runs_over(a, b));
}

fn runs_over(a: &[u8], b: &[u8]) -> bool {
    let (Ok(a), Ok(b)) = (read_arc(a), read_arc(b)) else { return false };
    let i = a.normal().stable_cross_prod_unit(b.normal());
    let placed = |of: MinorArc, end: Vec3| {
        i.dot_prod(of.normal().cross_prod(end)).is_nan() || i.dot_prod(of.normal().orthogonal_to(end)).is_nan()
    };
    [a, b].iter().any(|of| placed(*of, of.start().as_vec3()) || placed(*of, of.end().as_vec3()))
}

fn rank(m: MinorArcRelation) -> u8 {
    match m {
        MinorArcRelation::Disjoint => 0,
        MinorArcRelation::Touching(_) => 1,
        MinorArcRelation::Intersecting(_) => 2,
        MinorArcRelation::Overlapping(_) => 3,
    }
}

/// Of arcs as built the source, asked of the first walked either way, tries both points: the better of its two answers must be the long
/// mode's. Not so where the first has nearly equal or opposite ends: then one point may be on both ends' side, or on neither's.
fn held_to_source(t: &mut Tally, a: &[u8], b: &[u8]) {
    let (Ok(a), Ok(b)) = (read_arc(a), read_arc(b)) else { return };
    let (s, e) = (a.start().as_vec3(), a.end().as_vec3());
    if s.dot_prod(e).abs() > 1.0 - 1e-12 {
        t.note("the first has nearly equal or opposite ends: the source is not asked either way");
        return;
    }
    let best = rank(a.relate(b)).max(rank(a.opposite().relate(b)));
    if rank(relation(Mode::Long, a, b)) == best {
        t.note("as the source has it, asked of the first arc walked either way");
    } else {
        println!("DIFFERENCE: the long mode is not the better of what the source says either way: {a:?} {b:?}");
        t.differences += 1;
    }
}

fn put(t: &mut Tally, export: Export, a: &[u8], b: &[u8], out: Vec<u8>) {
    t.put(export, vec![Arg::Bytes(a.to_vec()), Arg::Bytes(b.to_vec()), Arg::OutBytes(out)]);
}

fn put_relate(t: &mut Tally, a: &[u8], b: &[u8], mut out: Vec<u8>) {
    let args = vec![Arg::Bytes(a.to_vec()), Arg::Bytes(b.to_vec()), Arg::OutBytes(out.clone())];
    let value = u64::from(model::desk_arc_relate_long(a, b, &mut out));
    t.put_known(Call { export: Export::ArcRelateLong, args }, Answer { value, outs: vec![out] });
}

/// -0.0 for some zeros.
pub fn signed(r: &mut Random, floats: &mut [u8]) {
    for c in floats.chunks_exact_mut(8) {
        if c == [0; 8] && r.chance(2) {
            c[7] = 0x80;
        }
    }
}

/// So many pairs of arcs, each asked where they meet and how they relate; one in four in plain mode, too.
pub fn arcs(t: &mut Tally, r: &mut Random, n: usize) {
    let mut rows = [Row::default(); FAMILIES.len()];
    for i in 0..n {
        let kind = i % FAMILIES.len();
        let (_, as_built, family) = FAMILIES[kind];
        let (mut a, mut b) = family(r);
        if as_built {
            held_to_source(t, &a, &b);
        }
        // Both at once: which is judged first shows.
        let both = r.chance(60);
        for one in [&mut a, &mut b] {
            if r.chance(16) {
                signed(r, one);
            }
            if both || r.chance(60) {
                *one = damage(r, std::mem::take(one));
            }
            if r.chance(90) {
                two_faults(r, one);
            }
        }
        count(&mut rows[kind], &a, &b);
        put(t, Export::ArcIntersectionLong, &a, &b, room(r));
        put_relate(t, &a, &b, room(r));
        if r.chance(4) {
            put(t, Export::ArcIntersection, &a, &b, room(r));
            put(t, Export::ArcRelate, &a, &b, room(r));
        }
    }
    t.lines.push(
        "disjoint, intersecting, touching, overlapping in each mode, and how many pairs of arcs differ:".to_string(),
    );
    let mut all = Row::default();
    for ((name, ..), row) in FAMILIES.iter().zip(&rows) {
        t.lines.push(row.line(name));
        all.add(row);
    }
    t.lines.push(all.line("in all"));
}

#[cfg(test)]
mod tests {
    use super::FAMILIES;
    use crate::random::Random;
    use model::arcs::read_arc;
    use model::long::{Meeting, Mode, meeting};

    /// Of a point and its opposite, one that crosses leaves the other apart, and a touch leaves no crossing, since the sides of the one are opposite to
    /// the other's, or both right where they are NaN. So nothing but the order of two touches can be seen of the ranks.
    #[test]
    fn two_points_are_met_as_touches_alone() {
        let mut r = Random::new(1);
        let mut touches = 0;
        for i in 0..20_000 {
            let (a, b) = FAMILIES[i % FAMILIES.len()].2(&mut r);
            let (a, b) = (read_arc(&a).unwrap(), read_arc(&b).unwrap());
            let (near, best) = (meeting(Mode::Plain, a, b), meeting(Mode::Long, a, b));
            match (near, best) {
                (Meeting::Touching(p), Meeting::Touching(q)) => {
                    assert_eq!(p, q);
                    touches += 1;
                }
                (Meeting::Touching(_), other) => panic!("{other:?} outranks a touch: {a:?} {b:?}"),
                (Meeting::Crossing(p), other) => assert_eq!(other, Meeting::Crossing(p)),
                _ => {}
            }
        }
        assert!(touches > 1_000, "{touches}");
    }

    /// The modes differ where arcs meet behind the first one's start, and hardly where they meet before it.
    #[test]
    fn the_modes_differ() {
        let mut r = Random::new(1);
        let mut differ = |name: &str| {
            let (_, _, family) = FAMILIES.iter().find(|f| f.0 == name).unwrap();
            let told = |(a, b): (Vec<u8>, Vec<u8>)| (read_arc(&a).unwrap(), read_arc(&b).unwrap());
            (0..2_000)
                .map(|_| told(family(&mut r)))
                .filter(|(a, b)| meeting(Mode::Plain, *a, *b) != meeting(Mode::Long, *a, *b))
                .count()
        };
        assert!(differ("met behind the start") > 600 && differ("met before it") < 20);
        for name in ["half circles", "nearly half circles", "ends shared or opposite", "equal ends", "altered normals"]
        {
            assert!(differ(name) > 50, "{name}");
        }
    }
}
