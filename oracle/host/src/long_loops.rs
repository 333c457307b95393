//! Runs over loops of the long mode: built, asked of places, of their shape and in pairs, with how often the two modes differ.
use crate::calls::{Answer, Arg, Call, Export, blank};
use crate::long_arcs::{across, flat, in_plane, leaning, signed, too_long as too_long_normal};
use crate::pairs::{full, two_lists};
use crate::random::{P, Random, add, along, around, bytes, list_bytes, neg, scale, unit};
use crate::rings::{
    HEADER, at, bad_float, built_in, count, damaged_loop, like, parts, put_build, query, query_bytes, too_long, vertex,
};
use crate::shapes;
use crate::tally::Tally;
use model::long::Mode;
use model::loops::{INSIDES, LONG};
use std::collections::BTreeMap;
use std::f64::consts::{FRAC_PI_2, PI, TAU};

/// How the two modes answered, of what neither refuses for what it is.
struct Modes {
    words: &'static [&'static str],
    met: BTreeMap<(u32, u32), u64>,
}

impl Modes {
    fn new(words: &'static [&'static str]) -> Self {
        Modes { words, met: BTreeMap::new() }
    }

    fn count(&mut self, plain: u32, long: u32) {
        if self.word(plain).is_some() || self.word(long).is_some() {
            *self.met.entry((plain, long)).or_default() += 1;
        }
    }

    /// The answer's word, or 7; none of what a loop or a position is refused for.
    fn word(&self, told: u32) -> Option<&'static str> {
        if told == 65_543 { Some("7") } else { self.words.get(told as usize).copied() }
    }

    fn report(&self, t: &mut Tally, what: &str) {
        let sum = |of: &dyn Fn(&(u32, u32)) -> bool| self.met.iter().filter(|m| of(m.0)).map(|m| m.1).sum::<u64>();
        let (all, differ) = (sum(&|_| true), sum(&|m| m.0 != m.1));
        t.lines.push(format!("plain and long differ in {differ} of {all} {what}"));
        for ((plain, long), n) in self.met.iter().filter(|m| m.0.0 != m.0.1) {
            let word = |told: u32| self.word(told).unwrap_or("refused");
            t.lines.push(format!("  plain {}, long {}: {n}", word(*plain), word(*long)));
        }
    }
}

/// The same loop in that mode, whatever it was.
fn in_mode(l: &[u8], mode: Mode) -> Vec<u8> {
    let mut b = l.to_vec();
    if b.len() > 3 {
        b[3] = b[3] & !LONG | if mode == Mode::Long { LONG } else { 0 };
    }
    b
}

// ---- lists

/// Round a centre, with one gap of nearly half the round: the side across it is long.
fn gaping(r: &mut Random, n: usize) -> Vec<P> {
    let (centre, radius) = (r.unit(), r.between(0.9, 1.56));
    let gap = r.between(FRAC_PI_2, 0.99 * PI);
    let from = r.between(0.0, TAU);
    let turn = |i: usize| from + gap + (TAU - gap) * i as f64 / (n - 1) as f64;
    (0..n).map(|i| around(centre, turn(i), radius)).collect()
}

/// Along a great circle for more than a quarter of it, and back beside it: two long sides where there are but four corners.
fn sliver(r: &mut Random, n: usize) -> Vec<P> {
    let s = r.unit();
    let d = across(r, s);
    let pole = unit(crate::random::cross(s, d));
    let (length, wide) = (r.between(FRAC_PI_2, 3.1), *r.pick(&[1e-9, 1e-3, 0.1, 0.6]));
    let at = |t: f64, off: f64| {
        let on = unit(add(scale(s, t.cos()), scale(d, t.sin())));
        unit(add(scale(on, off.cos()), scale(pole, off.sin())))
    };
    let half = (n / 2).max(2);
    let there = (0..half).map(|i| at(length * i as f64 / (half - 1) as f64, 0.0));
    let back = (0..half).map(|i| at(length * (1.0 - i as f64 / (half - 1) as f64), wide));
    there.chain(back).collect()
}

/// From a corner to its antipode, or nearly, and back.
fn lune(r: &mut Random, n: usize) -> Vec<P> {
    let s = r.position();
    let off = r.spread(-54, -2).abs();
    let e = if r.chance(4) { neg(s) } else { neg(r.near(s, off)) };
    let mut list = vec![s];
    for _ in 0..(n / 2).max(1) {
        let d = across(r, s);
        list.push(d);
    }
    list.insert(1 + r.below(list.len()), e);
    list
}

/// With sides of any length: mostly few corners.
fn wide(r: &mut Random) -> Vec<P> {
    let n = if r.chance(10) { shapes::length(r).max(3) } else { 3 + r.below(5) };
    match r.below(9) {
        0 | 1 => gaping(r, n),
        2 => sliver(r, n),
        3 => lune(r, n),
        4 => {
            let (radius, clockwise) = (r.between(1.0, 1.7), r.chance(2));
            shapes::polygon(r.unit(), n, clockwise, |_| radius)
        }
        5 => {
            let (radius, share) = (r.between(1.0, 2.8), r.between(0.2, 0.9));
            shapes::polygon(r.unit(), n, true, |i| if i % 2 == 0 { radius } else { radius * share })
        }
        6 => shapes::round_set(r, n),
        7 => (0..n).map(|_| r.position()).collect(),
        _ => shapes::symmetric(r, n),
    }
}

fn some_list(r: &mut Random) -> Vec<P> {
    match r.below(8) {
        0 => {
            let n = shapes::length(r).max(3);
            shapes::plain(r, n)
        }
        1 => {
            let n = shapes::length(r);
            shapes::any(r, n)
        }
        2 => {
            let list = wide(r);
            shapes::altered(r, list)
        }
        _ => wide(r),
    }
}

pub fn build(t: &mut Tally, r: &mut Random, n: usize) {
    let exports = [Export::BuildLong, Export::BuildLongF64];
    for len in 0..516 {
        let list = shapes::ragged(r, len);
        put_build(t, r, &list, exports);
    }
    for list in [vec![], vec![[1.0, 0.0, 0.0]; 3], vec![[1.0, 0.0, 0.0], [0.6, 0.8, 0.0], [0.0, 1.0, 0.0]]] {
        put_build(t, r, &list, exports);
    }
    for _ in 0..n {
        let list = some_list(r);
        put_build(t, r, &list[..list.len().min(512)], exports);
    }
}

// ---- handed back

/// The mark byte, or what a place or a pair reads of the header, otherwise than it was built.
fn alter(r: &mut Random, b: &mut [u8]) {
    match r.below(7) {
        0 => b[3] = r.bits() as u8,
        1 => b[3] ^= LONG,
        2 => b[3] &= !INSIDES,
        3 | 4 => {
            // An empty cap, a full one, or one that ends within the ring.
            let radius: f64 = *r.pick(&[-1.0, 4.0, 0.0, 1e-3, -2.0, 5.0]);
            b[32..40].copy_from_slice(&radius.to_le_bytes());
        }
        5 => {
            let n = count(b);
            signed(r, &mut b[8..HEADER + 48 * n]);
        }
        _ => {
            // Insides of somebody else, of whatever loop it is.
            b[3] |= INSIDES;
            for k in 0..2 {
                let p = r.position();
                b[40 + 24 * k..64 + 24 * k].copy_from_slice(&bytes(p));
            }
        }
    }
}

/// A loop of that mode, one in four not as built, and one in three with marks that nobody knows.
fn handed(r: &mut Random, mode: Mode, list: &[P]) -> Vec<u8> {
    let mut l = built_in(mode, &list[..list.len().min(512)]);
    if r.chance(3) {
        l[3] |= r.bits() as u8 & 0xF0;
    }
    match r.below(16) {
        0 => damaged_loop(r, &l),
        1..=3 => {
            alter(r, &mut l);
            l
        }
        _ => l,
    }
}

/// A ring in the plane square to an axis, with normals as nobody builds them: too long, or leaning by next to nothing. An arc from its insides, which are in
/// that plane but for as little, meets NaNs beside its corners.
fn flat_loop(r: &mut Random, axis: usize, mode: Mode) -> Vec<u8> {
    let corners: Vec<[f64; 2]> = (0..4 + r.below(3)).map(|_| flat(r)).collect();
    let mut near_plane = || {
        let mut p = in_plane(axis, flat(r));
        p[axis] = r.spread(-560, -500);
        p
    };
    let insides = [near_plane(), near_plane()];
    let mut l = (corners.len() as u16).to_le_bytes().to_vec();
    l.extend([2, INSIDES | r.below(4) as u8, 0, 0, 0, 0]);
    l.extend(list_bytes(&[insides[0]]));
    l.extend(4.0_f64.to_le_bytes());
    l.extend(list_bytes(&insides));
    l.extend(corners.iter().flat_map(|c| bytes(in_plane(axis, *c))));
    for i in 0..corners.len() {
        let towards = corners[(i + r.below(3)) % corners.len()];
        let n = if r.chance(2) { too_long_normal(r, axis) } else { leaning(r, axis, towards) };
        l.extend(bytes(n));
    }
    l.extend(corners.iter().map(|_| 0));
    in_mode(&l, mode)
}

fn some_loop(r: &mut Random) -> Vec<u8> {
    let mode = if r.chance(5) { Mode::Plain } else { Mode::Long };
    match r.below(100) {
        0 => {
            let mut l = too_long(*r.pick(&[513, 600]));
            l[3] |= LONG;
            l
        }
        1 => built_in(mode, &[]),
        2 => in_mode(&full(), mode),
        3..=9 => {
            let axis = r.below(3);
            flat_loop(r, axis, mode)
        }
        _ => {
            let list = some_list(r);
            handed(r, mode, &list)
        }
    }
}

// ---- places

/// A place that the cap or a quarter circle has to do with: beyond the cap, behind the sphere, on the ray through a corner.
fn wide_place(r: &mut Random, l: &[u8]) -> P {
    let n = if l.len() >= HEADER { count(l) } else { 0 };
    if n == 0 || l.len() != HEADER + 49 * n {
        return r.position();
    }
    let (i, inside, centre) = (r.below(n), at(l, 40), at(l, 8));
    let (a, b) = (vertex(l, i), vertex(l, i + 1));
    match r.below(9) {
        0 => neg(centre),
        1 => {
            let (turn, far) = (r.between(0.0, TAU), r.between(0.0, PI));
            around(unit(centre), turn, far)
        }
        2 => along(inside, a, 1.0 + r.spread(-50, 0).abs()),
        3 => neg(along(inside, a, r.between(0.0, 2.0))),
        4 => {
            let off = r.spread(-50, -3).abs();
            neg(r.near(inside, off))
        }
        5 => {
            // Beside an edge, on either side of it.
            let (p, off) = (along(a, b, r.fraction()), r.spread(-40, -3).abs());
            r.near(p, off)
        }
        6 => a,
        7 => neg(a),
        _ => unit(add(neg(a), scale(b, r.between(-0.5, 0.5)))),
    }
}

const PLACES: &[&str] = &["outside", "inside", "mute"];
const OF_ONE: usize = 8;

fn by(b: &[u8]) -> Arg {
    Arg::Bytes(b.to_vec())
}

fn known(t: &mut Tally, export: Export, args: Vec<Arg>, value: u32) {
    t.put_known(Call { export, args }, Answer { value: u64::from(value), outs: Vec::new() });
}

fn put_place(t: &mut Tally, r: &mut Random, modes: &mut Modes, l: &[u8]) {
    let mut p = if r.chance(2) { bytes(wide_place(r, l)) } else { query_bytes(r, l) };
    if r.chance(8) {
        signed(r, &mut p);
    }
    let told = model::desk_place(l, &p);
    let other = if l.len() > 3 && l[3] & LONG != 0 { Mode::Plain } else { Mode::Long };
    let otherwise = model::desk_place(&in_mode(l, other), &p);
    if other == Mode::Plain {
        modes.count(otherwise, told)
    } else {
        modes.count(told, otherwise)
    }
    known(t, Export::Place, vec![by(l), by(&p)], told);
}

fn put_place_f64(t: &mut Tally, r: &mut Random, l: &[u8]) {
    let (mut h, p, m, c) = parts(l);
    if r.chance(30) {
        h.pop();
    }
    let mut q = if r.chance(2) { wide_place(r, l) } else { query(r, l) };
    if r.chance(30) {
        q[r.below(3)] = bad_float(r);
    }
    let place = q.map(Arg::Float);
    let args = [Arg::Bytes(h), Arg::Floats(p), Arg::Floats(m), Arg::Bytes(c)].into_iter().chain(place);
    t.put(Export::PlaceF64, args.collect());
}

/// So many places over bytes, and one in eight more in parts.
pub fn place(t: &mut Tally, r: &mut Random, n: usize) {
    let mut modes = Modes::new(PLACES);
    for first in (0..n).step_by(OF_ONE) {
        let l = some_loop(r);
        for _ in 0..OF_ONE.min(n - first) {
            put_place(t, r, &mut modes, &l);
        }
        put_place_f64(t, r, &l);
    }
    modes.report(t, "places");
}

// ---- the other questions

/// One that no mode has a say in.
fn ask_another(t: &mut Tally, r: &mut Random, l: &[u8]) {
    let q = query_bytes(r, l);
    match r.below(7) {
        0 => t.put(Export::Convex, vec![by(l)]),
        1 => t.put(Export::Vertex, vec![by(l), by(&q)]),
        2 => t.put(Export::OnEdge, vec![by(l), by(&q)]),
        3 => t.put(Export::Far, vec![by(l), by(&q), Arg::OutBytes(blank(8))]),
        4 => t.put(Export::Triangles, vec![by(l), Arg::OutBytes(blank(6 * 512))]),
        _ => {
            let mut o = like(r, l);
            if r.chance(2) && o.len() > 3 {
                o[3] ^= LONG;
            }
            t.put(Export::Equivalent, vec![by(l), by(&o)]);
        }
    }
}

/// So many loops asked whether they are simple, and one in three of them something that the mode must not change.
pub fn questions(t: &mut Tally, r: &mut Random, n: usize) {
    let mut modes = Modes::new(&["no", "yes"]);
    for _ in 0..n {
        let mut l = some_loop(r);
        while count(&l) > 40 && l.len() > HEADER + 49 * 40 && !r.chance(10) {
            l = some_loop(r);
        }
        let (plain, long) = (in_mode(&l, Mode::Plain), in_mode(&l, Mode::Long));
        let (no_mark, mark) = (model::desk_simple(&plain), model::desk_simple(&long));
        modes.count(no_mark, mark);
        let told = if l.len() > 3 && l[3] & LONG != 0 { mark } else { no_mark };
        known(t, Export::Simple, vec![by(&l)], told);
        if r.chance(3) {
            ask_another(t, r, &l);
        }
    }
    modes.report(t, "loops asked whether they are simple");
}

// ---- pairs

const RELATIONS: &[&str] = &["disjoint", "touching", "intersecting", "containing", "within", "equal"];

/// A list beside the same one, smaller, drawn together about a point of it.
fn shrunken(r: &mut Random) -> (Vec<P>, Vec<P>) {
    let n = 4 + r.below(7);
    let list = if r.chance(3) { gaping(r, n) } else { shapes::convex(r, n) };
    let l = built_in(Mode::Long, &list);
    let about =
        if r.chance(2) && l[3] & INSIDES != 0 { at(&l, 40) } else { unit(list.iter().copied().fold([0.0; 3], add)) };
    let share = r.between(0.05, 0.95);
    let small = list.iter().map(|p| along(about, *p, share)).collect();
    if r.chance(2) { (list, small) } else { (small, list) }
}

/// Two lists, one of them with long sides: apart, nested, crossing somewhere on a side, sharing corners.
fn wide_lists(r: &mut Random) -> (Vec<P>, Vec<P>) {
    let a = wide(r);
    let i = r.below(a.len());
    let on = along(a[i], a[(i + 1) % a.len()], r.fraction());
    let m = 3 + r.below(5);
    let b = match r.below(7) {
        0 => wide(r),
        1 => {
            // Round a point of a side: it is crossed twice.
            let size = r.between(1e-6, 0.5);
            shapes::polygon(on, m, true, |_| size)
        }
        2 => {
            // A corner of it on the side.
            let off = r.near(on, 0.3);
            vec![on, r.near(off, 0.1), r.near(off, 0.1)]
        }
        3 => {
            let mut b = a.clone();
            let k = r.below(b.len());
            b.rotate_left(k);
            b
        }
        4 => a.iter().copied().filter(|_| !r.chance(3)).collect(),
        5 => a.iter().map(|p| neg(*p)).collect(),
        _ => {
            let centre = unit(a.iter().copied().fold([0.0; 3], add));
            let size = r.between(1e-6, 0.5);
            shapes::polygon(centre, m, true, |_| size)
        }
    };
    if r.chance(2) { (a, b) } else { (b, a) }
}

/// The lists of refusal 7 in plain mode (docs/DIFFERENCES.md), and octants and their kin.
fn octants(r: &mut Random) -> (Vec<P>, Vec<P>) {
    let pick = |r: &mut Random| (0..3).map(|_| r.round()).collect::<Vec<P>>();
    if r.chance(4) {
        return (
            vec![[-0.8, 0.0, -0.6], [1.0, 0.0, 0.0], [0.64, -0.48, 0.6]],
            vec![[0.0, -1.0, 0.0], [0.0, 0.0, 1.0], [1.0, 0.0, 0.0]],
        );
    }
    (pick(r), pick(r))
}

fn two_loops(r: &mut Random) -> (Vec<u8>, Vec<u8>) {
    let (x, y) = match r.below(8) {
        0 | 1 => two_lists(r),
        2 => octants(r),
        3 => shrunken(r),
        _ => wide_lists(r),
    };
    let (first, second) = *r.pick(&[
        (Mode::Long, Mode::Long),
        (Mode::Long, Mode::Long),
        (Mode::Long, Mode::Long),
        (Mode::Plain, Mode::Long),
        (Mode::Long, Mode::Plain),
        (Mode::Plain, Mode::Plain),
    ]);
    if r.chance(16) {
        let axis = r.below(3);
        return (flat_loop(r, axis, first), flat_loop(r, axis, second));
    }
    let (mut a, mut b) = (handed(r, first, &x), handed(r, second, &y));
    for (one, mode) in [(&mut a, first), (&mut b, second)] {
        match r.below(30) {
            0 => *one = built_in(mode, &[]),
            1 => *one = in_mode(&full(), mode),
            _ => {}
        }
    }
    (a, b)
}

fn put_pair(t: &mut Tally, r: &mut Random, modes: &mut Modes, a: &[u8], b: &[u8]) {
    let one = |mode| model::desk_pair(&in_mode(a, mode), &in_mode(b, mode));
    let (plain, long) = (one(Mode::Plain), one(Mode::Long));
    modes.count(plain, long);
    if r.chance(4) {
        let (h, p, m, c) = parts(a);
        let (h2, p2, m2, c2) = parts(b);
        let first = [Arg::Bytes(h), Arg::Floats(p), Arg::Floats(m), Arg::Bytes(c)];
        let second = [Arg::Bytes(h2), Arg::Floats(p2), Arg::Floats(m2), Arg::Bytes(c2)];
        t.put(Export::PairF64, first.into_iter().chain(second).collect());
    } else {
        t.put(Export::Pair, vec![by(a), by(b)]);
    }
}

/// So many pairs, and one in four of them the other way round, too.
pub fn pair(t: &mut Tally, r: &mut Random, n: usize) {
    let mut modes = Modes::new(RELATIONS);
    for _ in 0..n {
        let (a, b) = two_loops(r);
        put_pair(t, r, &mut modes, &a, &b);
        if r.chance(4) {
            put_pair(t, r, &mut modes, &b, &a);
        }
    }
    modes.report(t, "pairs, both loops taken in either mode");
}

#[cfg(test)]
mod tests {
    use super::{some_list, some_loop, two_loops, wide};
    use crate::random::{Random, dot};
    use model::read::REFUSED;

    /// Most lists with long sides have one, and the loops of a run are of every kind.
    #[test]
    fn sides_are_long() {
        let mut r = Random::new(1);
        let long = (0..1_000).filter(|_| {
            let l = wide(&mut r);
            (0..l.len()).any(|i| dot(l[i], l[(i + 1) % l.len()]) < 0.0)
        });
        assert!(long.count() > 600);
        assert!((0..1_000).all(|_| some_list(&mut r).len() < 700));
        let mut marks = std::collections::BTreeSet::new();
        for _ in 0..3_000 {
            marks.insert(some_loop(&mut r).get(3).copied());
        }
        assert!(marks.iter().flatten().any(|m| m & 8 == 0) && marks.iter().flatten().any(|m| *m > 15));
    }

    /// 11 stands beside every refusal that comes ahead of it, and beside 7.
    #[test]
    fn modes_differ_often() {
        let mut r = Random::new(1);
        let mut told = std::collections::BTreeMap::new();
        for _ in 0..3_000 {
            let (a, b) = two_loops(&mut r);
            *told.entry(model::desk_pair(&a, &b)).or_insert(0) += 1;
        }
        for n in [0, 1, 2, 3, 4, 5, REFUSED + 1, REFUSED + 3, REFUSED + 4, REFUSED + 6, REFUSED + 7, REFUSED + 11] {
            assert!(told.get(&n).is_some_and(|k| *k > 2), "{n}: {told:?}");
        }
    }
}
