//! Runs over loops: built, asked, cut, checked, and handed back damaged field by field.
use crate::arcs::damage;
use crate::calls::{Arg, Export, blank, blank_floats, blank_shorts};
use crate::random::{P, Random, add, along, border_lengths, bytes, list_bytes, list_floats, neg, scale, unit};
use crate::shapes;
use crate::tally::Tally;
use model::long::Mode;

pub const HEADER: usize = 88;

/// A loop as the source builds it, in bytes.
pub fn built(list: &[P]) -> Vec<u8> {
    built_in(Mode::Plain, list)
}

/// A loop of that mode.
pub fn built_in(mode: Mode, list: &[P]) -> Vec<u8> {
    let build = if mode == Mode::Plain { model::desk_build } else { model::desk_build_long };
    let mut out = vec![0; HEADER + 49 * list.len()];
    let n = build(&list_bytes(list), &mut out);
    assert!(n < 65_536, "a made list is refused: {}", n - 65_536);
    out.truncate(HEADER + 49 * n as usize);
    out
}

pub fn count(l: &[u8]) -> usize {
    usize::from(u16::from_le_bytes([l[0], l[1]]))
}

pub fn float(l: &[u8], at: usize) -> f64 {
    f64::from_le_bytes(l[at..at + 8].try_into().unwrap())
}

pub fn at(l: &[u8], byte: usize) -> P {
    [float(l, byte), float(l, byte + 8), float(l, byte + 16)]
}

pub fn vertex(l: &[u8], i: usize) -> P {
    at(l, HEADER + 24 * (i % count(l)))
}

/// Header, positions, normals and classes of a loop in bytes, whatever its length.
pub fn parts(l: &[u8]) -> (Vec<u8>, Vec<f64>, Vec<f64>, Vec<u8>) {
    let h = l[..HEADER.min(l.len())].to_vec();
    let rest = &l[h.len()..];
    let n = if h.len() == HEADER { count(&h) } else { 0 };
    let take = |from: usize, size: usize| rest[from.min(rest.len())..(from + size).min(rest.len())].to_vec();
    let floats =
        |b: Vec<u8>| -> Vec<f64> { b.chunks_exact(8).map(|c| f64::from_le_bytes(c.try_into().unwrap())).collect() };
    (h, floats(take(0, 24 * n)), floats(take(24 * n, 24 * n)), take(48 * n, usize::MAX / 2))
}

// ---- building

fn damaged_list(r: &mut Random, list: &[P]) -> Vec<P> {
    let mut list = list.to_vec();
    for _ in 0..1 + r.below(2) {
        if list.is_empty() {
            break;
        }
        let i = r.below(list.len());
        let k = r.below(3);
        match r.below(3) {
            0 => list[i][k] = *r.pick(&[f64::NAN, f64::INFINITY, f64::NEG_INFINITY]),
            1 => list[i] = scale(list[i], *r.pick(&[2.0, 0.0, 1e200, 1.0 + 1e-11, 1.0 - 1e-11, 1e-200])),
            _ => {
                let borders = border_lengths();
                let mut p = [0.0; 3];
                p[k] = *r.pick(&borders);
                list[i] = p;
            }
        }
    }
    list
}

/// How many corners the list needs room for.
pub fn opened(list: &[P]) -> usize {
    let n = if !list.is_empty() && list.first() == list.last() { list.len() - 1 } else { list.len() };
    if n < 3 { 0 } else { n }
}

/// A list to be built by these two, over bytes and in parts.
pub fn put_build(t: &mut Tally, r: &mut Random, list: &[P], [over_bytes, in_parts]: [Export; 2]) {
    let mut b = list_bytes(list);
    if r.chance(40) {
        b = damage(r, b);
    }
    let needs = HEADER + 49 * opened(list);
    let size = match r.below(7) {
        0 => needs + r.below(100),
        2 => *r.pick(&[0, 1, HEADER - 1, HEADER]),
        1 => needs.saturating_sub(1 + r.below(3) * r.below(50)),
        _ => needs,
    };
    t.put(over_bytes, vec![Arg::Bytes(b), Arg::OutBytes(blank(size))]);
    let mut f = list_floats(list);
    if r.chance(40) && !f.is_empty() {
        f.pop();
    }
    let n = opened(list);
    let mut sizes = [HEADER, 3 * n, 3 * n, n];
    for s in &mut sizes {
        match r.below(12) {
            0 => *s = s.saturating_sub(1),
            1 | 2 => *s += r.below(40),
            _ => {}
        }
    }
    t.put(in_parts, build_f64(f, sizes));
}

/// A list, and room of these sizes for the header, the positions, the normals and the classes.
pub fn build_f64(list: Vec<f64>, sizes: [usize; 4]) -> Vec<Arg> {
    vec![
        Arg::Floats(list),
        Arg::OutBytes(blank(sizes[0])),
        Arg::OutFloats(blank_floats(sizes[1])),
        Arg::OutFloats(blank_floats(sizes[2])),
        Arg::OutBytes(blank(sizes[3])),
    ]
}

/// Whether the list is in the domain: and a steady loop's direction must be the Rust's own.
fn judge_turns(t: &mut Tally, list: &[P]) {
    let Ok(ps) = model::build::judge_list(&list_floats(list)) else { return };
    let b = model::build::build(Mode::Plain, &ps);
    let Some((ours, rust)) = b.turns else { return };
    if b.weak {
        t.note("outside the domain: weak, held to the definition");
        if (ours < 0.0) != (rust < 0.0) {
            t.note("weak, and the Rust's own turn sum has the other sign");
        }
    } else if (ours < 0.0) != (rust < 0.0) {
        println!("DIFFERENCE: a steady loop turns the other way than the Rust's: {ours:e} {rust:e}");
        t.differences += 1;
    }
}

pub fn build(t: &mut Tally, r: &mut Random, n: usize) {
    let exports = [Export::Build, Export::BuildF64];
    // Every length up to some above the most, and each shape around the borders.
    let shapes = [shapes::convex, shapes::star, shapes::ragged];
    for len in 0..516 {
        let border = len < 12 || len > 508;
        for shape in shapes.iter().skip(if border { 0 } else { len % 3 }).take(if border { 3 } else { 1 }) {
            let list = shape(r, len);
            put_build(t, r, &list, exports);
        }
    }
    for _ in 0..n {
        let len = shapes::length(r);
        let list = shapes::any(r, len);
        judge_turns(t, &list);
        put_build(t, r, &list, exports);
        if r.chance(4) {
            let bad = damaged_list(r, &list);
            put_build(t, r, &bad, exports);
        }
    }
}

// ---- handed back

/// A loop with one or two of its fields not as they were built.
pub fn damaged_loop(r: &mut Random, l: &[u8]) -> Vec<u8> {
    let mut b = l.to_vec();
    if r.chance(4) {
        faults(r, &mut b);
        return b;
    }
    for _ in 0..1 + r.below(2) {
        damage_once(r, &mut b);
    }
    b
}

pub fn bad_float(r: &mut Random) -> f64 {
    *r.pick(&[f64::NAN, f64::INFINITY, f64::NEG_INFINITY, 1e308, -1e308, 0.0, -0.0, 1.0, -1.0, 4.0, 1e-308])
}

fn damage_once(r: &mut Random, b: &mut Vec<u8>) {
    if b.len() < HEADER {
        return;
    }
    let n = if b.len() == HEADER + 49 * count(b) { count(b) } else { 0 };
    let set = |b: &mut Vec<u8>, at: usize, f: f64| b[at..at + 8].copy_from_slice(&f.to_le_bytes());
    match r.below(18) {
        0 => b[2] = *r.pick(&[0, 1, 2, 3, 255]),
        1 => b[3] ^= 1 << r.below(8),
        2 => b[3] ^= 4,
        3 => {
            let c = *r.pick(&[0u16, 1, 2, 3, 4, 512, 513, 65_535]);
            b[..2].copy_from_slice(&c.to_le_bytes());
        }
        4 => b[4 + r.below(4)] = 0xFF,
        5 => set(b, 8 + 8 * r.below(4), bad_float(r)),
        6 => set(b, 40 + 8 * r.below(6), bad_float(r)),
        7 => {
            // Insides of somebody else.
            b[3] |= 4;
            for k in 0..2 {
                let p = r.position();
                b[40 + 24 * k..64 + 24 * k].copy_from_slice(&bytes(p));
            }
        }
        8 if n > 0 => set(b, HEADER + 8 * r.below(3 * n), bad_float(r)),
        9 if n > 0 => {
            let borders = border_lengths();
            let p = [0.0, *r.pick(&borders), 0.0];
            let i = r.below(n);
            b[HEADER + 24 * i..HEADER + 24 * i + 24].copy_from_slice(&bytes(p));
        }
        10 if n > 0 => set(b, HEADER + 24 * n + 8 * r.below(3 * n), bad_float(r)),
        11 if n > 0 => {
            let at = HEADER + 24 * n + 24 * r.below(n);
            let was = [float(b, at), float(b, at + 8), float(b, at + 16)];
            let with = match r.below(5) {
                0 => neg(was),
                1 => r.jitter(was, 2),
                2 => r.unit(),
                3 => scale(was, 1e308),
                _ => [0.0; 3],
            };
            b[at..at + 24].copy_from_slice(&bytes(with));
        }
        12 if n > 0 => {
            let i = HEADER + 48 * n + r.below(n);
            b[i] = *r.pick(&[0, 1, 2, 2, 1, 0, 3, 255]);
        }
        13 if n > 0 => {
            for i in 0..n {
                b[HEADER + 48 * n + i] = r.below(3) as u8;
            }
        }
        14 => {
            let keep = b.len() - 1 - r.below(b.len().min(60));
            b.truncate(keep);
        }
        15 => b.extend(blank(1 + r.below(60))),
        16 => tilt(r, b, n),
        _ => {
            // All normals the other way: the count of crossings stays, the sides turn.
            for i in 0..3 * n {
                let at = HEADER + 24 * n + 8 * i;
                let f = 0.0 - float(b, at);
                set(b, at, f);
            }
        }
    }
}

/// Two or three faults that are refused each by its own number: their order shows.
fn faults(r: &mut Random, b: &mut Vec<u8>) {
    let n = if b.len() == HEADER + 49 * count(b) { count(b) } else { 0 };
    for _ in 0..2 + r.below(2) {
        let (at, f) = match r.below(8) {
            0 | 1 if n > 0 => (HEADER + 24 * r.below(n), f64::NAN),
            2 | 3 if n > 0 => (HEADER + 24 * r.below(n), 2.0),
            4 if n > 0 => (HEADER + 24 * (n + r.below(n)), f64::INFINITY),
            5 => (8 + 8 * r.below(4), f64::NAN),
            6 => {
                b[3] |= 4;
                (40 + 8 * r.below(6), f64::NEG_INFINITY)
            }
            _ => {
                if n > 0 {
                    b[HEADER + 48 * n + r.below(n)] = 3;
                }
                continue;
            }
        };
        b[at..at + 8].copy_from_slice(&f.to_le_bytes());
    }
    if r.chance(8) {
        b.pop();
    }
}

/// All normals tilted outward, so that corners and edges come to lie on the inner side of each.
fn tilt(r: &mut Random, b: &mut [u8], n: usize) {
    let (centre, by) = (at(b, 8), *r.pick(&[1e-15, 1e-12, 1e-3, 0.5]));
    for i in 0..n {
        let place = HEADER + 24 * (n + i);
        let normal = at(b, place);
        let tilted = add(normal, scale(centre, -by));
        b[place..place + 24].copy_from_slice(&bytes(tilted));
    }
}

/// A ring of 513 and more in bytes: refusal 2.
pub fn too_long(n: usize) -> Vec<u8> {
    let list = shapes::polygon([0.0, 0.0, 1.0], n, true, |_| 0.5);
    let mut b = vec![0; HEADER];
    b[..2].copy_from_slice(&(n as u16).to_le_bytes());
    b[2] = 2;
    b.extend(list_bytes(&list));
    b.extend(list_bytes(&list));
    b.extend(vec![0; n]);
    b
}

/// A position worth asking of a loop.
pub fn query(r: &mut Random, l: &[u8]) -> P {
    let n = if l.len() >= HEADER { count(l) } else { 0 };
    if n == 0 || l.len() != HEADER + 49 * n {
        return r.position();
    }
    let i = r.below(n);
    let (a, b) = (vertex(l, i), vertex(l, i + 1));
    let centre = at(l, 8);
    match r.below(14) {
        0 => a,
        1 => along(a, b, 0.5),
        2 => along(a, b, r.fraction()),
        3 => {
            let d = r.spread(-54, -20).abs();
            r.near(a, d)
        }
        4 => {
            let d = r.spread(-54, -20).abs();
            let p = along(a, b, r.fraction());
            r.near(p, d)
        }
        5 => at(l, 40),
        6 => neg(at(l, 40)),
        7 => at(l, 64),
        8 => centre,
        9 => along(centre, a, r.between(0.0, 1.3)),
        10 => neg(a),
        11 => {
            // In line with an inside and a corner: the count meets both edges of the corner.
            let inside = at(l, 40);
            along(inside, a, r.between(0.5, 2.0))
        }
        12 => unit(add(a, vertex(l, i + r.below(n)))),
        _ => r.position(),
    }
}

pub fn query_bytes(r: &mut Random, l: &[u8]) -> Vec<u8> {
    let p = query(r, l);
    // An inside that is not there is the zero vector: then it is refused, which is worth a few runs too.
    let b = bytes(p);
    if r.chance(25) { damage(r, b) } else { b }
}

/// A built loop, or one handed back damaged, now and then too long.
pub fn some_loop(r: &mut Random, len: usize) -> Vec<u8> {
    if r.chance(200) {
        return too_long(*r.pick(&[513, 514, 600]));
    }
    let list = if r.chance(2) { shapes::plain(r, len.max(3)) } else { shapes::any(r, len) };
    let l = built_or_empty(&list);
    if r.chance(4) { damaged_loop(r, &l) } else { l }
}

/// Shapes may run over 512 where corners were added; those are built without the last ones.
pub fn built_or_empty(list: &[P]) -> Vec<u8> {
    built(&list[..list.len().min(512)])
}

fn by(b: &[u8]) -> Arg {
    Arg::Bytes(b.to_vec())
}

pub fn place(t: &mut Tally, r: &mut Random, n: usize) {
    for _ in 0..n {
        let len = shapes::length(r);
        let l = some_loop(r, len);
        for _ in 0..6 {
            let q = query_bytes(r, &l);
            t.put(Export::Place, vec![by(&l), by(&q)]);
        }
        let (mut h, mut p, mut m, mut c) = parts(&l);
        match r.below(40) {
            0 => drop(h.pop()),
            1 => drop(p.pop()),
            2 => drop(m.pop()),
            3 => drop(c.pop()),
            4 => h.push(0),
            5 => p.push(0.0),
            _ => {}
        }
        let q = query(r, &l);
        let x = if r.chance(30) { bad_float(r) } else { q[0] };
        t.put(
            Export::PlaceF64,
            vec![
                Arg::Bytes(h),
                Arg::Floats(p),
                Arg::Floats(m),
                Arg::Bytes(c),
                Arg::Float(x),
                Arg::Float(q[1]),
                Arg::Float(q[2]),
            ],
        );
    }
}

pub fn questions(t: &mut Tally, r: &mut Random, n: usize) {
    for _ in 0..n {
        let len = shapes::length(r).min(if r.chance(10) { 512 } else { 40 });
        let l = some_loop(r, len);
        t.put(Export::Convex, vec![by(&l)]);
        t.put(Export::Simple, vec![by(&l)]);
        for _ in 0..2 {
            let q = query_bytes(r, &l);
            t.put(Export::Vertex, vec![by(&l), by(&q)]);
            t.put(Export::OnEdge, vec![by(&l), by(&q)]);
        }
        let o = like(r, &l);
        t.put(Export::Equivalent, vec![by(&l), by(&o)]);
        t.put(Export::Equivalent, vec![by(&o), by(&l)]);
    }
}

/// A loop with the same corners from another start, the other way, with one corner or class changed, or another one.
pub fn like(r: &mut Random, l: &[u8]) -> Vec<u8> {
    let n = if l.len() >= HEADER && l.len() == HEADER + 49 * count(l) { count(l) } else { 0 };
    let valid = n >= 3 && (0..n).all(|i| vertex(l, i).iter().all(|c| c.is_finite()));
    if !valid || r.chance(8) {
        let len = shapes::length(r).min(40);
        return some_loop(r, len);
    }
    let mut b = l.to_vec();
    let order: Vec<usize> = if r.chance(2) {
        let k = r.below(n);
        (0..n).map(|i| (i + k) % n).collect()
    } else {
        let k = r.below(n);
        (0..n).map(|i| (n + k - i) % n).collect()
    };
    for (to, from) in order.iter().enumerate() {
        for start in [HEADER, HEADER + 24 * n] {
            b[start + 24 * to..start + 24 * to + 24].copy_from_slice(&l[start + 24 * from..start + 24 * from + 24]);
        }
        b[HEADER + 48 * n + to] = l[HEADER + 48 * n + from];
    }
    if r.chance(5) {
        b[HEADER + 48 * n + r.below(n)] = r.below(3) as u8;
    }
    if r.chance(5) {
        let i = r.below(n);
        let p = r.jitter(vertex(l, i), 1);
        b[HEADER + 24 * i..HEADER + 24 * i + 24].copy_from_slice(&bytes(p));
    }
    b
}

// ---- cutting

fn ring(l: &[u8]) -> Option<model::loops::Ring> {
    model::loops::read_loop(l).ok()?.judge_ring().ok()
}

/// The full loop's positions, into room of every length about 36.
fn full_positions(t: &mut Tally) {
    for room in 0..=48 {
        t.put(Export::FullPositions, vec![Arg::OutFloats(blank_floats(room))]);
    }
    for room in [100, 1_000, 10_000] {
        t.put(Export::FullPositions, vec![Arg::OutFloats(blank_floats(room))]);
    }
}

/// Which branch of the source's `re_classify` finds the neighbours of a cut: i is its index, m how many corners it leaves.
fn branch(i: usize, m: usize) -> &'static str {
    match i {
        0 => "at i = 0",
        1 => "at i = 1",
        _ if i == m => "at i = m, the last index",
        _ if i + 1 == m => "at i = m - 1",
        _ => "at another i",
    }
}

/// Counts the cuts that leave more than three, and the rings that have one, by branch: each has to be met.
fn note_branches(t: &mut Tally, l: &[u8]) {
    let Some(ring) = ring(l).filter(|g| g.state == 2) else { return };
    let Some(triples) = model::cut::triangles(&ring) else { return };
    let mut left: Vec<u16> = (0..ring.vertices.len() as u16).collect();
    let mut met = std::collections::BTreeSet::new();
    for [_, this, _] in &triples[..triples.len() - 1] {
        let i = left.iter().position(|k| k == this).expect("a corner of the ring left");
        left.remove(i);
        if left.len() > 3 {
            let which = branch(i, left.len());
            t.note(&format!("cuts {which}"));
            met.insert(which);
        }
    }
    for which in met {
        t.note(&format!("rings with a cut {which}"));
    }
}

pub fn triangles(t: &mut Tally, r: &mut Random, n: usize) {
    full_positions(t);
    for _ in 0..n {
        let len = shapes::length(r).min(if r.chance(6) { 512 } else { 100 });
        let l = some_loop(r, len);
        let state = if l.len() > 2 { l[2] } else { 0 };
        let needs = if state == 1 {
            20
        } else if l.len() < 2 {
            0
        } else {
            count(&l).saturating_sub(2)
        };
        let size = match r.below(8) {
            0 => (6 * needs).saturating_sub(1 + r.below(6)),
            1 => 6 * needs + r.below(20),
            _ => 6 * needs,
        };
        if 6 * needs <= size {
            note_branches(t, &l);
        }
        t.put(Export::Triangles, vec![by(&l), Arg::OutBytes(blank(size.min(4000)))]);
        let (h, p, _, c) = parts(&l);
        let size = match r.below(8) {
            0 => (3 * needs).saturating_sub(1),
            1 => 3 * needs + r.below(9),
            _ => 3 * needs,
        };
        t.put(
            Export::TrianglesF64,
            vec![Arg::Bytes(h), Arg::Floats(p), Arg::Bytes(c), Arg::OutShorts(blank_shorts(size.min(2000)))],
        );
    }
}

fn triple_bytes(triples: &[[u16; 3]]) -> Vec<u8> {
    triples.iter().flatten().flat_map(|n| n.to_le_bytes()).collect()
}

/// A list that is nearly right.
fn spoil(r: &mut Random, triples: &[[u16; 3]], n: usize) -> Vec<[u16; 3]> {
    let mut out = triples.to_vec();
    if out.is_empty() {
        return vec![[0, 1, 2]];
    }
    let i = r.below(out.len());
    match r.below(8) {
        0 => out[i].rotate_left(1 + r.below(2)),
        1 => {
            let j = r.below(out.len());
            out.swap(i, j);
        }
        2 => out[i][r.below(3)] = r.below(n + 1) as u16,
        3 => out[i][r.below(3)] = *r.pick(&[n as u16, 512, 513, 65_535]),
        4 => drop(out.pop()),
        5 => out.push(out[i]),
        6 => out[i].swap(0, 2),
        // The first ear cut, then the rest as a fan.
        _ => {
            let first = out[0];
            let rest: Vec<u16> = (0..n as u16).filter(|k| *k != first[1]).collect();
            out = vec![first];
            out.extend((1..rest.len() - 1).map(|k| [rest[0], rest[k], rest[k + 1]]));
        }
    }
    out
}

/// A list that begins as the right one and goes on, mostly beyond what any ring has.
fn long(r: &mut Random, triples: &[[u16; 3]]) -> Vec<u8> {
    let size = *r.pick(&[509, 510, 511, 512, 1_021, 10_923, 21_846]);
    let mut out = triples.to_vec();
    out.resize(size.max(out.len()), [0, 1, 2]);
    let mut b = triple_bytes(&out);
    if r.chance(4) {
        b.truncate(b.len() - 1 - r.below(5));
    }
    b
}

pub fn accepts(t: &mut Tally, r: &mut Random, n: usize) {
    for _ in 0..n {
        let len = shapes::length(r).min(if r.chance(10) { 512 } else { 60 });
        let l = some_loop(r, len);
        let Some(ring) = ring(&l).filter(|g| g.state == 2) else {
            let junk = triple_bytes(&[[0, 1, 2]; 2]);
            let keep = if r.chance(2) { 12 } else { r.below(13) };
            t.put(Export::Accepts, vec![by(&l), by(&junk[..keep])]);
            if r.chance(8) {
                t.put_as(Export::Accepts, vec![by(&l), by(&long(r, &[]))], "long list");
            }
            continue;
        };
        let n = ring.vertices.len();
        let own = model::cut::triangles(&ring);
        let other = model::cut::other_triangles(&ring, |k| r.below(k));
        let right = own.clone().or(other.clone()).unwrap_or_default();
        t.put(Export::Accepts, vec![by(&l), by(&triple_bytes(&right))]);
        if let Some(other) = &other {
            t.put_as(Export::Accepts, vec![by(&l), by(&triple_bytes(other))], "cut in another order");
        }
        for _ in 0..3 {
            let from = if r.chance(2) { &right } else { other.as_ref().unwrap_or(&right) };
            let bad = spoil(r, from, n);
            t.put(Export::Accepts, vec![by(&l), by(&triple_bytes(&bad))]);
        }
        if r.chance(8) {
            t.put_as(Export::Accepts, vec![by(&l), by(&long(r, &right))], "long list");
        }
        let mut odd = triple_bytes(&right);
        odd.truncate(odd.len().saturating_sub(1 + r.below(5)));
        t.put(Export::Accepts, vec![by(&l), by(&odd)]);
    }
}
