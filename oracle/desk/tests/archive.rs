//! The safe face over the library itself. Nothing here passes without it: `oracle/ci` links target/staticlib/libdesk.a on
//! x86-64, and elsewhere the same modules as `oracle/native` compiles them for that machine.
use desk::{
    Arc, ArcRelation, ChordLength, Ending, Error, Loop, MOST_SCENE_BYTES, MOST_TEXT_BYTES, Mode, Place, Position,
    Refusal, Relation, Side, full_positions, raw, scene,
};

const X: Position = [1.0, 0.0, 0.0];
const Y: Position = [0.0, 1.0, 0.0];
const Z: Position = [0.0, 0.0, 1.0];
const W: Position = [0.0, 0.0, -1.0];
const SQUARE: [Position; 4] = [[0.6, 0.0, 0.8], [0.0, 0.6, 0.8], [-0.6, 0.0, 0.8], [0.0, -0.6, 0.8]];
const T: f64 = 0.5773502691896258;
/// It has no insides, and no ear.
const SILENT: [Position; 4] = [[-T, T, -T], X, [-T, -T, T], [T, -T, T]];

fn refused<A: std::fmt::Debug>(n: u32, answer: Result<A, Error>) {
    assert_eq!(answer.unwrap_err(), Error::Refused(Refusal(n)));
}

fn built(list: &[Position]) -> Loop {
    Loop::build(list).unwrap()
}

/// A loop as this crate cannot make it: its bytes are handed over as they are.
fn asked(bytes: &[u8]) -> u32 {
    raw::desk_simple(bytes).unwrap()
}

#[test]
fn the_library_is_linked() {
    assert!(raw::LINKED, "link libdesk.a: exports/library, or oracle/native and DESK_LIB_DIR");
    assert!(!raw::STANDIN, "the stand-in is not the library");
}

#[test]
fn worked_example() {
    let (a, b) = (built(&[X, Y, Z]), built(&[X, Y, W]));
    assert_eq!(a.to_string(), "ring of 3 corners, reversed, steady");
    assert_eq!(b.to_string(), "ring of 3 corners, kept, steady");
    assert_eq!(a.place([0.48, 0.6, 0.64]).unwrap(), Place::Inside);
    assert_eq!(a.place([0.6, 0.0, 0.8]).unwrap().to_string(), "outside");
    assert_eq!(a.relate(&b).unwrap(), Relation::Touching);
    assert_eq!(a.relate(&b).unwrap().to_string(), "touching");
    assert_eq!(a.triangulate().unwrap(), [[0, 1, 2]]);
    assert!(a.is_convex().unwrap() && a.is_simple().unwrap() && !a.is_mute());
    assert!(a.has_vertex(Y).unwrap() && !a.has_vertex(W).unwrap());
    assert!(a.any_edge_contains([0.6, 0.8, 0.0]).unwrap() && !a.any_edge_contains(W).unwrap());
    assert!(a.is_equivalent(&built(&[Z, X, Y])).unwrap() && !a.is_equivalent(&b).unwrap());
}

#[test]
fn corners_are_counted() {
    let a = built(&[X, Y, Z]);
    assert_eq!((0..3).map(|i| a.vertex(i)).collect::<Vec<_>>(), [Some(Z), Some(Y), Some(X)]);
    assert_eq!((a.vertex(3), a.vertex(usize::MAX), built(&[]).vertex(0)), (None, None, None));
    assert_eq!(built(&SQUARE).vertex(4), None);
}

/// A position on the border may be inside or outside: of this ring one corner is inside, the others are not.
#[test]
fn borders() {
    let l = built(&SQUARE);
    assert!(SQUARE.iter().all(|p| l.has_vertex(*p).unwrap()));
    let [a, b, c, d] = SQUARE.map(|p| l.place(p).unwrap());
    assert_eq!([a, b, c, d], [Place::Outside, Place::Outside, Place::Inside, Place::Outside]);
    let t = built(&[X, Y, Z]);
    assert_eq!((t.place(X).unwrap(), t.place([0.6, 0.8, 0.0]).unwrap()), (Place::Outside, Place::Outside));
}

#[test]
fn mute_is_not_outside() {
    let l = built(&SILENT);
    assert!(l.is_mute());
    assert_eq!(l.place(X).unwrap(), Place::Mute);
    assert_eq!(l.to_string(), "mute ring of 4 corners, reversed, steady");
    assert!(!built(&SQUARE).is_mute() && !built(&[]).is_mute());
}

#[test]
fn triangles_are_checked() {
    let l = built(&SQUARE);
    let t = l.triangulate().unwrap();
    assert_eq!(t, [[3, 0, 1], [1, 2, 3]]);
    assert!(l.accepts(&t).unwrap() && !l.accepts(&[[0, 1, 3], [1, 2, 3]]).unwrap());
}

#[test]
fn full_and_empty() {
    let (full, empty) = (built(&[X, [0.6, 0.8, 0.0], Y]), built(&[X, Y]));
    assert!(full.is_full() && !full.is_empty() && empty.is_empty() && !empty.is_full());
    assert_eq!((full.place(W).unwrap(), empty.place(W).unwrap()), (Place::Inside, Place::Outside));
    assert_eq!(
        (full.relate(&empty).unwrap(), empty.relate(&full).unwrap()),
        (Relation::Containing, Relation::Disjoint)
    );
    refused(9, full.accepts(&[]));
    let positions = full_positions().unwrap();
    assert_eq!((positions[0], positions[11]), (Z, W));
    let triangles = full.triangulate().unwrap();
    assert_eq!(triangles.len(), 20);
    assert!(triangles.iter().flatten().all(|n| usize::from(*n) < positions.len()));
    for p in positions {
        assert!((p.iter().map(|c| c * c).sum::<f64>() - 1.0).abs() < 1e-15);
    }
}

#[test]
fn the_full_positions_need_room() {
    let mut out = [7.0; 40];
    assert_eq!(raw::desk_full_positions(&mut out[..35]), Some(65_541));
    assert_eq!(out, [7.0; 40]);
    assert_eq!(raw::desk_full_positions(&mut out), Some(12));
    assert_eq!((out[35], &out[36..]), (-1.0, &[7.0; 4][..]));
}

#[test]
fn refusals() {
    refused(2, Loop::build(&[X; 513]));
    refused(3, Loop::build(&[X, Y, [f64::NAN, 0.0, 0.0]]));
    refused(4, Loop::build(&[X, Y, [2.0, 0.0, 0.0]]));
    let (a, b) = (built(&[[-0.8, 0.0, -0.6], X, [0.64, -0.48, 0.6]]), built(&[[0.0, -1.0, 0.0], Z, X]));
    refused(7, a.relate(&b));
    refused(3, a.place([f64::INFINITY, 0.0, 0.0]));
    refused(8, built(&SILENT).triangulate());
    let mut bytes = a.bytes().to_vec();
    *bytes.last_mut().unwrap() = 3;
    assert_eq!(asked(&bytes), 65_542);
    bytes.pop();
    assert_eq!(asked(&bytes), 65_537);
    assert_eq!(raw::desk_build(&[], &mut [0; 87]), Some(65_541));
}

#[test]
fn errors_speak() {
    let e: Box<dyn std::error::Error> = Box::new(Loop::build(&[[2.0, 0.0, 0.0]]).unwrap_err());
    assert_eq!(e.to_string(), "refused 4: a position is not a unit vector");
    assert_eq!(Error::Absent.to_string(), "the desk's library is not linked, or it has no such export");
    assert_eq!(Error::Broken.to_string(), "the text is none of a scene");
    let unknown = Refusal(0).words();
    assert!([10].into_iter().chain(12..20).chain(29..40).all(|n| Refusal(n).words() == unknown));
    let known: std::collections::BTreeSet<_> = (1..=9).chain([11]).chain(20..=28).map(|n| Refusal(n).words()).collect();
    assert!(known.len() == 19 && !known.contains(unknown));
}

#[test]
fn arcs() {
    let a = Arc::new(X, Y).unwrap();
    assert_eq!((a.start(), a.end(), a.opposite().unwrap().start()), (X, Y, Y));
    assert_eq!(a.side_of(Z).unwrap(), Side::Left);
    assert_eq!(a.side_of(W).unwrap().to_string(), "right");
    assert!(a.contains([0.6, 0.8, 0.0]).unwrap() && !a.contains(Z).unwrap());
    let across = Arc::new([0.36, 0.48, 0.8], [0.36, 0.48, -0.8]).unwrap();
    let met = a.intersection(&across).unwrap().unwrap();
    assert_eq!(a.relate(&across).unwrap(), ArcRelation::Intersecting(met));
    let touching = a.relate(&Arc::new(X, Z).unwrap()).unwrap();
    assert_eq!(touching.to_string(), "touching at (1, 0, 0)");
    assert!(matches!(a.relate(&a).unwrap(), ArcRelation::Overlapping(_)));
    assert_eq!(a.relate(&Arc::new(Z, [0.0, -0.6, 0.8]).unwrap()).unwrap(), ArcRelation::Disjoint);
    refused(4, Arc::new(X, [0.0; 3]));
}

/// Behind the first arc's start: the plain mode misses it one way round, the long mode neither.
#[test]
fn long_arcs() {
    let a = Arc::new(X, [-0.6, 0.8, 0.0]).unwrap();
    let b = Arc::new([-0.224, 0.768, 0.6], [-0.224, 0.768, -0.6]).unwrap();
    let met = b.intersection(&a).unwrap().unwrap();
    assert!((met[0] + 0.28).abs() < 1e-15 && (met[1] - 0.96).abs() < 1e-15 && met[2] == 0.0);
    assert_eq!((a.relate(&b), a.intersection(&b)), (Ok(ArcRelation::Disjoint), Ok(None)));
    assert_eq!(b.relate(&a), Ok(ArcRelation::Intersecting(met)));
    for (one, other) in [(&a, &b), (&b, &a)] {
        assert_eq!(one.relate_in(Mode::Long, other), Ok(ArcRelation::Intersecting(met)));
        assert_eq!(one.intersection_in(Mode::Long, other), Ok(Some(met)));
        assert_eq!(one.relate_in(Mode::Plain, other), one.relate(other));
        assert_eq!(one.intersection_in(Mode::Plain, other), one.intersection(other));
    }
    let on = Arc::new(Y, [-0.8, 0.6, 0.0]).unwrap();
    let shared = a.relate(&on).unwrap();
    assert!(matches!(shared, ArcRelation::Overlapping(_)), "{shared}");
    assert_eq!(a.relate_in(Mode::Long, &on), Ok(shared));
    assert_eq!(a.intersection_in(Mode::Long, &on), Ok(None));
}

/// A half circle through Y and one through Z, by normals of their own, touch at X and at its opposite: the start's is told.
#[test]
fn of_two_touches_the_starts() {
    let bytes = |p: [Position; 3]| p.iter().flatten().flat_map(|c| c.to_le_bytes()).collect::<Vec<u8>>();
    let (x, minus_x) = (X, [-1.0, 0.0, 0.0]);
    for (start, end) in [(x, minus_x), (minus_x, x)] {
        let (a, b) = (bytes([start, end, Z]), bytes([minus_x, x, Y]));
        let mut out = [7; 26];
        assert_eq!(raw::desk_arc_relate_long(&a, &b, &mut out), Some(2));
        let mut told = [7; 26];
        told[..24].copy_from_slice(&start.map(f64::to_le_bytes).concat());
        assert_eq!(out, told);
        out = [7; 26];
        assert_eq!(raw::desk_arc_intersection_long(&a, &b, &mut out[..23]), Some(65_541));
        assert_eq!(raw::desk_arc_relate_long(&a, &b, &mut out[..0]), Some(65_541));
        assert_eq!(raw::desk_arc_relate_long(&a, &b[..71], &mut out), Some(65_537));
        assert_eq!(out, [7; 26]);
        assert_eq!((raw::desk_arc_intersection_long(&a, &b, &mut out), out), (Some(1), told));
    }
}

/// One side is longer than a quarter circle.
const OCEAN: [Position; 4] = [X, Z, [-0.6, 0.8, 0.0], [0.0, 0.6, -0.8]];

fn built_long(list: &[Position]) -> Loop {
    Loop::build_in(Mode::Long, list).unwrap()
}

#[test]
fn a_long_loop_is_the_plain_one_with_its_mark() {
    for list in [&OCEAN[..], &SQUARE, &SILENT, &[X, Y, Z], &[X, Y], &[], &[X, [0.6, 0.8, 0.0], Y]] {
        let (plain, long) = (built(list), built_long(list));
        assert_eq!((plain.mode(), long.mode()), (Mode::Plain, Mode::Long));
        let mut marked = plain.bytes().to_vec();
        marked[3] += 8;
        assert_eq!(long.bytes(), marked);
        assert_eq!(long.to_string(), format!("{plain}, long"));
        assert_eq!(Loop::build_in(Mode::Plain, list), Ok(plain));
    }
    assert_eq!(built_long(&[]).to_string(), "empty of 0 corners, kept, steady, long");
    assert_eq!((Mode::default().to_string(), Mode::Long.to_string()), ("plain".to_string(), "long".to_string()));
    refused(2, Loop::build_in(Mode::Long, &[X; 513]));
    refused(3, Loop::build_in(Mode::Long, &[X, NAN, FAR]));
    refused(4, Loop::build_in(Mode::Long, &[X, FAR, NAN]));
    let mut out = [7; 90];
    assert_eq!(raw::desk_build_long(&[], &mut out[..87]), Some(65_541));
    assert_eq!(out, [7; 90]);
    assert_eq!((raw::desk_build_long(&[], &mut out), out[3], &out[88..]), (Some(0), 8, &[7; 2][..]));
}

#[test]
fn a_long_loop_in_parts() {
    let long = built_long(&OCEAN);
    let list: Vec<f64> = OCEAN.iter().flatten().copied().collect();
    let (mut h, mut p, mut m, mut c) = ([7; 89], [7.0; 13], [7.0; 13], [7; 5]);
    assert_eq!(raw::desk_build_long_f64(&list, &mut h, &mut p[..11], &mut m, &mut c), Some(65_541));
    assert_eq!(raw::desk_build_long_f64(&list[..11], &mut h, &mut p, &mut m, &mut c), Some(65_537));
    assert_eq!((h, p, m, c), ([7; 89], [7.0; 13], [7.0; 13], [7; 5]));
    assert_eq!(raw::desk_build_long_f64(&list, &mut h, &mut p, &mut m, &mut c), Some(4));
    assert_eq!((h[88], p[12], m[12], c[4]), (7, 7.0, 7.0, 7));
    let floats = |f: &[f64]| f.iter().flat_map(|x| x.to_le_bytes()).collect::<Vec<u8>>();
    assert_eq!(long.bytes(), [&h[..88], &floats(&p[..12]), &floats(&m[..12]), &c[..4]].concat());
    let place = |h: &[u8], q: Position| raw::desk_place_f64(h, &p[..12], &m[..12], &c[..4], q[0], q[1], q[2]);
    assert_eq!((place(&h[..88], BEYOND), place(&h[..88], Y)), (Some(0), Some(1)));
    let mut plain = h;
    plain[3] -= 8;
    assert_eq!((place(&plain[..88], BEYOND), place(&plain[..88], Y)), (Some(1), Some(1)));
    let pair = |a: &[u8], b: &[u8]| {
        raw::desk_pair_f64(&a[..88], &p[..12], &m[..12], &c[..4], &b[..88], &p[..12], &m[..12], &c[..4])
    };
    assert_eq!((pair(&h, &h), pair(&plain, &plain)), (Some(5), Some(5)));
    assert_eq!((pair(&h, &plain), pair(&plain, &h)), (Some(65_547), Some(65_547)));
}

/// Past the long side, on the far side of a quarter circle.
const BEYOND: Position = [-0.8, 0.6, 0.0];

/// What the mode is for: a place, a pair and a shape that the plain mode has wrong. Marks above 15 have no say.
#[test]
fn long_loops_are_asked() {
    let (plain, long) = (built(&OCEAN), built_long(&OCEAN));
    assert_eq!((plain.place(Y), long.place(Y)), (Ok(Place::Inside), Ok(Place::Inside)));
    assert_eq!((plain.place(BEYOND), long.place(BEYOND)), (Ok(Place::Inside), Ok(Place::Outside)));
    let (a, b) = ([X, [-0.6, 0.8, 0.0], W], [[-0.224, 0.768, 0.6], [-0.224, 0.768, -0.6], Y]);
    assert_eq!(built(&a).relate(&built(&b)), Ok(Relation::Disjoint));
    assert_eq!(built(&b).relate(&built(&a)), Ok(Relation::Intersecting));
    assert_eq!(built_long(&a).relate(&built_long(&b)), Ok(Relation::Intersecting));
    assert_eq!(built_long(&b).relate(&built_long(&a)), Ok(Relation::Intersecting));
    let crossed = [X, Z, [0.0, -1.0, 0.0], [-0.8, 0.0, 0.6]];
    assert_eq!((built(&crossed).is_simple(), built_long(&crossed).is_simple()), (Ok(true), Ok(false)));
    assert_eq!(built_long(&SILENT).place(X), Ok(Place::Mute));
    assert_eq!(built_long(&[X, [0.6, 0.8, 0.0], Y]).place(W), Ok(Place::Inside));
    let query: Vec<u8> = BEYOND.iter().flat_map(|c| c.to_le_bytes()).collect();
    for (l, told) in [(&plain, 1), (&long, 0)] {
        let mut bytes = l.bytes().to_vec();
        bytes[3] |= 0xF0;
        assert_eq!(raw::desk_place(&bytes, &query), Some(told));
    }
}

/// 11 after both loops' own refusals and ahead of 7, whatever the states; and of `relate` alone.
#[test]
fn modes_differ() {
    let lists = [&OCEAN[..], &SILENT, &[X, Y, Z], &[], &[X, [0.6, 0.8, 0.0], Y]];
    for (a, b) in lists.iter().flat_map(|a| lists.iter().map(move |b| (a, b))) {
        refused(11, built(a).relate(&built_long(b)));
        refused(11, built_long(a).relate(&built(b)));
        assert_eq!(built(a).is_equivalent(&built_long(b)), built(a).is_equivalent(&built(b)));
    }
    let (a, b) = ([[-0.8, 0.0, -0.6], X, [0.64, -0.48, 0.6]], [[0.0, -1.0, 0.0], Z, X]);
    refused(7, built(&a).relate(&built(&b)));
    refused(11, built(&a).relate(&built_long(&b)));
    assert_eq!(built_long(&a).relate(&built_long(&b)), Ok(Relation::Intersecting));
    let (plain, long) = (built(&OCEAN), built_long(&OCEAN));
    let spoilt = |l: &Loop, at: usize, f: f64| {
        let mut b = l.bytes().to_vec();
        b[at..at + 8].copy_from_slice(&f.to_le_bytes());
        b
    };
    for (number, at, f) in
        [(65_539, 88, f64::NAN), (65_540, 88, 2.0), (65_539, 88 + 96, f64::NAN), (65_539, 8, f64::NAN)]
    {
        assert_eq!(raw::desk_pair(plain.bytes(), &spoilt(&long, at, f)), Some(number));
        assert_eq!(raw::desk_pair(&spoilt(&long, at, f), plain.bytes()), Some(number));
    }
    assert_eq!(raw::desk_pair(long.bytes(), &plain.bytes()[1..]), Some(65_537));
    assert_eq!(raw::desk_pair(long.bytes(), plain.bytes()), Some(65_547));
}

#[test]
fn how_far() {
    let a = built(&[X, Y, Z]);
    let inside = a.distance_to_boundary([0.48, 0.6, 0.64]).unwrap();
    assert_eq!(inside.length2().to_bits(), 0x3FCF_6B55_1652_38B9);
    assert_eq!(a.distance_to_boundary(X).unwrap().to_string(), "squared chord 0");
    assert_eq!(a.distance_to_boundary(W).unwrap(), ChordLength::of_length2(2.0));
    assert!(a.distance_to_boundary([0.6, 0.8, 0.0]).unwrap() < inside);
    assert!(built(&SILENT).distance_to_boundary([0.28, 0.0, 0.96]).unwrap() > inside, "a mute loop has a border");
    for without in [built(&[]), built(&[X, [0.6, 0.8, 0.0], Y])] {
        assert_eq!(without.distance_to_boundary(Z).unwrap().length2().to_bits(), 0);
    }
    let arc = Arc::new(X, Y).unwrap();
    assert_eq!(arc.distance_to(Z).unwrap().length2(), 2.0);
    assert_eq!(arc.distance_to([-1.0, 0.0, 0.0]).unwrap().length2(), 2.0);
    assert_eq!(arc.distance_to([0.6, 0.8, 0.0]).unwrap().length2(), 0.0);
    for (n, p) in [(3, NAN), (4, FAR)] {
        refused(n, a.distance_to_boundary(p));
        refused(n, arc.distance_to(p));
    }
}

/// A squared chord is no angle: 0 and 4 are the ends of both, and nothing between them is the same.
#[test]
fn chords_have_angles() {
    let radians = |c: f64| ChordLength::of_length2(c).to_angle().unwrap().as_radians();
    let pi = std::f64::consts::PI;
    assert_eq!((radians(0.0).to_bits(), radians(-0.0).to_bits()), (0, 1 << 63));
    assert_eq!((radians(4.0), radians(4.0_f64.next_up()), radians(-5e-324)), (pi, pi, -1.0));
    assert!(radians(4.0_f64.next_up().next_up()).is_nan() && radians(f64::NAN).is_nan());
    assert!((radians(2.0) - pi / 2.0).abs() < 1e-13 && (radians(1.0) - pi / 3.0).abs() < 1e-13);
    assert_eq!(raw::desk_radians(f64::INFINITY.to_bits()), Some(0x7FF8_0000_0000_0000));
    assert_eq!(ChordLength::of_length2(4.0).to_angle().unwrap().to_string(), "3.141592653589793 radians");
}

#[test]
fn a_distance_needs_room() {
    let a = built(&[X, Y, Z]);
    let p: Vec<u8> = W.iter().flat_map(|c| c.to_le_bytes()).collect();
    let arc: Vec<u8> = [X, Y, Z].iter().flatten().flat_map(|c| c.to_le_bytes()).collect();
    let mut out = [7; 12];
    assert_eq!(raw::desk_far(a.bytes(), &p, &mut out[..7]), Some(65_541));
    assert_eq!(raw::desk_arc_far(&arc, &p, &mut out[..0]), Some(65_541));
    assert_eq!(out, [7; 12]);
    let two = [0, 0, 0, 0, 0, 0, 0, 64, 7, 7, 7, 7];
    assert_eq!((raw::desk_far(a.bytes(), &p, &mut out), out), (Some(0), two));
    out = [7; 12];
    assert_eq!((raw::desk_arc_far(&arc, &p, &mut out), out), (Some(0), two));
    assert_eq!(raw::desk_arc_far(&arc[..71], &p, &mut out), Some(65_537));
    assert_eq!(raw::desk_far(a.bytes(), &p[..23], &mut out), Some(65_537));
}

#[test]
fn a_distance_in_parts() {
    let a = built(&[X, Y, Z]);
    let (header, rest) = a.bytes().split_at(88);
    let floats: Vec<f64> = rest[..144].chunks(8).map(|b| f64::from_le_bytes(b.try_into().unwrap())).collect();
    let far = |p: Position, out: &mut [f64]| {
        raw::desk_far_f64(header, &floats[..9], &floats[9..], &rest[144..], p[0], p[1], p[2], out)
    };
    let mut out = [7.0; 2];
    assert_eq!((far(NAN, &mut []), far(FAR, &mut []), far(W, &mut [])), (Some(65_539), Some(65_540), Some(65_541)));
    assert_eq!((far(W, &mut out), out), (Some(0), [2.0, 7.0]));
}

const NAN: Position = [f64::NAN, 0.0, 0.0];
const FAR: Position = [2.0, 0.0, 0.0];

fn record(kind: u16, body: &[u8]) -> Vec<u8> {
    [&(body.len() as u32).to_le_bytes()[..], &kind.to_le_bytes(), body].concat()
}

fn area(number: u16, list: &[Position]) -> Vec<u8> {
    let positions: Vec<u8> = list.iter().flatten().flat_map(|c| c.to_le_bytes()).collect();
    record(1, &[&number.to_le_bytes()[..], &positions].concat())
}

fn pair(a: u16, b: u16) -> Vec<u8> {
    record(3, &[a.to_le_bytes(), b.to_le_bytes()].concat())
}

/// A place has the form of an area with one position.
fn place(number: u16, p: Position) -> Vec<u8> {
    let mut r = area(number, &[p]);
    r[4] = 2;
    r
}

/// So has a far.
fn far(number: u16, p: Position) -> Vec<u8> {
    let mut r = area(number, &[p]);
    r[4] = 4;
    r
}

/// What is said of area 1 (80 bytes) and then of these records.
fn after_one(records: &[u8]) -> String {
    scene(&[&area(1, &[X, Y, Z])[..], records].concat()).unwrap()
}

#[test]
fn a_scene_is_told() {
    let text = scene(include_bytes!("../../../samples/axes.scene")).unwrap();
    assert_eq!(text, include_str!("../../../samples/axes.txt"));
    assert_eq!(Ending::read(&text).unwrap(), Ending::Ended { records: 5 });
    let text = after_one(&[area(2, &[X, Y, W]), place(1, [0.48, 0.6, 0.64]), pair(2, 1)].concat());
    let lines =
        ["area 1 3 ring reversed steady 1", "area 2 3 ring kept steady 1", "place 1 inside", "pair 2 1 touching"];
    assert_eq!(text, format!("{}\nend 4\n", lines.join("\n")));
    let text = after_one(&[far(1, [0.48, 0.6, 0.64]), area(7, &[]), far(7, Z)].concat());
    assert!(text.ends_with("\nfar 1 3FCF6B55165238B9\narea 7 0 empty kept steady 0\nfar 7 0000000000000000\nend 4\n"));
    assert_eq!(scene(&[]).unwrap(), "end 0\n");
}

/// Each number that a scene can end in, with its field, and its index where it has one.
#[test]
fn a_refused_scene_has_parts() {
    let seven = [area(2, &[[-0.8, 0.0, -0.6], X, [0.64, -0.48, 0.6]]), area(3, &[[0.0, -1.0, 0.0], Z, X]), pair(2, 3)];
    let areas: Vec<u8> = (2..=17).flat_map(|k| area(k, &[])).collect();
    let parts = |number, record, field, index| Ending::Refused { refusal: Refusal(number), record, field, index };
    for (records, ending) in [
        (area(2, &[NAN; 513]), parts(2, 80, 86, None)),
        (area(2, &[X, NAN, FAR]), parts(3, 80, 86, Some(1))),
        (area(2, &[X, Y, FAR, NAN]), parts(4, 80, 86, Some(2))),
        (place(1, NAN), parts(3, 80, 86, Some(0))),
        (place(1, FAR), parts(4, 80, 86, Some(0))),
        (seven.concat(), parts(7, 240, 246, None)),
        (pair(1, 1)[..9].to_vec(), parts(20, 80, 89, None)),
        (far(1, NAN), parts(3, 80, 86, Some(0))),
        (far(1, FAR), parts(4, 80, 86, Some(0))),
        (record(5, &[1, 0]), parts(21, 80, 84, None)),
        (record(4, &[1, 0]), parts(22, 80, 80, None)),
        (record(3, &[0; 3]), parts(22, 80, 80, None)),
        (pair(9, 0), parts(23, 80, 88, None)),
        (area(1, &[NAN]), parts(24, 80, 86, None)),
        (pair(1, 9), parts(25, 80, 88, None)),
        (far(0, NAN), parts(23, 80, 86, None)),
        (far(9, NAN), parts(25, 80, 86, None)),
        (areas, parts(26, 200, 206, None)),
        (area(2, &[NAN; 1_022]), parts(27, 80, 80, None)),
    ] {
        let text = after_one(&records);
        assert!(text.starts_with("area 1 3 ring reversed steady 1\n"), "{text}");
        assert_eq!(Ending::read(&text).unwrap(), ending, "{text}");
        assert!(text.ends_with(&format!("\n{ending}\n")), "{text}");
    }
    assert_eq!(after_one(&area(2, &[X, Y, FAR])).lines().last(), Some("refused 4 at 80 86 2"));
}

#[test]
fn a_text_needs_room() {
    let records = include_bytes!("../../../samples/axes.scene");
    let text = scene(records).unwrap().into_bytes();
    let mut out = vec![7; text.len() + 5];
    let blank = out.clone();
    assert_eq!(raw::desk_scene(records, &mut out[..text.len() - 1]), Some((1 << 32) + 5));
    assert_eq!(raw::desk_scene(records, &mut []), Some((1 << 32) + 5));
    assert_eq!(out, blank);
    assert_eq!(raw::desk_scene(records, &mut out), Some(text.len() as u64));
    assert_eq!((&out[..text.len()], &out[text.len()..]), (&text[..], &[7; 5][..]));
    assert_eq!(raw::desk_scene(records, &mut out[..text.len()]), Some(text.len() as u64));
}

/// A text of more than 196,000 bytes; then one record is cut short at the last byte that a scene may have, then that is passed.
#[test]
fn the_longest_texts_fit() {
    let (north, across) = (&SQUARE, &[[0.6, 0.8, 0.0], Z, [-0.6, -0.8, 0.0]]);
    let mut records = [area(10_000, north), area(65_535, across)].concat();
    let mut text = scene(&records).unwrap().replace("end 2\n", "");
    let mut count = 2;
    while records.len() + 10 <= MOST_SCENE_BYTES {
        records.extend(pair(10_000, 65_535));
        text.push_str("pair 10000 65535 intersecting\n");
        count += 1;
    }
    text.push_str(&format!("end {count}\n"));
    assert!(text.len() > 196_000 && text.len() <= MOST_TEXT_BYTES);
    assert_eq!(scene(&records).unwrap(), text);
    let cut = format!("refused 20 at {} 65536", records.len());
    records.resize(MOST_SCENE_BYTES, 255);
    assert_eq!(scene(&records).unwrap(), text.replace(&format!("end {count}"), &cut));
    records.push(0);
    assert_eq!(scene(&records).unwrap(), "refused 28 at 0 65536\n");
}

/// What is not the text of a scene is told so: nothing is guessed.
#[test]
fn broken_texts() {
    let text = after_one(&area(2, &[X, FAR]));
    assert!(text.ends_with("\nrefused 4 at 80 86 1\n"));
    for line in [
        "refused 4 at 80 86",
        "refused 2 at 80 86 1",
        "refused 24 at 80 86 1",
        "refused 4 at 80 86 1 1",
        "refused 4 at 80",
        "refused 10 at 80 86",
        "refused 5 at 80 86",
        "refused 29 at 80 86",
        "refused 4 in 80 86 1",
        "refused 4 at 080 86 1",
        "refused 4 at 80 +86 1",
        "refused 4 at 80 86 ",
        "refused 4 at 80  86 1",
        "end",
        "end -1",
        "end 01",
        "end 1 1",
        "area 2 0 empty kept steady 0",
        "",
    ] {
        let broken = text.replace("refused 4 at 80 86 1", line);
        assert_eq!(Ending::read(&broken), Err(Error::Broken), "{line}");
    }
    assert_eq!(Ending::read(text.trim_end()), Err(Error::Broken));
    assert_eq!(Ending::read(""), Err(Error::Broken));
}
