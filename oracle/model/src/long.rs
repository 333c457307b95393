//! The long mode (SCOPE 54 to 57). The source has none, so what follows is written here, over its single steps: the unit vector of the
//! normals' product, where a point lies on an arc, when two points count as one. Each step takes the mode, and in plain mode the steps
//! must come to what the source says itself: that is asserted wherever long mode is asked (`held`).
use crate::loops::LONG;
use jord::spherical::minor_arc::probe::{Location, location};
use jord::spherical::sloop::probe as sloop;
use jord::spherical::{Loop, MinorArc, MinorArcRelation, Sphere};
use jord::{NVector, Vec3};

/// Which of the two points in which two great circles meet may be where two arcs meet.
#[derive(Clone, Copy, Debug, PartialEq, Eq)]
pub enum Mode {
    /// The one on the side of the first arc's start, as in the source.
    Plain,
    /// Both.
    Long,
}

/// The mode that a header's mark byte says; no other bit has a say in it.
pub fn mode_of(marks: u8) -> Mode {
    if marks & LONG != 0 { Mode::Long } else { Mode::Plain }
}

/// Where two arcs meet.
#[derive(Clone, Copy, Debug, PartialEq)]
pub enum Meeting {
    Collinear,
    Apart,
    Touching(Vec3),
    Crossing(Vec3),
}

/// What two arcs have in one point of both great circles.
fn meeting_in(a: MinorArc, b: MinorArc, p: Vec3) -> Meeting {
    match (location(a, p), location(b, p)) {
        (Location::Exterior, _) | (_, Location::Exterior) => Meeting::Apart,
        (Location::Interior, Location::Interior) => Meeting::Crossing(p),
        _ => Meeting::Touching(p),
    }
}

fn rank(m: Meeting) -> u8 {
    match m {
        Meeting::Collinear | Meeting::Apart => 0,
        Meeting::Touching(_) => 1,
        Meeting::Crossing(_) => 2,
    }
}

/// SCOPE 54: of equal kinds that of the point on the side of the first arc's start.
pub fn meeting(mode: Mode, a: MinorArc, b: MinorArc) -> Meeting {
    let i = a.normal().stable_cross_prod_unit(b.normal());
    if i == Vec3::ZERO {
        return Meeting::Collinear;
    }
    let p = if a.start().as_vec3().dot_prod(i) > 0.0 { i } else { -i };
    let near = meeting_in(a, b, p);
    if mode == Mode::Plain {
        return near;
    }
    let opposite = meeting_in(a, b, -p);
    if rank(opposite) > rank(near) { opposite } else { near }
}

/// How two arcs relate by these steps; what collinear ones share is left to the source.
fn relation_by_steps(mode: Mode, a: MinorArc, b: MinorArc) -> MinorArcRelation {
    match meeting(mode, a, b) {
        Meeting::Collinear => a.relate(b),
        Meeting::Apart => MinorArcRelation::Disjoint,
        Meeting::Touching(p) => MinorArcRelation::Touching(NVector::new(p)),
        Meeting::Crossing(p) => MinorArcRelation::Intersecting(NVector::new(p)),
    }
}

/// How two arcs relate.
pub fn relation(mode: Mode, a: MinorArc, b: MinorArc) -> MinorArcRelation {
    if mode == Mode::Plain {
        return a.relate(b);
    }
    if cfg!(feature = "held") {
        assert_eq!(relation_by_steps(Mode::Plain, a, b), a.relate(b), "the plain steps are the source's: {a:?} {b:?}");
    }
    relation_by_steps(mode, a, b)
}

/// The point in which two arcs meet; none of collinear ones.
pub fn intersection(mode: Mode, a: MinorArc, b: MinorArc) -> Option<NVector> {
    match meeting(mode, a, b) {
        Meeting::Touching(p) | Meeting::Crossing(p) => Some(NVector::new(p)),
        Meeting::Collinear | Meeting::Apart => None,
    }
}

/// SCOPE 22: how often an arc crosses the edges of a ring, all points at hand. A point near that of the edge before is not counted again; the
/// second edge has no edge before, as the first one's point is for the last alone.
fn crossings(mode: Mode, arc: MinorArc, edges: &[MinorArc]) -> usize {
    let met: Vec<Option<Vec3>> = edges.iter().map(|e| intersection(mode, arc, *e).map(|p| p.as_vec3())).collect();
    let new = |i: usize, p: Vec3| {
        let before = if i >= 2 { met[i - 1] } else { None };
        let first = if i > 0 && i + 1 == met.len() { met[0] } else { None };
        ![before, first].into_iter().flatten().any(|q| sloop::vec3_eq(q, p))
    };
    (0..met.len()).filter(|i| met[*i].is_some_and(|p| new(*i, p))).count()
}

/// SCOPE 21: with insides by the crossings, in plain mode within the cap alone; without any there is nothing to cross.
fn contains_by_steps(mode: Mode, l: &Loop, p: NVector) -> bool {
    let Some((a, b)) = sloop::insides_of(l) else { return l.contains_position(p) };
    if mode == Mode::Plain && !l.bounding_cap().contains_position(p) {
        return false;
    }
    if p == a || p == b {
        return true;
    }
    let from = if a.is_antipode_of(p) { b } else { a };
    crossings(mode, MinorArc::new(from, p), sloop::edges_of(l)) % 2 == 0
}

/// Whether a loop contains a position.
pub fn contains(mode: Mode, l: &Loop, p: NVector) -> bool {
    if mode == Mode::Plain {
        return l.contains_position(p);
    }
    if cfg!(feature = "held") {
        let plain = contains_by_steps(Mode::Plain, l, p);
        assert_eq!(plain, l.contains_position(p), "the plain steps are the source's: {l:?} {p:?}");
    }
    contains_by_steps(mode, l, p)
}

/// SCOPE 23: neighbours are neither equal nor antipodes, and no two edges meet that are not neighbours.
fn is_simple_by_steps(mode: Mode, l: &Loop) -> bool {
    let (vertices, edges) = (sloop::vertices_of(l), sloop::edges_of(l));
    let n = edges.len();
    let apart = |i: usize, j: usize| i + 1 < j && !(i == 0 && j == n - 1);
    let meet = |i: usize, j: usize| apart(i, j) && intersection(mode, edges[i], edges[j]).is_some();
    (0..n).all(|i| Sphere::is_great_circle(vertices[i].0, vertices[(i + 1) % n].0))
        && !(0..n).any(|i| (i + 1..n).any(|j| meet(i, j)))
}

/// Whether a loop is simple.
pub fn is_simple(mode: Mode, l: &Loop) -> bool {
    if mode == Mode::Plain {
        return l.is_simple();
    }
    if cfg!(feature = "held") {
        assert_eq!(is_simple_by_steps(Mode::Plain, l), l.is_simple(), "the plain steps are the source's: {l:?}");
    }
    is_simple_by_steps(mode, l)
}
