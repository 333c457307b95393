//! Two loops related. The source decides; where it would need a midpoint that of SCOPE 3 takes its
//! place, and the pair is outside the domain. In long mode its steps decide, without caps and with arcs that meet in either point.
use crate::ask::judge_two;
use crate::leaves::midpoint;
use crate::long::{self, Mode, mode_of};
use crate::loops::take_loop;
use crate::read::{Judged, answer, refuse_if};
use jord::NVector;
use jord::spherical::sloop::probe as sloop;
use jord::spherical::{Loop, LoopRelation, MinorArcRelation};
use std::panic::{AssertUnwindSafe, catch_unwind};

pub struct Related {
    /// The relation's code, or refusal 7.
    pub answer: Judged<u32>,
    /// Whether a midpoint was needed.
    pub outside: bool,
}

fn code(r: LoopRelation) -> u32 {
    match r {
        LoopRelation::Disjoint => 0,
        LoopRelation::Touching => 1,
        LoopRelation::Intersecting => 2,
        LoopRelation::Containing => 3,
        LoopRelation::Within => 4,
        LoopRelation::Equal => 5,
    }
}

/// The source's own answer; its `unreachable!` is 7.
fn by_source(a: &Loop, b: &Loop) -> Judged<u32> {
    catch_unwind(AssertUnwindSafe(|| a.relate(b))).map(code).map_err(|_| 7)
}

/// Whether the source would work out a midpoint on the way from `probe` to `reference`.
fn needs_midpoint(probe: &Loop, reference: &Loop) -> bool {
    !sloop::vertices_of(probe).is_empty() && probe.iter_vertices().all(|v| reference.any_edge_contains_position(*v))
}

/// `find_unambiguous_point` with the stand-in.
fn unambiguous(probe: &Loop, reference: &Loop) -> Option<NVector> {
    let clear = |p: &NVector| !reference.any_edge_contains_position(*p);
    probe.iter_vertices().copied().find(clear).or_else(|| {
        let mid = |e: &jord::spherical::MinorArc| midpoint(e.start(), e.end());
        probe.iter_edges().filter_map(mid).find(clear)
    })
}

enum Edges {
    Crossing,
    Meeting,
    Apart,
}

fn edges(mode: Mode, a: &Loop, b: &Loop) -> Edges {
    let mut met = false;
    for e in a.iter_edges() {
        for f in b.iter_edges() {
            match long::relation(mode, *e, *f) {
                MinorArcRelation::Intersecting(_) => return Edges::Crossing,
                MinorArcRelation::Disjoint => {}
                _ => met = true,
            }
        }
    }
    if met { Edges::Meeting } else { Edges::Apart }
}

/// The source's steps up to its search for a point: the answer, or whether the edges met.
fn before_points(mode: Mode, a: &Loop, b: &Loop) -> Result<u32, bool> {
    if a.is_full() {
        return Ok(code(if b.is_full() { LoopRelation::Equal } else { LoopRelation::Containing }));
    }
    if a.is_empty() && b.is_empty() {
        return Ok(code(LoopRelation::Equal));
    }
    if mode == Mode::Plain && !a.bounding_cap().intersects(b.bounding_cap()) {
        return Ok(code(LoopRelation::Disjoint));
    }
    if a.is_equivalent(b) {
        return Ok(code(LoopRelation::Equal));
    }
    match edges(mode, a, b) {
        Edges::Crossing => Ok(code(LoopRelation::Intersecting)),
        Edges::Meeting => Err(true),
        Edges::Apart => Err(false),
    }
}

/// The whole relation with the stand-in, by the source's steps.
fn by_steps(mode: Mode, a: &Loop, b: &Loop) -> Judged<u32> {
    let met = match before_points(mode, a, b) {
        Ok(answer) => return Ok(answer),
        Err(met) => met,
    };
    let a_in_b = unambiguous(a, b).is_some_and(|p| long::contains(mode, b, p));
    let b_in_a = unambiguous(b, a).is_some_and(|p| long::contains(mode, a, p));
    match (a_in_b, b_in_a) {
        (true, true) => Err(7),
        (true, false) => Ok(code(LoopRelation::Within)),
        (false, true) => Ok(code(LoopRelation::Containing)),
        (false, false) => Ok(code(if met { LoopRelation::Touching } else { LoopRelation::Disjoint })),
    }
}

pub fn relate(a: &Loop, b: &Loop) -> Related {
    let searched = needs_midpoint(a, b) || needs_midpoint(b, a);
    if searched && before_points(Mode::Plain, a, b).is_err() {
        return Related { answer: by_steps(Mode::Plain, a, b), outside: true };
    }
    let answer = by_source(a, b);
    Related { answer, outside: false }
}

/// The steps above beside the source, where both may speak; a test of this file.
pub fn steps_agree(a: &Loop, b: &Loop) -> bool {
    relate(a, b).outside || by_steps(Mode::Plain, a, b) == by_source(a, b)
}

/// SCOPE 56: 11 where the modes differ, whatever the loops are, and ahead of 7.
fn in_one_mode(first: Mode, second: Mode, a: &Loop, b: &Loop) -> Judged<u32> {
    refuse_if(first != second, 11)?;
    if first == Mode::Plain {
        return relate(a, b).answer;
    }
    if cfg!(feature = "held") {
        assert!(steps_agree(a, b), "the plain steps are the source's: {a:?} {b:?}");
    }
    by_steps(first, a, b)
}

/// Both are judged, so that each has a mark byte.
pub fn desk_pair(a: &[u8], b: &[u8]) -> u32 {
    answer(judge_two(a, b).and_then(|(x, y)| in_one_mode(mode_of(a[3]), mode_of(b[3]), &x, &y)))
}

#[allow(clippy::too_many_arguments)]
pub fn desk_pair_f64(
    header: &[u8],
    positions: &[f64],
    normals: &[f64],
    classes: &[u8],
    other_header: &[u8],
    other_positions: &[f64],
    other_normals: &[f64],
    other_classes: &[u8],
) -> u32 {
    answer((|| {
        let a = take_loop(header, positions, Some(normals), classes)?.judge()?;
        let b = take_loop(other_header, other_positions, Some(other_normals), other_classes)?.judge()?;
        in_one_mode(mode_of(header[3]), mode_of(other_header[3]), &a, &b)
    })())
}
