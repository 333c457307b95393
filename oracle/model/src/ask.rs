//! Questions put to a loop handed back: the whole loop is judged, then the query, then the source is asked.
use crate::long;
use crate::loops::{Handed, read_loop, take_loop};
use crate::read::{Judged, answer, position, query};
use jord::NVector;
use jord::spherical::Loop;

pub const OUTSIDE: u32 = 0;
pub const INSIDE: u32 = 1;
pub const MUTE: u32 = 2;

/// "A place asked of a mute loop: refusals first, then Mute."
pub fn placed(handed: &Handed, l: &Loop, p: NVector) -> u32 {
    if handed.is_mute() {
        MUTE
    } else if long::contains(handed.mode(), l, p) {
        INSIDE
    } else {
        OUTSIDE
    }
}

pub fn desk_place(of: &[u8], p: &[u8]) -> u32 {
    answer((|| {
        let handed = read_loop(of)?;
        let l = handed.judge()?;
        Ok(placed(&handed, &l, query(p)?))
    })())
}

pub fn desk_place_f64(
    header: &[u8],
    positions: &[f64],
    normals: &[f64],
    classes: &[u8],
    x: f64,
    y: f64,
    z: f64,
) -> u32 {
    answer((|| {
        let handed = take_loop(header, positions, Some(normals), classes)?;
        let l = handed.judge()?;
        Ok(placed(&handed, &l, position(&[x, y, z])?))
    })())
}

fn asked(of: &[u8], question: impl Fn(&Loop) -> bool) -> u32 {
    answer((|| {
        let l = read_loop(of)?.judge()?;
        Ok(u32::from(question(&l)))
    })())
}

fn asked_at(of: &[u8], p: &[u8], question: impl Fn(&Loop, NVector) -> bool) -> u32 {
    answer((|| {
        let l = read_loop(of)?.judge()?;
        let p = query(p)?;
        Ok(u32::from(question(&l, p)))
    })())
}

pub fn desk_convex(of: &[u8]) -> u32 {
    asked(of, Loop::is_convex)
}

pub fn desk_simple(of: &[u8]) -> u32 {
    answer((|| {
        let handed = read_loop(of)?;
        let l = handed.judge()?;
        Ok(u32::from(long::is_simple(handed.mode(), &l)))
    })())
}

pub fn desk_vertex(of: &[u8], p: &[u8]) -> u32 {
    asked_at(of, p, Loop::has_vertex)
}

pub fn desk_on_edge(of: &[u8], p: &[u8]) -> u32 {
    asked_at(of, p, Loop::any_edge_contains_position)
}

/// Two loops, all refusals of the first before those of the second.
pub fn judge_two(a: &[u8], b: &[u8]) -> Judged<(Loop, Loop)> {
    let a = read_loop(a)?.judge()?;
    let b = read_loop(b)?.judge()?;
    Ok((a, b))
}

pub fn desk_equivalent(a: &[u8], b: &[u8]) -> u32 {
    answer(judge_two(a, b).map(|(a, b)| u32::from(a.is_equivalent(&b))))
}
