//! Arcs: 72 bytes, start, end and normal.
use crate::leaves::side_code;
use crate::long::{self, Mode};
use crate::read::{Judged, answer, floats, position, put, query, refuse_if, vec3};
use jord::spherical::minor_arc::probe::of_parts;
use jord::spherical::{MinorArc, MinorArcRelation, Side};

/// An arc handed in: its 1, then start and end with 3 before 4, then its normal's 3.
pub fn read_arc(bytes: &[u8]) -> Judged<MinorArc> {
    refuse_if(bytes.len() != 72, 1)?;
    let c = floats(bytes);
    let start = position(&c[0..3])?;
    let end = position(&c[3..6])?;
    refuse_if(!c[6..9].iter().all(|x| x.is_finite()), 3)?;
    Ok(of_parts(start, end, vec3(&c[6..9])))
}

fn write_arc(a: MinorArc, out: &mut [u8]) -> Judged<()> {
    refuse_if(out.len() < 72, 5)?;
    put(out, 0, a.start().as_vec3());
    put(out, 24, a.end().as_vec3());
    put(out, 48, a.normal());
    Ok(())
}

pub fn desk_arc(start: &[u8], end: &[u8], out: &mut [u8]) -> u32 {
    answer((|| {
        refuse_if(start.len() != 24 || end.len() != 24, 1)?;
        let (start, end) = (query(start)?, query(end)?);
        write_arc(MinorArc::new(start, end), out)?;
        Ok(0)
    })())
}

pub fn desk_arc_opposite(arc: &[u8], out: &mut [u8]) -> u32 {
    answer((|| {
        let a = read_arc(arc)?;
        write_arc(a.opposite(), out)?;
        Ok(0)
    })())
}

pub fn desk_arc_side(arc: &[u8], p: &[u8]) -> u32 {
    answer((|| {
        let a = read_arc(arc)?;
        let p = query(p)?;
        Ok(match a.side_of(p) {
            0 => side_code(Side::Collinear),
            1 => side_code(Side::Left),
            _ => side_code(Side::Right),
        })
    })())
}

pub fn desk_arc_contains(arc: &[u8], p: &[u8]) -> u32 {
    answer((|| {
        let a = read_arc(arc)?;
        let p = query(p)?;
        Ok(u32::from(a.contains_position(p)))
    })())
}

/// Where two arcs meet: of the plain mode the source's own `intersection`.
fn intersected(mode: Mode, a: &[u8], b: &[u8], out: &mut [u8]) -> u32 {
    answer((|| {
        let a = read_arc(a)?;
        let b = read_arc(b)?;
        let met = if mode == Mode::Plain { a.intersection(b) } else { long::intersection(mode, a, b) };
        let Some(p) = met else { return Ok(0) };
        refuse_if(out.len() < 24, 5)?;
        put(out, 0, p.as_vec3());
        Ok(1)
    })())
}

pub fn desk_arc_intersection(a: &[u8], b: &[u8], out: &mut [u8]) -> u32 {
    intersected(Mode::Plain, a, b, out)
}

pub fn desk_arc_intersection_long(a: &[u8], b: &[u8], out: &mut [u8]) -> u32 {
    intersected(Mode::Long, a, b, out)
}

fn related(mode: Mode, a: &[u8], b: &[u8], out: &mut [u8]) -> u32 {
    answer((|| {
        let a = read_arc(a)?;
        let b = read_arc(b)?;
        let (code, p) = match long::relation(mode, a, b) {
            MinorArcRelation::Disjoint => return Ok(0),
            MinorArcRelation::Intersecting(p) => (1, p),
            MinorArcRelation::Touching(p) => (2, p),
            MinorArcRelation::Overlapping(o) => {
                write_arc(o, out)?;
                return Ok(3);
            }
        };
        refuse_if(out.len() < 24, 5)?;
        put(out, 0, p.as_vec3());
        Ok(code)
    })())
}

pub fn desk_arc_relate(a: &[u8], b: &[u8], out: &mut [u8]) -> u32 {
    related(Mode::Plain, a, b, out)
}

pub fn desk_arc_relate_long(a: &[u8], b: &[u8], out: &mut [u8]) -> u32 {
    related(Mode::Long, a, b, out)
}
