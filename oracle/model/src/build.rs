//! Building, by the source's own steps; the direction and the marks by the port's own arctangent.
use crate::leaves::{sine, turning};
use crate::long::Mode;
use crate::loops::{EMPTY, FULL, INSIDES, LONG, RING};
use crate::read::{HEADER, Judged, MOST, answer, floats, positions, put, refuse_if};
use jord::spherical::sloop::probe as sloop;
use jord::spherical::{Cap, Loop, MinorArc, cap, chord_length};
use jord::{NVector, Vec3};

/// Below this size a turn sum makes the loop weak.
pub const STEADY: f64 = 1.0 / (1u64 << 30) as f64;

/// A loop as built.
pub struct Built {
    /// No other part hangs on it.
    pub mode: Mode,
    pub state: u8,
    pub reversed: bool,
    pub weak: bool,
    pub cap: Cap,
    pub insides: Option<(NVector, NVector)>,
    pub vertices: Vec<(NVector, u8)>,
    pub edges: Vec<MinorArc>,
    /// The turn sum by the port's arctangent, and the Rust's.
    pub turns: Option<(f64, f64)>,
}

/// The turn sum in the order of the source's `to_edges`: from each edge to the next, last to first at the end.
fn turn_sum(edges: &[MinorArc], turn: impl Fn(MinorArc, MinorArc) -> f64) -> f64 {
    let n = edges.len();
    (0..n).fold(0.0, |sum, i| sum + turn(edges[i], edges[(i + 1) % n]))
}

/// The computed sine and cosine of each turn, in the order of the turn sum; of a list that makes no ring, none.
pub fn turn_pairs(list: &[NVector]) -> Vec<(f64, f64)> {
    let opened = sloop::opened(list);
    if opened.len() < 3 {
        return Vec::new();
    }
    let (edges, _) = sloop::to_edges(opened);
    let n = edges.len();
    let pair =
        |a: MinorArc, b: MinorArc| (sine(a.normal(), b.normal(), a.end().as_vec3()), a.normal().dot_prod(b.normal()));
    (0..n).map(|i| pair(edges[i], edges[(i + 1) % n])).collect()
}

fn of_state(mode: Mode, state: u8, turns: Option<(f64, f64)>, weak: bool) -> Built {
    let cap = if state == FULL { Cap::FULL } else { Cap::EMPTY };
    let (vertices, edges) = (Vec::new(), Vec::new());
    Built { mode, state, reversed: false, weak, cap, insides: None, vertices, edges, turns }
}

pub fn build(mode: Mode, list: &[NVector]) -> Built {
    let opened = sloop::opened(list);
    if opened.len() < 3 {
        return of_state(mode, EMPTY, None, false);
    }
    let (edges, rust_clockwise) = sloop::to_edges(opened);
    let ours = turn_sum(&edges, |a, b| turning(a.normal(), b.normal(), a.end().as_vec3()));
    let rust = turn_sum(&edges, |a, b| a.turn(b).as_radians());
    if cfg!(feature = "held") {
        assert_eq!(rust < 0.0, rust_clockwise, "the turn sum is the source's");
    }
    let (turns, weak) = (Some((ours, rust)), ours.abs() < STEADY);
    let clockwise = ours < 0.0;
    let edges = if clockwise { edges } else { sloop::reverse_edges(&edges) };
    let vertices = sloop::classed(&edges);
    let built = if vertices.iter().all(|v| v.1 == 2) {
        of_state(mode, FULL, turns, weak)
    } else {
        let insides = if vertices.len() > 3 { sloop::find_insides(&vertices) } else { None };
        let cap = sloop::calc_bounding_cap(opened);
        Built { mode, state: RING, reversed: !clockwise, weak, cap, insides, vertices, edges, turns }
    };
    if cfg!(feature = "held") && clockwise == rust_clockwise {
        same_as_source(&built, &Loop::new(list));
    }
    built
}

/// Where both directions agree the source's own `Loop::new` must have made the same loop.
fn same_as_source(b: &Built, l: &Loop) {
    let same = |p: NVector, q: NVector| bits(p.as_vec3()) == bits(q.as_vec3());
    let of = sloop::vertices_of(l);
    let edges = sloop::edges_of(l);
    assert_eq!((b.state == FULL, b.state == EMPTY), (l.is_full(), l.is_empty()));
    assert!(of.len() == b.vertices.len() && edges.len() == b.edges.len());
    assert!(of.iter().zip(&b.vertices).all(|(v, w)| same(v.0, w.0) && v.1 == w.1));
    assert!(edges.iter().zip(&b.edges).all(|(e, f)| {
        same(e.start(), f.start()) && same(e.end(), f.end()) && bits(e.normal()) == bits(f.normal())
    }));
    assert_eq!(format!("{:?}", sloop::insides_of(l)), format!("{:?}", b.insides));
    assert_eq!(format!("{:?}", l.bounding_cap()), format!("{:?}", b.cap));
}

fn bits(v: Vec3) -> [u64; 3] {
    [v.x().to_bits(), v.y().to_bits(), v.z().to_bits()]
}

impl Built {
    pub fn count(&self) -> usize {
        self.vertices.len()
    }

    /// The header's 88 bytes.
    pub fn header(&self) -> [u8; HEADER] {
        let mut h = [0; HEADER];
        h[..2].copy_from_slice(&(self.count() as u16).to_le_bytes());
        h[2] = self.state;
        h[3] = u8::from(self.reversed) | u8::from(self.weak) << 1 | if self.insides.is_some() { INSIDES } else { 0 };
        h[3] |= if self.mode == Mode::Long { LONG } else { 0 };
        put(&mut h, 8, self.cap.centre().as_vec3());
        let radius = chord_length::probe::length2(cap::probe::radius(self.cap));
        h[32..40].copy_from_slice(&radius.to_le_bytes());
        if let Some((a, b)) = self.insides {
            put(&mut h, 40, a.as_vec3());
            put(&mut h, 64, b.as_vec3());
        }
        h
    }

    pub fn is_mute(&self) -> bool {
        self.state == RING && self.count() > 3 && self.insides.is_none()
    }
}

/// A list judged: its 1, 2, then 3 and 4 position by position.
pub fn judge_list(list: &[f64]) -> Judged<Vec<NVector>> {
    refuse_if(list.len() % 3 != 0, 1)?;
    refuse_if(list.len() / 3 > MOST, 2)?;
    positions(list)
}

/// What refusal 5 is judged by: the opened count, 0 below three.
fn needed(list: &[NVector]) -> usize {
    match sloop::opened(list).len() {
        0..=2 => 0,
        n => n,
    }
}

fn build_bytes(mode: Mode, list: &[u8], out: &mut [u8]) -> u32 {
    answer((|| {
        refuse_if(list.len() % 24 != 0, 1)?;
        let list = judge_list(&floats(list))?;
        refuse_if(out.len() < HEADER + 49 * needed(&list), 5)?;
        let b = build(mode, &list);
        let n = b.count();
        out[..HEADER].copy_from_slice(&b.header());
        for i in 0..n {
            put(out, HEADER + 24 * i, b.vertices[i].0.as_vec3());
            put(out, HEADER + 24 * (n + i), b.edges[i].normal());
            out[HEADER + 48 * n + i] = b.vertices[i].1;
        }
        Ok(n as u32)
    })())
}

pub fn desk_build(list: &[u8], out: &mut [u8]) -> u32 {
    build_bytes(Mode::Plain, list, out)
}

pub fn desk_build_long(list: &[u8], out: &mut [u8]) -> u32 {
    build_bytes(Mode::Long, list, out)
}

fn put_floats(out: &mut [f64], i: usize, v: Vec3) {
    out[3 * i..3 * i + 3].copy_from_slice(&[v.x(), v.y(), v.z()]);
}

fn build_floats(
    mode: Mode,
    list: &[f64],
    header: &mut [u8],
    positions: &mut [f64],
    normals: &mut [f64],
    classes: &mut [u8],
) -> u32 {
    answer((|| {
        let list = judge_list(list)?;
        let n = needed(&list);
        let short = header.len() < HEADER || positions.len() < 3 * n || normals.len() < 3 * n || classes.len() < n;
        refuse_if(short, 5)?;
        let b = build(mode, &list);
        header[..HEADER].copy_from_slice(&b.header());
        for i in 0..b.count() {
            put_floats(positions, i, b.vertices[i].0.as_vec3());
            put_floats(normals, i, b.edges[i].normal());
            classes[i] = b.vertices[i].1;
        }
        Ok(b.count() as u32)
    })())
}

pub fn desk_build_f64(
    list: &[f64],
    header: &mut [u8],
    positions: &mut [f64],
    normals: &mut [f64],
    classes: &mut [u8],
) -> u32 {
    build_floats(Mode::Plain, list, header, positions, normals, classes)
}

pub fn desk_build_long_f64(
    list: &[f64],
    header: &mut [u8],
    positions: &mut [f64],
    normals: &mut [f64],
    classes: &mut [u8],
) -> u32 {
    build_floats(Mode::Long, list, header, positions, normals, classes)
}
