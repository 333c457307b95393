//! Cutting a ring into triangles of ring numbers, and the checker (SCOPE 16, 17, 20). An index is eligible if its class is
//! convex and no corner of another class is inside or on an edge of (previous, this, next).
use crate::loops::{EMPTY, FULL, Ring, read_loop, take_loop};
use crate::read::{Judged, answer, refuse_if};
use jord::NVector;
use jord::spherical::sloop::probe as sloop;
use jord::spherical::{Side, Sphere};

pub type Triple = [u16; 3];

/// The ring that is left: number, position and class of each vertex.
#[derive(Clone)]
struct Left(Vec<(u16, NVector, u8)>);

impl Left {
    fn of(ring: &Ring) -> Self {
        let number = |(i, v): (usize, &(NVector, u8))| (i as u16, v.0, v.1);
        Left(ring.vertices.iter().enumerate().map(number).collect())
    }

    /// The places before, at and after, counted round the ring.
    fn around(&self, at: usize) -> [usize; 3] {
        let n = self.0.len();
        [(at + n - 1) % n, at, (at + 1) % n]
    }

    fn triple(&self, at: usize) -> Triple {
        self.around(at).map(|i| self.0[i].0)
    }

    fn eligible(&self, at: usize) -> bool {
        let [p, t, n] = self.around(at).map(|i| self.0[i].1);
        let inside = |v: &(u16, NVector, u8)| v.2 != 0 && sloop::inside_or_edge(v.1, p, t, n);
        self.0[at].2 == 0 && !self.0.iter().any(inside)
    }

    /// Takes the vertex out; the two neighbours alone are classed afresh, if more than three are left: the one at the cut and
    /// the one before it (SCOPE 41), held to the source's own branches.
    fn cut(&mut self, at: usize) {
        self.0.remove(at);
        let n = self.0.len();
        if n > 3 {
            let source = cfg!(feature = "held").then(|| sloop::re_classify(&self.vertices(), at));
            self.class(at % n);
            self.class((at + n - 1) % n);
            if let Some(vertices) = source {
                assert_eq!(self.vertices(), vertices, "the classes after a cut are the source's");
            }
        }
    }

    fn vertices(&self) -> Vec<(NVector, u8)> {
        self.0.iter().map(|v| (v.1, v.2)).collect()
    }

    fn class(&mut self, at: usize) {
        let [p, t, n] = self.around(at).map(|i| self.0[i].1);
        self.0[at].2 = match Sphere::side(p, t, n) {
            Side::Right => 0,
            Side::Left => 1,
            Side::Collinear => 2,
        };
    }

    /// "The last one is the ring left, from its first."
    fn last(&self) -> Triple {
        [self.0[0].0, self.0[1].0, self.0[2].0]
    }
}

/// The triples of a ring, each at the lowest eligible place; none where no ear is left.
pub fn triangles(ring: &Ring) -> Option<Vec<Triple>> {
    let mut left = Left::of(ring);
    let mut out = Vec::new();
    while left.0.len() > 3 {
        let at = (0..left.0.len()).find(|i| left.eligible(*i))?;
        out.push(left.triple(at));
        left.cut(at);
    }
    out.push(left.last());
    Some(out)
}

/// Cuts at eligible places that `choose` picks, for lists that the checker must accept; none where it gets stuck.
pub fn other_triangles(ring: &Ring, mut choose: impl FnMut(usize) -> usize) -> Option<Vec<Triple>> {
    let mut left = Left::of(ring);
    let mut out = Vec::new();
    while left.0.len() > 3 {
        let places: Vec<usize> = (0..left.0.len()).filter(|i| left.eligible(*i)).collect();
        if places.is_empty() {
            return None;
        }
        let at = places[choose(places.len())];
        out.push(left.triple(at));
        left.cut(at);
    }
    out.push(left.last());
    Some(out)
}

/// The same, held to the source's own `ear_clipping`, which answers by position.
pub fn triangles_checked(ring: &Ring) -> Option<Vec<Triple>> {
    let ours = triangles(ring);
    if !cfg!(feature = "held") {
        return ours;
    }
    let at = |i: u16| ring.vertices[usize::from(i)].0;
    let by_position: Vec<_> = ours.iter().flatten().map(|t| (at(t[0]), at(t[1]), at(t[2]))).collect();
    assert_eq!(sloop::ear_clipping(&ring.vertices), by_position, "the triangles are the source's");
    ours
}

/// The 12 positions of the full loop, as the source's faces name them: top, upper ring, lower ring, bottom.
pub fn full_positions() -> &'static [NVector] {
    static POSITIONS: std::sync::OnceLock<Vec<NVector>> = std::sync::OnceLock::new();
    POSITIONS.get_or_init(|| {
        let faces = sloop::icosahedron();
        let mut vs = vec![faces[0].0];
        vs.extend(faces[0..5].iter().map(|f| f.1));
        vs.extend(faces[10..15].iter().map(|f| f.0));
        vs.push(faces[15].2);
        vs
    })
}

pub fn desk_full_positions(out: &mut [f64]) -> u32 {
    answer((|| {
        refuse_if(out.len() < 36, 5)?;
        for (c, p) in out.chunks_mut(3).zip(full_positions()) {
            let v = p.as_vec3();
            c.copy_from_slice(&[v.x(), v.y(), v.z()]);
        }
        Ok(12)
    })())
}

/// FULL's 20 triples over the 12 positions.
pub fn full_triples() -> Vec<Triple> {
    let mut t: Vec<Triple> = Vec::new();
    t.extend((1..=4).map(|i| [0, i, i + 1]));
    t.push([0, 5, 1]);
    t.extend((1..=4).map(|i| [i, i + 1, i + 5]));
    t.push([5, 1, 10]);
    t.extend((6..=9).map(|i| [i, i + 1, i - 4]));
    t.push([10, 6, 1]);
    t.extend((6..=9).map(|i| [i, i + 1, 11]));
    t.push([10, 6, 11]);
    t
}

/// The triples of a loop, `room` being how many triples its output holds: 5 before 8.
fn cut_into(ring: &Ring, room: usize) -> Judged<Vec<Triple>> {
    let needs = match ring.state {
        EMPTY => 0,
        FULL => 20,
        _ => ring.vertices.len() - 2,
    };
    refuse_if(room < needs, 5)?;
    match ring.state {
        EMPTY => Ok(Vec::new()),
        FULL => Ok(full_triples()),
        _ => triangles_checked(ring).ok_or(8),
    }
}

pub fn desk_triangles(of: &[u8], out: &mut [u8]) -> u32 {
    answer((|| {
        let ring = read_loop(of)?.judge_ring()?;
        let triples = cut_into(&ring, out.len() / 6)?;
        for (i, n) in triples.iter().flatten().enumerate() {
            out[2 * i..2 * i + 2].copy_from_slice(&n.to_le_bytes());
        }
        Ok(triples.len() as u32)
    })())
}

pub fn desk_triangles_f64(header: &[u8], positions: &[f64], classes: &[u8], out: &mut [u16]) -> u32 {
    answer((|| {
        let ring = take_loop(header, positions, None, classes)?.judge_ring()?;
        let triples = cut_into(&ring, out.len() / 3)?;
        for (i, n) in triples.iter().flatten().enumerate() {
            out[i] = *n;
        }
        Ok(triples.len() as u32)
    })())
}

/// Whether the triples are cuts of this ring, each at an eligible place, the last being the ring left.
pub fn accepted(ring: &Ring, triples: &[Triple]) -> bool {
    if triples.len() + 2 != ring.vertices.len() {
        return false;
    }
    let mut left = Left::of(ring);
    let (last, cuts) = triples.split_last().expect("a ring has at least three");
    for t in cuts {
        let Some(at) = left.0.iter().position(|v| v.0 == t[1]) else { return false };
        if left.triple(at) != *t || !left.eligible(at) {
            return false;
        }
        left.cut(at);
    }
    left.last() == *last
}

pub fn desk_accepts(of: &[u8], triangles: &[u8]) -> u32 {
    answer((|| {
        let handed = read_loop(of)?;
        refuse_if(triangles.len() % 6 != 0, 1)?;
        let ring = handed.judge_ring()?;
        refuse_if(ring.state == EMPTY || ring.state == FULL, 9)?;
        let numbers: Vec<u16> = triangles.chunks(2).map(|b| u16::from_le_bytes([b[0], b[1]])).collect();
        let triples: Vec<Triple> = numbers.chunks(3).map(|t| [t[0], t[1], t[2]]).collect();
        Ok(u32::from(accepted(&ring, &triples)))
    })())
}
