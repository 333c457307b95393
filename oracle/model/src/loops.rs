//! A loop handed back: header, positions, normals and classes, judged and made into the source's `Loop`.
use crate::long::{Mode, mode_of};
use crate::read::{HEADER, Judged, MOST, float, floats, positions, refuse_if, vec3};
use jord::NVector;
use jord::spherical::minor_arc::probe::of_parts as arc_of_parts;
use jord::spherical::sloop::probe as sloop;
use jord::spherical::{Loop, cap, chord_length};

pub const EMPTY: u8 = 0;
pub const FULL: u8 = 1;
pub const RING: u8 = 2;

/// Mark: the insides are there.
pub const INSIDES: u8 = 4;
/// Mark: the loop is of the long mode.
pub const LONG: u8 = 8;

/// The 88 bytes, read.
#[derive(Clone, Debug)]
pub struct Header {
    pub count: usize,
    pub state: u8,
    pub marks: u8,
    pub cap: Vec<f64>,
    pub insides: Vec<f64>,
}

/// A loop as it was handed back, judged or not.
#[derive(Clone, Debug)]
pub struct Handed {
    pub header: Header,
    pub positions: Vec<f64>,
    pub normals: Vec<f64>,
    pub classes: Vec<u8>,
}

/// The header's bytes; a state above 2 is 1.
fn read_header(bytes: &[u8]) -> Judged<Header> {
    refuse_if(bytes.len() != HEADER, 1)?;
    let state = bytes[2];
    refuse_if(state > RING, 1)?;
    Ok(Header {
        count: usize::from(u16::from_le_bytes([bytes[0], bytes[1]])),
        state,
        marks: bytes[3],
        cap: (0..4).map(|i| float(bytes, 8 + 8 * i)).collect(),
        insides: (0..6).map(|i| float(bytes, 40 + 8 * i)).collect(),
    })
}

/// Refusal 1 of a count: "0 for empty and full, at least 3 for a ring".
fn count_fits(h: &Header) -> Judged<()> {
    refuse_if(if h.state == RING { h.count < 3 } else { h.count != 0 }, 1)
}

/// A loop in bytes, its refusal 1 judged.
pub fn read_loop(bytes: &[u8]) -> Judged<Handed> {
    refuse_if(bytes.len() < HEADER, 1)?;
    let header = read_header(&bytes[..HEADER])?;
    count_fits(&header)?;
    let n = header.count;
    refuse_if(bytes.len() != HEADER + 49 * n, 1)?;
    let c = floats(&bytes[HEADER..HEADER + 48 * n]);
    Ok(Handed {
        header,
        positions: c[..3 * n].to_vec(),
        normals: c[3 * n..].to_vec(),
        classes: bytes[HEADER + 48 * n..].to_vec(),
    })
}

/// A loop in parts, its refusal 1 judged; `normals` is absent where the call takes none.
pub fn take_loop(header: &[u8], positions: &[f64], normals: Option<&[f64]>, classes: &[u8]) -> Judged<Handed> {
    let header = read_header(header)?;
    count_fits(&header)?;
    let n = header.count;
    let agree = positions.len() == 3 * n && normals.is_none_or(|s| s.len() == 3 * n) && classes.len() == n;
    refuse_if(!agree, 1)?;
    Ok(Handed {
        header,
        positions: positions.to_vec(),
        normals: normals.map_or(vec![0.0; 3 * n], <[f64]>::to_vec),
        classes: classes.to_vec(),
    })
}

/// A loop whose count, state, positions and classes were judged: all that cutting and the checker read.
pub struct Ring {
    pub state: u8,
    pub vertices: Vec<(NVector, u8)>,
}

impl Handed {
    /// 2, 6, then the positions one by one.
    pub fn judge_ring(&self) -> Judged<Ring> {
        refuse_if(self.header.count > MOST, 2)?;
        refuse_if(self.classes.iter().any(|c| *c > 2), 6)?;
        let ps = positions(&self.positions)?;
        Ok(Ring { state: self.header.state, vertices: ps.into_iter().zip(self.classes.iter().copied()).collect() })
    }

    pub fn has_insides(&self) -> bool {
        self.header.marks & INSIDES != 0
    }

    pub fn mode(&self) -> Mode {
        mode_of(self.header.marks)
    }

    /// A ring above three without insides.
    pub fn is_mute(&self) -> bool {
        self.header.state == RING && self.header.count > 3 && !self.has_insides()
    }

    /// The whole loop: after the ring's refusals the 3 of its normals, cap and insides.
    pub fn judge(&self) -> Judged<Loop> {
        let ring = self.judge_ring()?;
        let h = &self.header;
        let finite = |s: &[f64]| s.iter().all(|x| x.is_finite());
        refuse_if(!finite(&self.normals) || !finite(&h.cap), 3)?;
        refuse_if(self.has_insides() && !finite(&h.insides), 3)?;
        let n = ring.vertices.len();
        let edges: Vec<_> = (0..n)
            .map(|i| {
                let next = ring.vertices[(i + 1) % n].0;
                arc_of_parts(ring.vertices[i].0, next, vec3(&self.normals[3 * i..]))
            })
            .collect();
        let insides = self.has_insides().then(|| (NVector::new(vec3(&h.insides)), NVector::new(vec3(&h.insides[3..]))));
        let radius = chord_length::probe::of_length2(h.cap[3]);
        let bounding = cap::probe::of_parts(NVector::new(vec3(&h.cap)), radius);
        Ok(sloop::of_parts(&ring.vertices, insides, &edges, bounding, h.state == FULL))
    }
}
