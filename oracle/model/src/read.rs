//! What is handed in, judged: the refusals that every call shares (1 to 4 and 6), each made in one place.
use jord::{NVector, Vec3};

/// A refusal, as the exports give it, is this plus its number.
pub const REFUSED: u32 = 65_536;
/// The most positions in a list or a ring.
pub const MOST: usize = 512;
/// Bytes of a loop's header.
pub const HEADER: usize = 88;

/// What was judged, or the number of the refusal.
pub type Judged<T> = Result<T, u32>;

pub fn answer(j: Judged<u32>) -> u32 {
    j.unwrap_or_else(|number| REFUSED + number)
}

pub fn refuse_if(given: bool, number: u32) -> Judged<()> {
    if given { Err(number) } else { Ok(()) }
}

pub fn float(bytes: &[u8], at: usize) -> f64 {
    f64::from_le_bytes(bytes[at..at + 8].try_into().unwrap())
}

pub fn floats(bytes: &[u8]) -> Vec<f64> {
    (0..bytes.len() / 8).map(|i| float(bytes, 8 * i)).collect()
}

/// "A position's squared norm lies from 1-2^-40 to 1+2^-40, ends included."
pub fn norm_in_range(v: Vec3) -> bool {
    let room = 2.0_f64.powi(-40);
    let n = v.squared_norm();
    1.0 - room <= n && n <= 1.0 + room
}

/// One position, 3 before 4, made free of -0.0.
pub fn position(c: &[f64]) -> Judged<NVector> {
    refuse_if(!c.iter().all(|x| x.is_finite()), 3)?;
    let v = Vec3::new(c[0], c[1], c[2]);
    refuse_if(!norm_in_range(v), 4)?;
    Ok(NVector::new(v))
}

/// Positions one by one.
pub fn positions(c: &[f64]) -> Judged<Vec<NVector>> {
    c.chunks(3).map(position).collect()
}

/// A query position in bytes: its own 1, then 3 and 4.
pub fn query(bytes: &[u8]) -> Judged<NVector> {
    refuse_if(bytes.len() != 24, 1)?;
    position(&floats(bytes))
}

pub fn vec3(c: &[f64]) -> Vec3 {
    Vec3::new(c[0], c[1], c[2])
}

pub fn put(out: &mut [u8], at: usize, v: Vec3) {
    for (i, c) in [v.x(), v.y(), v.z()].iter().enumerate() {
        out[at + 8 * i..at + 8 * i + 8].copy_from_slice(&c.to_le_bytes());
    }
}
