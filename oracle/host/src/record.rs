//! Writes recorded answers for the `test_replay` program.
//!
//! The file is one record after another, all little-endian. A record is a head of 16 bytes, u16 export (the order of
//! `calls::Export` and of stub.c), u16 size of what is handed in first, u16 of what is handed in second, u16 of the
//! output, u64 expected value (u32 answers widened), and then those bytes: the first, the second, and what the output
//! must hold after the call, where before the call byte i held 0xA5 xor (7 i mod 256). A number that is handed in is
//! 8 bytes; an output of floats is their bytes.
//! Only exports on bytes and numbers and the full loop's positions are recorded, and only answers in the domain of equality or
//! refusals.
use crate::calls::{Answer, Arg, Call, Export, blank, by_model};

/// The exports that are recorded.
fn takes(e: Export) -> bool {
    (e as u32) < Export::BuildF64 as u32 || e == Export::FullPositions
}

/// The call with the bytes in its output that the program `test_replay` lays there.
fn laid(c: &Call) -> Call {
    let lay = |a: &Arg| match a {
        Arg::OutFloats(f) => a.of(0, &blank(8 * f.len())),
        _ => a.clone(),
    };
    Call { export: c.export, args: c.args.iter().map(lay).collect() }
}

/// Whether no loop in the call is weak, a pair needed no midpoint, and no arctangent is of a NaN.
fn in_domain(c: &Call, a: &Answer) -> bool {
    let weak = |b: &[u8]| b.len() > 3 && b[3] & 2 != 0;
    let handed = c.args.iter().any(|x| matches!(x, Arg::Bytes(b) if b.len() >= 88 && weak(b)));
    let built = c.export == Export::Build && a.outs[0].len() > 3 && weak(&a.outs[0]) && a.value < 65_536;
    let midpoint = match c.args.as_slice() {
        [Arg::Bytes(x), Arg::Bytes(y)] if c.export == Export::Pair => {
            model::ask::judge_two(x, y).is_ok_and(|(x, y)| model::pair::relate(&x, &y).outside)
        }
        _ => false,
    };
    let nan = c.export == Export::Atan2 && c.args.iter().any(|x| f64::from_bits(x.word()).is_nan());
    (c.export == Export::Build || !handed) && !built && !midpoint && !nan
}

fn one(c: &Call, a: &Answer) -> Vec<u8> {
    let mut parts: [Vec<u8>; 3] = Default::default();
    let mut handed = 0;
    for arg in &c.args {
        match arg {
            Arg::OutBytes(_) | Arg::OutFloats(_) => parts[2] = a.outs[0].clone(),
            Arg::Bytes(d) => parts[handed] = d.clone(),
            _ => parts[handed] = arg.word().to_le_bytes().to_vec(),
        }
        handed += 1;
    }
    let mut b = (c.export as u16).to_le_bytes().to_vec();
    for p in &parts {
        b.extend((p.len() as u16).to_le_bytes());
    }
    b.extend(a.value.to_le_bytes());
    b.extend(parts.concat());
    b
}

/// The calls that a run would make, of small size, thinned to about `wanted` an export.
pub fn file(calls: Vec<Call>, wanted: usize) -> (Vec<u8>, usize) {
    let mut kept: Vec<Vec<u8>> = Vec::new();
    for export in Export::ALL.into_iter().filter(|e| takes(*e)) {
        let of: Vec<&Call> = calls.iter().filter(|c| c.export == export).collect();
        let small = |c: &&&Call| c.args.iter().all(|a| a.bytes().is_none_or(|b| b.len() < 900));
        let of: Vec<&&Call> = of.iter().filter(small).collect();
        let step = (of.len() / wanted).max(1);
        for c in of.into_iter().step_by(step).take(wanted) {
            let c = laid(c);
            let a = by_model(&c);
            if in_domain(&c, &a) {
                kept.push(one(&c, &a));
            }
        }
    }
    (kept.concat(), kept.len())
}
