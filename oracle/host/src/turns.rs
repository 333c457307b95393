//! Runs over turns: each angle of the port beside the exact one, and the direction of its steady loops beside the sign of the
//! exact sum. Near a turn sum of 0 that sign is hardest to have, so most lists are made to come near it.
use crate::calls::{Answer, Arg, Call, Export};
use crate::exact::{self, Between, UNITS};
use crate::leaves::finite_pair;
use crate::random::{P, Random, add, along, cross, frame, list_floats, scale, unit};
use crate::rings::{HEADER, build_f64, opened};
use crate::shapes;
use crate::tally::Tally;
use model::build::{judge_list, turn_pairs};
use std::f64::consts::TAU;

/// How far an angle may be from the exact one, in units: 2^-45.
const FAR: i128 = 1 << (UNITS - 45);
/// The border of weak (SCOPE 6), not taken from the model, which is judged here too.
const STEADY: f64 = 1.0 / (1u64 << 30) as f64;
/// Steady turn sums below this size are counted by themselves.
const NEAR: f64 = 1.0 / (1u64 << 25) as f64;
/// Inputs that are put to the port at once.
const AT_ONCE: usize = 200;

type Family = (&'static str, fn(&mut Random) -> Vec<P>);
const FAMILIES: [Family; 4] = [("any shape", any), ("half sphere", half_sphere), ("thin", thin), ("eight", eight)];

/// Short, so that very many loops can be run; now and then up to the most that a list may have.
fn length(r: &mut Random) -> usize {
    match r.below(400) {
        0 => 9 + r.below(504),
        1..=15 => 9 + r.below(32),
        _ => 3 + r.below(6),
    }
}

fn any(r: &mut Random) -> Vec<P> {
    let n = length(r);
    shapes::any(r, n)
}

/// Nearly half of the sphere lies on either side: round a great circle, each corner off it a little, so that the turns
/// nearly cancel.
fn half_sphere(r: &mut Random) -> Vec<P> {
    let n = length(r);
    let pole = if r.chance(3) { r.round() } else { r.unit() };
    let (u, v) = frame(pole);
    let (start, off, kind) = (r.between(0.0, TAU), r.spread(-32, -23), r.below(3));
    let mut corner = |i: usize| {
        // Neighbours stay less than a half circle apart.
        let turn = start + TAU * (i as f64 + r.between(-0.2, 0.2)) / n as f64;
        let up = match kind {
            0 => off,
            1 if r.chance(2) => -off,
            1 => off,
            _ => r.spread(-32, -23),
        };
        unit(add(add(scale(u, turn.cos()), scale(v, turn.sin())), scale(pole, up)))
    };
    (0..n).map(&mut corner).collect()
}

/// Out along an arc and back beside it. Mostly the way back crosses it in the middle: then the turns at the ends are about half
/// circles, one to each side.
fn thin(r: &mut Random) -> Vec<P> {
    let n = length(r);
    let (a, apart) = (r.position(), r.spread(-6, 0).abs());
    let b = r.near(a, apart);
    let normal = unit(cross(a, b));
    let (width, crossed) = (r.spread(-27, -17), !r.chance(4));
    let out = n.div_ceil(2);
    let mut list: Vec<P> = (0..out).map(|i| along(a, b, i as f64 / (out - 1) as f64)).collect();
    for i in (0..n - out).rev() {
        let share = (i as f64 + r.fraction()) / (n - out) as f64;
        let beside = if crossed { 2.0 * share - 1.0 + r.between(-0.2, 0.2) } else { 1.0 };
        list.push(unit(add(along(a, b, share), scale(normal, width * beside))));
    }
    list
}

/// A figure of eight, one lobe of which is larger by about what the turn sum shall be.
fn eight(r: &mut Random) -> Vec<P> {
    let n = 2 * (length(r) / 2).max(2);
    let centre = r.position();
    let (u, v) = frame(centre);
    let (long, wide) = (r.spread(-8, -1).abs(), r.spread(-8, -1).abs());
    let more = (r.spread(-32, -26) / (long * wide)).clamp(-0.5, 0.5);
    let start = r.between(0.0, TAU);
    let corner = |i: usize| {
        let s = start + TAU * i as f64 / n as f64;
        let larger = if s.sin() > 0.0 { 1.0 + more } else { 1.0 };
        let off = add(scale(u, long * larger * s.sin()), scale(v, wide * larger * (2.0 * s).sin()));
        unit(add(centre, off))
    };
    (0..n).map(corner).collect()
}

/// A list of a family, and the calls for it: the list itself, the pair of each of its turns in order, and one pair more that
/// is of no list.
struct Input {
    family: &'static str,
    calls: Vec<Call>,
}

fn atan2((y, x): (f64, f64)) -> Call {
    Call { export: Export::Atan2, args: vec![Arg::Word(y.to_bits()), Arg::Word(x.to_bits())] }
}

fn input(r: &mut Random) -> Input {
    let (family, make) = *r.pick(&FAMILIES);
    let mut list = make(r);
    if family != "any shape" && r.chance(4) {
        list = shapes::altered(r, list);
    }
    list.truncate(512);
    let floats = list_floats(&list);
    let pairs = judge_list(&floats).map_or(Vec::new(), |l| turn_pairs(&l));
    let n = opened(&list);
    let mut calls = vec![Call { export: Export::BuildF64, args: build_f64(floats, [HEADER, 3 * n, 3 * n, n]) }];
    calls.extend(pairs.into_iter().map(atan2));
    calls.push(atan2(finite_pair(r)));
    Input { family, calls }
}

fn in_units(size: i128) -> f64 {
    size as f64 / (1u64 << UNITS) as f64
}

/// The exact angle of a pair, which the port's must be near.
fn judge_angle(t: &mut Tally, call: &Call, port: &Answer) -> Between {
    let (y, x) = (f64::from_bits(call.args[0].word()), f64::from_bits(call.args[1].word()));
    let exact = exact::angle(y, x);
    let far = exact::number(f64::from_bits(port.value)).map(|ours| exact.farthest(ours));
    if let Some(far) = far {
        t.keep_most("farthest angle from the exact one", in_units(far));
    }
    if far.is_none_or(|far| far > FAR) {
        let expected = Answer { value: in_units(exact.low).to_bits(), outs: Vec::new() };
        t.differ(call, "farther than 2^-45 from the exact angle", &expected, port);
    }
    exact
}

/// A loop by the header that the port wrote: its marks must be those of the sum of its angles, and a steady ring's exact sum
/// must lie wholly on the side that `reversed` says.
fn judge_loop(t: &mut Tally, family: &str, call: &Call, port: &Answer, sum: f64, exact: Between) {
    let header = &port.outs[0];
    let (reversed, weak, ring) = (header[3] & 1 != 0, header[3] & 2 != 0, header[2] == 2);
    let kind = match header[2] {
        0 => "empty",
        1 => "full",
        _ if weak => "weak",
        _ => "steady",
    };
    t.note(&format!("{family}: {kind}"));
    if header[2] == 0 {
        return;
    }
    let marks = u8::from(ring && sum >= 0.0) | u8::from(sum.abs() < STEADY) << 1;
    if header[3] & 3 != marks {
        differ(t, call, "the marks are not those of the sum of its angles", port, header[3] & !3 | marks);
    }
    if ring && !weak && exact.is_below() != Some(!reversed) {
        differ(t, call, "a steady loop is not turned by the sign of the exact sum", port, header[3] ^ 1);
    } else if ring && (STEADY..NEAR).contains(&sum.abs()) {
        t.note(&format!("{family}: steady, below 2^-25, turned by the sign of the exact sum"));
    }
    if weak && exact.is_below() != Some(sum < 0.0) {
        let either = if exact.is_below().is_none() { "may have either sign" } else { "has the other sign" };
        t.note(&format!("a weak turn sum, and the exact one {either}"));
    }
}

/// A difference in the marks.
fn differ(t: &mut Tally, call: &Call, from: &str, port: &Answer, marks: u8) {
    let mut expected = port.clone();
    expected.outs[0][3] = marks;
    t.differ(call, from, &expected, port);
}

fn judge(t: &mut Tally, input: &Input, answers: &[Answer]) {
    let last = input.calls.len() - 1;
    let (mut sum, mut exact) = (0.0, Between::ZERO);
    for (call, port) in input.calls[1..last].iter().zip(&answers[1..last]) {
        exact = exact.plus(judge_angle(t, call, port));
        sum += f64::from_bits(port.value);
        t.note("turns measured");
    }
    judge_angle(t, &input.calls[last], &answers[last]);
    t.note("pairs of no list measured");
    if let Some(sum) = exact::number(sum) {
        t.keep_most("farthest turn sum from the exact one", in_units(exact.farthest(sum)));
    }
    if answers[0].value < 65_536 {
        judge_loop(t, input.family, &input.calls[0], &answers[0], sum, exact);
    }
}

pub fn turns(t: &mut Tally, r: &mut Random, n: usize) {
    for first in (0..n).step_by(AT_ONCE) {
        let inputs: Vec<Input> = (first..n.min(first + AT_ONCE)).map(|_| input(r)).collect();
        let calls: Vec<Call> = inputs.iter().flat_map(|i| i.calls.iter().cloned()).collect();
        let from: Vec<String> = inputs.iter().flat_map(|i| i.calls.iter().map(|_| i.family.to_string())).collect();
        let answers: Option<Vec<Answer>> = t.ask(&calls, &from).into_iter().collect();
        let answers = answers.expect("the port builds and has an arctangent");
        let mut rest = answers.as_slice();
        for input in &inputs {
            let (these, after) = rest.split_at(input.calls.len());
            judge(t, input, these);
            rest = after;
        }
    }
}
