//! Runs over scenes: the export beside the model, and the program `scene` itself.
use crate::calls::{Answer, Arg, Call, Export, blank};
use crate::port::kit;
use crate::random::Random;
use crate::records::{every_byte, scene};
use crate::tally::Tally;
use desk::Ending;
use std::collections::BTreeMap;
use std::io::Write;
use std::path::{Path, PathBuf};
use std::process::{Command, Stdio};

/// The refusals that a scene can end in (SCOPE 46).
pub const NUMBERS: [u32; 13] = [2, 3, 4, 7, 20, 21, 22, 23, 24, 25, 26, 27, 28];

/// From so many scenes on each of the numbers must have come.
const LONG: u64 = 100_000;

/// How often scenes ended in each way.
#[derive(Default)]
pub struct Endings {
    ended: u64,
    refused: BTreeMap<u32, u64>,
}

impl Endings {
    /// Counts a text of the model; its last line must come back as `desk` reads it.
    pub fn count(&mut self, text: &str) {
        let ending = Ending::read(text).expect("the model's text is whole");
        assert!(text.ends_with(&format!("{ending}\n")), "the last line is read as it stands");
        match ending {
            Ending::Ended { .. } => self.ended += 1,
            Ending::Refused { refusal, .. } => *self.refused.entry(refusal.0).or_default() += 1,
        }
    }

    pub fn add(&mut self, other: &Endings) {
        self.ended += other.ended;
        for (number, n) in &other.refused {
            *self.refused.entry(*number).or_default() += n;
        }
    }

    pub fn total(&self) -> u64 {
        self.ended + self.refused.values().sum::<u64>()
    }

    pub fn missing(&self) -> Vec<u32> {
        NUMBERS.into_iter().filter(|n| !self.refused.contains_key(n)).collect()
    }

    /// A line of the report for each way; in a long run a number that never came is a difference.
    pub fn report(&self, t: &mut Tally) {
        let mut line = |ending: &str, n: u64| t.lines.push(format!("scenes that end in {ending:<12}{n:>9}"));
        line("end", self.ended);
        for number in NUMBERS {
            line(&format!("refused {number}"), self.refused.get(&number).copied().unwrap_or(0));
        }
        t.lines.push(format!("scenes in all {:>26}", self.total()));
        if self.total() >= LONG {
            for number in self.missing() {
                println!("DIFFERENCE: of {} scenes none ended in refused {number}", self.total());
                t.differences += 1;
            }
        }
    }
}

/// Puts a scene to the export, with as much room as its text needs or more; now and then with less, too.
pub fn put(t: &mut Tally, r: &mut Random, bytes: Vec<u8>, text: &str) {
    let mut call = |bytes: Vec<u8>, room: usize| {
        let mut out = blank(room);
        let call = Call { export: Export::Scene, args: vec![Arg::Bytes(bytes), Arg::OutBytes(out.clone())] };
        let value = model::scene::lay(text, &mut out);
        t.put_known(call, Answer { value, outs: vec![out] });
    };
    match r.below(12) {
        0..3 => call(bytes.clone(), text.len() - 1),
        3 => call(bytes.clone(), r.below(text.len())),
        _ => {}
    }
    let more = if r.chance(2) { 0 } else { 1 + r.below(64) };
    call(bytes, text.len() + more);
}

/// The program itself: `crates/scene/out/scene` under the kit's loader.
pub struct Program {
    bin: PathBuf,
    lib: PathBuf,
}

impl Program {
    /// Nothing where it is not built, or there is no kit.
    pub fn find(root: &Path) -> Option<Program> {
        let bin = root.join("crates/scene/out/scene");
        let lib = kit()?.join("toolchain/lib");
        bin.is_file().then_some(Program { bin, lib })
    }

    pub fn run(&self, input: &[u8]) -> Vec<u8> {
        let mut c = Command::new(self.lib.join("ld-linux-x86-64.so.2"));
        c.arg("--library-path").arg(&self.lib).arg(&self.bin);
        let mut child =
            c.stdin(Stdio::piped()).stdout(Stdio::piped()).stderr(Stdio::null()).spawn().expect("scene starts");
        let mut to = child.stdin.take().unwrap();
        let bytes = input.to_vec();
        // Its own thread, since the program may write before it has read all.
        let feed = std::thread::spawn(move || {
            let _ = to.write_all(&bytes);
        });
        let out = child.wait_with_output().expect("scene ends").stdout;
        let _ = feed.join();
        out
    }

    /// Whether the program prints the model's text.
    fn compare(&self, t: &mut Tally, bytes: &[u8], text: &str) {
        let out = self.run(bytes);
        t.compared += 1;
        if out != text.as_bytes() {
            let call = Call { export: Export::Scene, args: vec![Arg::Bytes(bytes.to_vec())] };
            let answer = |out: &[u8]| Answer { value: out.len() as u64, outs: Vec::new() };
            if t.differ(&call, "by crates/scene/out/scene", &answer(text.as_bytes()), &answer(&out)) {
                println!("  expected:\n{text}  got:\n{}", String::from_utf8_lossy(&out));
            }
        }
    }
}

/// Counts the lines of a text by what they say.
fn note_lines(t: &mut Tally, text: &str) {
    for line in text.lines() {
        let words: Vec<&str> = line.split(' ').collect();
        match words.as_slice() {
            ["area", _, _, rest @ .., _] => t.note(&format!("area {}", rest.join(" "))),
            ["place", _, word] => t.note(&format!("place {word}")),
            ["far", _, "0000000000000000"] => t.note("far 0"),
            ["far", ..] => t.note("far above 0"),
            ["pair", _, _, word] => t.note(&format!("pair {word}")),
            _ => {}
        }
    }
}

pub fn scenes(t: &mut Tally, r: &mut Random, n: usize, root: &Path) {
    let exported = t.ported() && t.has(Export::Scene);
    let program = Program::find(root);
    let by_program = if exported { n.min(60) } else { n };
    // The short runs of every change leave the long list out.
    let fixed = if n < 10_000 { vec![("empty", Vec::new())] } else { every_byte() };
    let mut endings = Endings::default();
    for i in 0..n {
        let (how, b) = fixed.get(i).cloned().unwrap_or_else(|| scene(r));
        t.note(&format!("scene {how}"));
        let (text, outside) = model::scene::scene(&b);
        endings.count(&text);
        note_lines(t, &text);
        if outside {
            t.note("scene with an answer outside the domain, held to the definition");
        }
        if let Some(p) = program.as_ref().filter(|_| i < by_program) {
            p.compare(t, &b, &text);
        }
        if exported {
            put(t, r, b, &text);
        }
    }
    endings.report(t);
}

/// A part of `scene_tests`' input: its length, then its bytes.
fn part<'a>(rest: &mut &'a [u8]) -> &'a [u8] {
    let (head, tail) = rest.split_at(4);
    let (body, tail) = tail.split_at(u32::from_le_bytes(head.try_into().unwrap()) as usize);
    *rest = tail;
    body
}

/// The titles and scenes of an input of `samples/make.py`.
pub fn parts(file: &[u8]) -> Vec<(&[u8], &[u8])> {
    let (head, mut rest) = file.split_at(4);
    let count = u32::from_le_bytes(head.try_into().unwrap());
    let all = (0..count).map(|_| (part(&mut rest), part(&mut rest))).collect();
    assert!(rest.is_empty(), "bytes after the last scene");
    all
}

/// What `scene_tests` must print for an input of `samples/make.py`, by the model.
pub fn expected(file: &[u8]) -> Vec<u8> {
    let told = |(title, scene): (&[u8], &[u8])| [title, model::scene::scene(scene).0.as_bytes()].concat();
    parts(file).into_iter().flat_map(told).collect()
}

#[cfg(test)]
mod tests {
    use super::{Endings, LONG, NUMBERS};
    use crate::random::Random;
    use crate::tally::Tally;

    /// The scenes made at random end in every way, and each comes often.
    #[test]
    fn every_number_comes() {
        let (mut endings, mut r) = (Endings::default(), Random::new(1));
        for _ in 0..4_000 {
            endings.count(&model::scene::scene(&crate::records::scene(&mut r).1).0);
        }
        assert_eq!((endings.missing(), endings.total()), (Vec::new(), 4_000));
        let rarest = NUMBERS.iter().map(|n| endings.refused[n]).min().unwrap();
        assert!(rarest >= 40 && endings.ended >= 400, "{:?}", endings.refused);
    }

    /// In a long run, and in no other, a number that never came is a difference.
    #[test]
    fn a_number_is_missed() {
        for (ended, differences) in [(LONG - 2, 0), (LONG - 1, 12)] {
            let mut endings = Endings { ended, ..Endings::default() };
            endings.count("refused 23 at 0 6\n");
            let mut t = Tally::only_filled();
            endings.report(&mut t);
            assert_eq!(t.differences, differences);
        }
    }
}
