//! Puts calls to both sides, compares, and counts.
use crate::calls::{Answer, Arg, Call, Export, by_model};
use crate::port::Port;
use model::loops::LONG;
use model::read::HEADER;
use std::collections::BTreeMap;

/// Differences that are printed whole.
const SHOWN: u64 = 5;
/// Bytes of arguments after which a batch is sent.
const BATCH: usize = 1 << 20;

pub struct Tally {
    port: Option<Port>,
    /// Whether the port knows the long mode; one from before it passes mark 8 over, as it does every mark that it does not know.
    knows_long: bool,
    waiting: Vec<Waiting>,
    size: usize,
    pub kinds: BTreeMap<String, u64>,
    pub notes: BTreeMap<String, u64>,
    pub compared: u64,
    pub differences: u64,
    differing: BTreeMap<String, u64>,
    pub farthest: f64,
    most: BTreeMap<String, f64>,
    /// What a group adds to its report, line by line.
    pub lines: Vec<String>,
}

/// A call that is yet to be put: with a word on where it came from, and what the model says, where that is known already.
struct Waiting {
    call: Call,
    from: &'static str,
    expected: Option<Answer>,
}

/// One more of its kind.
fn count(kinds: &mut BTreeMap<String, u64>, kind: &str) {
    match kinds.get_mut(kind) {
        Some(n) => *n += 1,
        None => drop(kinds.insert(kind.to_string(), 1)),
    }
}

const REFUSED: u64 = 65_536;
const SIZE_REFUSED: u64 = 1 << 32;

fn kind_of(call: &Call, a: &Answer) -> String {
    let name = format!("{:?}", call.export);
    match call.export {
        Export::Root | Export::Atan2 | Export::Radians => name,
        Export::LeafVec | Export::LeafNumber => format!("{name} {}", call.args[0].word()),
        Export::LeafCase => format!("{name} {} = {}", call.args[0].word(), a.value),
        Export::Scene if a.value >= SIZE_REFUSED => format!("{name} refused {}", a.value - SIZE_REFUSED),
        Export::Scene => name,
        _ if a.value >= REFUSED => format!("{name} refused {}", a.value - REFUSED),
        Export::Build | Export::BuildF64 | Export::BuildLong | Export::BuildLongF64 => {
            format!("{name} {}", header_kind(&a.outs[0]))
        }
        Export::Triangles | Export::TrianglesF64 => {
            let full = matches!(&call.args[0], Arg::Bytes(h) if h[2] == 1);
            format!(
                "{name} {}",
                if full {
                    "of a full loop"
                } else if a.value == 0 {
                    "none"
                } else {
                    "of a ring"
                }
            )
        }
        _ => format!("{name} = {}", a.value),
    }
}

fn header_kind(h: &[u8]) -> String {
    let count = u16::from_le_bytes([h[0], h[1]]);
    let state = match h[2] {
        0 => "empty",
        1 => "full",
        _ if count > 3 && h[3] & 4 == 0 => "mute",
        _ => "ring",
    };
    let turned = if h[3] & 1 != 0 { " reversed" } else { " kept" };
    let weak = if h[3] & 2 != 0 { " weak" } else { " steady" };
    let long = if h[3] & 8 != 0 { " long" } else { "" };
    format!("{state}{turned}{weak}{long}")
}

/// The same call, its loops without mark 8, where the answer goes by it.
fn plain(call: &Call) -> Call {
    let loops: &[usize] = match call.export {
        Export::Place | Export::PlaceF64 | Export::Simple => &[0],
        Export::Pair => &[0, 1],
        Export::PairF64 => &[0, 4],
        _ => &[],
    };
    let mut call = call.clone();
    for i in loops {
        if let Arg::Bytes(b) = &mut call.args[*i]
            && b.len() >= HEADER
        {
            b[3] &= !LONG;
        }
    }
    call
}

/// Bits of a NaN are nobody's promise: every NaN counts as one.
fn one_nan(bytes: &[u8]) -> Vec<u64> {
    bytes
        .chunks(8)
        .map(|c| {
            let bits = u64::from_le_bytes(c.try_into().unwrap());
            if f64::from_bits(bits).is_nan() { model::leaves::NAN } else { bits }
        })
        .collect()
}

fn same(call: &Call, ours: &Answer, port: &Answer) -> bool {
    match call.export {
        Export::LeafVec | Export::LeafCap => {
            let (a, b) = (&ours.outs[0], &port.outs[0]);
            ours.value == port.value && a.len() == b.len() && one_nan(a) == one_nan(b)
        }
        _ => ours == port,
    }
}

/// Whether an argument of an arctangent is a zero or an infinity, or a NaN: there the port must have the Rust's bits.
fn exact(args: &[Arg]) -> bool {
    args.iter().map(|a| f64::from_bits(a.word())).any(|x| x == 0.0 || x.is_infinite() || x.is_nan())
}

/// Whether the arguments of an arctangent are a zero and a NaN, where the definition gives the zero and the Rust NaN.
fn zero_of_nan(args: &[Arg]) -> bool {
    let [y, x] = args else { return false };
    f64::from_bits(y.word()) == 0.0 && f64::from_bits(x.word()).is_nan()
}

fn show_arg(a: &Arg) -> String {
    match a {
        Arg::Floats(f) => {
            let words: Vec<String> = f.iter().map(|x| format!("{:016X}", x.to_bits())).collect();
            format!("floats {}", words.join(" "))
        }
        Arg::Bytes(b) => {
            let hex: String = b.iter().map(|x| format!("{x:02X}")).collect();
            format!("bytes {} {hex}", b.len())
        }
        Arg::OutBytes(b) => format!("out of {} bytes", b.len()),
        Arg::OutFloats(b) => format!("out of {} floats", b.len()),
        Arg::OutShorts(b) => format!("out of {} u16", b.len()),
        Arg::Int(w) => format!("{w}"),
        Arg::Word(w) => format!("{w:016X}"),
        Arg::Float(f) => format!("{:016X}", f.to_bits()),
    }
}

fn cut(mut s: String) -> String {
    const MOST: usize = 1200;
    if s.len() > MOST {
        let rest = s.len() - MOST;
        s.truncate(MOST);
        s.push_str(&format!(".. {rest} more"));
    }
    s
}

impl Tally {
    pub fn new(mut port: Port) -> Self {
        let mut t = Tally::only_filled();
        t.knows_long = port.has(Export::BuildLong);
        t.port = Some(port);
        t
    }

    /// One that only gathers calls, to be recorded.
    pub fn only_filled() -> Self {
        Tally {
            port: None,
            knows_long: true,
            waiting: Vec::new(),
            size: 0,
            kinds: BTreeMap::new(),
            notes: BTreeMap::new(),
            compared: 0,
            differences: 0,
            differing: BTreeMap::new(),
            farthest: 0.0,
            most: BTreeMap::new(),
            lines: Vec::new(),
        }
    }

    /// Takes in what another one has counted.
    pub fn take_in(&mut self, mut other: Tally) {
        other.flush();
        let mine = [&mut self.kinds, &mut self.notes, &mut self.differing];
        for (mine, others) in mine.into_iter().zip([&other.kinds, &other.notes, &other.differing]) {
            for (k, n) in others {
                *mine.entry(k.clone()).or_default() += n;
            }
        }
        self.compared += other.compared;
        self.differences += other.differences;
        self.farthest = self.farthest.max(other.farthest);
        for (what, size) in &other.most {
            self.keep_most(what, *size);
        }
    }

    /// Whether calls go to a port.
    pub fn ported(&self) -> bool {
        self.port.is_some()
    }

    pub fn has(&mut self, e: Export) -> bool {
        self.port.as_mut().is_none_or(|p| p.has(e))
    }

    /// The calls gathered so far.
    pub fn drain(&mut self) -> Vec<Call> {
        std::mem::take(&mut self.waiting).into_iter().map(|w| w.call).collect()
    }

    /// Counts something that is worth knowing of the inputs.
    pub fn note(&mut self, what: &str) {
        count(&mut self.notes, what);
    }

    /// Keeps the greatest of its kind, to be printed as a power of two.
    pub fn keep_most(&mut self, what: &str, size: f64) {
        match self.most.get_mut(what) {
            Some(most) => *most = most.max(size),
            None => drop(self.most.insert(what.to_string(), size)),
        }
    }

    pub fn put(&mut self, export: Export, args: Vec<Arg>) {
        self.put_as(export, args, "");
    }

    /// A call, with a word on where it came from, for a difference's report.
    pub fn put_as(&mut self, export: Export, args: Vec<Arg>, from: &'static str) {
        self.wait(Waiting { call: Call { export, args }, from, expected: None });
    }

    /// A call of which the model's answer is known already.
    pub fn put_known(&mut self, call: Call, expected: Answer) {
        self.wait(Waiting { call, from: "", expected: Some(expected) });
    }

    fn wait(&mut self, w: Waiting) {
        self.size += 64 + w.call.args.iter().map(|a| a.size().unwrap_or(8)).sum::<usize>();
        self.waiting.push(w);
        if self.size > BATCH && self.port.is_some() {
            self.flush();
        }
    }

    pub fn flush(&mut self) {
        if self.port.is_some() {
            let waiting = std::mem::take(&mut self.waiting);
            self.size = 0;
            let (calls, rest): (Vec<Call>, Vec<_>) =
                waiting.into_iter().map(|w| (w.call, (w.from, w.expected))).unzip();
            let answers = self.port.as_mut().expect("a port to ask").run(&calls);
            for ((call, (from, expected)), port) in calls.iter().zip(rest).zip(answers) {
                if let Some(port) = port {
                    let ours = expected.unwrap_or_else(|| self.model(call));
                    self.compare(call, from, &ours, &port);
                }
            }
        }
    }

    /// Puts calls to the port at once, compares, and returns its answers, of which there may be more to say than that they are
    /// the model's.
    pub fn ask(&mut self, calls: &[Call], from: &[String]) -> Vec<Option<Answer>> {
        let answers = self.port.as_mut().expect("a port to ask").run(calls);
        for ((call, from), port) in calls.iter().zip(from).zip(&answers) {
            if let Some(port) = port {
                self.compare(call, from, &self.model(call), port);
            }
        }
        answers
    }

    fn model(&self, call: &Call) -> Answer {
        if self.knows_long { by_model(call) } else { by_model(&plain(call)) }
    }

    fn compare(&mut self, call: &Call, from: &str, ours: &Answer, port: &Answer) {
        self.compared += 1;
        count(&mut self.kinds, &kind_of(call, ours));
        self.measure(call, from, port);
        if !same(call, ours, port) {
            self.differ(call, from, ours, port);
        }
    }

    /// How far the port's angles are from the Rust's own: absolute, where both are finite.
    fn measure(&mut self, call: &Call, from: &str, port: &Answer) {
        if call.export == Export::Radians {
            self.measure_radians(call, from, port);
            return;
        }
        let rust = match (call.export, call.args.as_slice()) {
            (Export::Atan2, [y, x]) => f64::from_bits(y.word()).atan2(f64::from_bits(x.word())),
            (Export::LeafNumber, [Arg::Int(7), Arg::Floats(f)]) => model::leaves::rust_turning(f),
            _ => return,
        };
        let ours = f64::from_bits(port.value);
        if call.export == Export::Atan2 && exact(&call.args) {
            let mut bits = model::leaves::bits(rust);
            if rust.is_nan() {
                self.note("arctangents of a NaN");
            }
            if zero_of_nan(&call.args) {
                assert!(rust.is_nan(), "the Rust has a NaN of a zero and a NaN");
                self.note("of a zero and a NaN: the zero by the definition, a NaN in the Rust");
                bits = call.args[0].word();
            }
            if port.value != bits {
                let expected = Answer { value: bits, outs: Vec::new() };
                self.differ(call, "not the Rust's bits at a zero, an infinity or a NaN", &expected, port);
            }
        }
        if !(rust.is_finite() && ours.is_finite()) {
            return;
        }
        let off = (ours - rust).abs();
        self.farthest = self.farthest.max(off);
        if off > 2.0_f64.powi(-45) {
            let rust = Answer { value: rust.to_bits(), outs: Vec::new() };
            self.differ(call, "farther than 2^-45 from the Rust's", &rust, port);
        }
    }

    /// How far the port's radians are from the Rust's own, by the family of the squared chord.
    fn measure_radians(&mut self, call: &Call, family: &str, port: &Answer) {
        let rust = model::far::rust_radians(f64::from_bits(call.args[0].word()));
        let ours = f64::from_bits(port.value);
        if rust.is_finite() && ours.is_finite() {
            self.keep_most(family, (ours - rust).abs());
        }
        if !model::far::near_rust(ours, rust) {
            let rust = Answer { value: model::leaves::bits(rust), outs: Vec::new() };
            self.differ(call, "farther than 2^-45 from the Rust's", &rust, port);
        }
    }

    /// Counts a difference; returns whether it is one of the first, which are printed whole.
    pub fn differ(&mut self, call: &Call, from: &str, ours: &Answer, port: &Answer) -> bool {
        self.differences += 1;
        *self.differing.entry(kind_of(call, ours)).or_default() += 1;
        if self.differences > SHOWN {
            return false;
        }
        println!("DIFFERENCE {} in {:?} {from}", self.differences, call.export);
        for a in &call.args {
            println!("  {}", cut(show_arg(a)));
        }
        println!("  expected {:X}, the port says {:X}", ours.value, port.value);
        for (i, (a, b)) in ours.outs.iter().zip(&port.outs).enumerate() {
            if let Some(at) = (0..a.len()).find(|k| a[*k] != b[*k]) {
                let end = (at / 8 * 8 + 8).min(a.len());
                let (x, y) = (&a[at / 8 * 8..end], &b[at / 8 * 8..end]);
                println!("  output {i} differs from byte {at} on: expected {x:02X?}, got {y:02X?}");
            }
        }
        true
    }

    /// Prints the counts; returns whether all was the same.
    pub fn report(&mut self, group: &str) -> bool {
        self.flush();
        println!("{group}: {} compared, {} differences", self.compared, self.differences);
        for (k, n) in &self.kinds {
            let off = self.differing.get(k).map_or(String::new(), |d| format!(" ({d} DIFFER)"));
            println!("  {k}: {n}{off}");
        }
        for line in &self.lines {
            println!("  {line}");
        }
        for (k, n) in &self.notes {
            println!("  ({k}: {n})");
        }
        if self.farthest > 0.0 {
            println!("  (farthest angle from the Rust's: 2^{:.2})", self.farthest.log2());
        }
        for (k, most) in &self.most {
            let size = if *most == 0.0 { "0".to_string() } else { format!("2^{:.2}", most.log2()) };
            println!("  ({k}: {size})");
        }
        self.differences == 0
    }
}
