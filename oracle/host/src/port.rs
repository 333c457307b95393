//! The two ways to the port: linked into this program (x86-64), or through the stub, elsewhere under an emulator.
use crate::calls::{Answer, Arg, Call, Export, blank, by_link};
use std::io::{Read, Write};
use std::path::{Path, PathBuf};
use std::process::{Child, Command, Stdio};

/// Bytes behind each slice that must come back as they went.
const GUARD: usize = 16;

pub enum Port {
    Linked,
    Piped(Child),
}

/// An emulator for x86-64 programs, qemu's, found on the path; none where the machine needs none.
pub fn emulator() -> Option<PathBuf> {
    if cfg!(target_arch = "x86_64") {
        return None;
    }
    let path = std::env::var_os("PATH")?;
    std::env::split_paths(&path).map(|d| d.join("qemu-x86_64")).find(|f| f.is_file())
}

/// The kit's folder, which holds a loader and a C library for the programs: that of the `rt` on the path.
pub fn kit() -> Option<PathBuf> {
    let path = std::env::var_os("PATH")?;
    let rt = std::env::split_paths(&path).map(|d| d.join("rt")).find(|f| f.is_file())?;
    Some(std::fs::canonicalize(rt).ok()?.parent()?.parent()?.to_path_buf())
}

/// Whether the program is x86-64 code, by its ELF header.
fn is_x86(program: &Path) -> bool {
    let mut head = [0; 20];
    let read = std::fs::File::open(program).and_then(|mut f| f.read_exact(&mut head));
    read.is_ok() && head[18] == 0x3E
}

impl Port {
    /// The linked library where it has anything and no stub is named by DESK_STUB, as a wrong program is; else the stub at `stub`.
    pub fn open(stub: &Path) -> Option<Port> {
        if linked() && std::env::var_os("DESK_STUB").is_none() {
            return Some(Port::Linked);
        }
        if !stub.is_file() {
            return None;
        }
        let mut command = match emulator().filter(|_| is_x86(stub)) {
            Some(e) => {
                let mut c = Command::new(e);
                c.arg(stub);
                c
            }
            None => Command::new(stub),
        };
        let child = command.arg("serve").stdin(Stdio::piped()).stdout(Stdio::piped()).spawn().ok()?;
        Some(Port::Piped(child))
    }

    /// How the port is reached, for the run's first line.
    pub fn name(&self) -> &'static str {
        match self {
            Port::Linked if desk::raw::STANDIN => "A STAND-IN, linked: this run says nothing of the port",
            Port::Linked => "linked",
            Port::Piped(_) => "reached through the stub",
        }
    }

    /// The answers of a batch; none for an export that the port does not have.
    pub fn run(&mut self, calls: &[Call]) -> Vec<Option<Answer>> {
        match self {
            Port::Linked => calls.iter().map(by_link).collect(),
            Port::Piped(child) => piped(child, calls),
        }
    }

    pub fn has(&mut self, export: Export) -> bool {
        self.run(&[probe(export)])[0].is_some()
    }
}

fn linked() -> bool {
    const ALL: [Export; 3] = [Export::Root, Export::LeafVec, Export::Build];
    ALL.iter().any(|e| by_link(&probe(*e)).is_some())
}

/// A harmless call of that export.
fn probe(export: Export) -> Call {
    use Export::*;
    let b = || Arg::Bytes(Vec::new());
    let f = || Arg::Floats(Vec::new());
    let nine = || Arg::Floats(vec![1.0; 9]);
    let out = || Arg::OutBytes(Vec::new());
    let out_floats = || Arg::OutFloats(vec![0.0; 4]);
    let args = match export {
        Root | Radians => vec![Arg::Word(0)],
        Atan2 => vec![Arg::Word(0), Arg::Word(0)],
        Build | BuildLong | Triangles | ArcOpposite | Scene => vec![b(), out()],
        Place | Pair | Accepts | Vertex | OnEdge | Equivalent | ArcSide | ArcContains => {
            vec![b(), b()]
        }
        Convex | Simple => vec![b()],
        Arc | ArcIntersection | ArcRelate | ArcIntersectionLong | ArcRelateLong | Far | ArcFar => vec![b(), b(), out()],
        BuildF64 | BuildLongF64 => vec![f(), out(), out_floats(), out_floats(), out()],
        PlaceF64 => {
            vec![b(), f(), f(), b(), Arg::Float(0.0), Arg::Float(0.0), Arg::Float(0.0)]
        }
        PairF64 => vec![b(), f(), f(), b(), b(), f(), f(), b()],
        TrianglesF64 => vec![b(), f(), b(), Arg::OutShorts(Vec::new())],
        FullPositions => vec![out_floats()],
        LeafVec => vec![Arg::Int(0), nine(), out_floats()],
        LeafNumber | LeafCase => vec![Arg::Int(0), nine()],
        LeafCap => vec![f(), out_floats()],
        FarF64 => {
            vec![b(), f(), f(), b(), Arg::Float(0.0), Arg::Float(0.0), Arg::Float(0.0), out_floats()]
        }
    };
    Call { export, args }
}

fn put(to: &mut Vec<u8>, word: u64) {
    to.extend(word.to_le_bytes());
}

/// One call in the stub's layout; `slices` notes where each slice's bytes stand and how many they are.
fn encode(call: &Call, to: &mut Vec<u8>, slices: &mut Vec<(usize, usize)>) {
    to.extend((call.export as u32).to_le_bytes());
    to.extend((call.args.len() as u32).to_le_bytes());
    put(to, 0);
    put(to, 0);
    for a in &call.args {
        let bytes = a.bytes();
        let kind = match a {
            Arg::Float(_) => 1u64,
            _ => {
                if bytes.is_some() {
                    2
                } else {
                    0
                }
            }
        };
        put(to, kind);
        put(to, a.word());
        let data = bytes.unwrap_or_default();
        let size = if kind == 2 { data.len() + GUARD } else { 0 };
        put(to, size as u64);
        slices.push((to.len(), data.len()));
        to.extend(&data);
        if kind == 2 {
            to.extend(blank(GUARD));
        }
        while to.len() % 8 != 0 {
            to.push(0);
        }
    }
}

fn piped(child: &mut Child, calls: &[Call]) -> Vec<Option<Answer>> {
    let mut batch = Vec::new();
    let mut heads = Vec::new();
    for c in calls {
        let mut slices = Vec::new();
        heads.push((batch.len(), slices.clone()));
        encode(c, &mut batch, &mut slices);
        heads.last_mut().unwrap().1 = slices;
    }
    let mut back = vec![0; batch.len()];
    let gone = "the stub ended: the port stopped or broke its memory";
    let to = child.stdin.as_mut().unwrap();
    to.write_all(&(batch.len() as u64).to_le_bytes()).expect(gone);
    to.write_all(&batch).expect(gone);
    to.flush().expect(gone);
    let from = child.stdout.as_mut().unwrap();
    let mut size = [0; 8];
    from.read_exact(&mut size).expect(gone);
    from.read_exact(&mut back).expect(gone);
    calls.iter().zip(&heads).map(|(c, h)| decode(c, h, &batch, &back)).collect()
}

fn decode(c: &Call, head: &(usize, Vec<(usize, usize)>), sent: &[u8], back: &[u8]) -> Option<Answer> {
    let (at, slices) = head;
    let word = |i: usize| u64::from_le_bytes(back[at + 8 * i..at + 8 * i + 8].try_into().unwrap());
    if word(2) != 1 {
        return None;
    }
    let mut outs = Vec::new();
    for (a, (start, size)) in c.args.iter().zip(slices) {
        if a.bytes().is_none() {
            continue;
        }
        let whole = *start..start + size + GUARD;
        let from = if a.is_out() { start + size } else { *start };
        assert!(
            sent[from..whole.end] == back[from..whole.end],
            "{:?} wrote to what it was only to read, or past a slice's end",
            c.export
        );
        if a.is_out() {
            outs.push(back[*start..start + size].to_vec());
        }
    }
    let wide = [Export::Root, Export::Atan2, Export::LeafNumber, Export::Scene, Export::Radians];
    let value = if wide.contains(&c.export) {
        word(1)
    } else {
        // The answer is 32 bits wide; what the register holds above it says nothing.
        word(1) & 0xFFFF_FFFF
    };
    Some(Answer { value, outs })
}

/// The other end of the pipe, answered by the model: what stands in the port's place in `host mutants`.
pub fn serve() {
    let (mut from, mut to) = (std::io::stdin().lock(), std::io::stdout().lock());
    let mut size = [0; 8];
    while from.read_exact(&mut size).is_ok() {
        let mut batch = vec![0; u64::from_le_bytes(size) as usize];
        from.read_exact(&mut batch).expect("a whole batch");
        let mut at = 0;
        while at < batch.len() {
            at = answer_at(&mut batch, at);
        }
        to.write_all(&size).unwrap();
        to.write_all(&batch).unwrap();
        to.flush().unwrap();
    }
}

fn word_at(b: &[u8], at: usize) -> u64 {
    u64::from_le_bytes(b[at..at + 8].try_into().unwrap())
}

/// Reads the call at `at`, answers it in place, and returns where the next one starts.
fn answer_at(batch: &mut [u8], at: usize) -> usize {
    let export = Export::ALL[batch[at] as usize];
    let mut call = probe(export);
    let mut places = Vec::new();
    let mut next = at + 24;
    for a in &mut call.args {
        let (word, size) = (word_at(batch, next + 8), word_at(batch, next + 16) as usize);
        let data = &batch[next + 24..next + 24 + size.saturating_sub(GUARD)];
        *a = a.of(word, data);
        if a.is_out() {
            places.push(next + 24);
        }
        next += 24 + size.div_ceil(8) * 8;
    }
    let answer = crate::calls::by_model(&call);
    batch[at + 8..at + 16].copy_from_slice(&answer.value.to_le_bytes());
    batch[at + 16..at + 24].copy_from_slice(&1u64.to_le_bytes());
    for (place, out) in places.iter().zip(&answer.outs) {
        batch[*place..place + out.len()].copy_from_slice(out);
    }
    next
}

impl Drop for Port {
    fn drop(&mut self) {
        if let Port::Piped(child) = self {
            drop(child.stdin.take());
            let _ = child.wait();
        }
    }
}
