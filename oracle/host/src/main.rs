//! The host: feeds the port and the Rust the same inputs.
mod arcs;
mod bench;
mod calls;
mod constants;
mod costs;
mod cuts;
mod exact;
mod far;
mod leaves;
mod linked;
mod long_arcs;
mod long_loops;
mod mutants;
mod pairs;
mod port;
mod random;
mod record;
mod records;
mod rings;
mod samples;
mod scenes;
mod shapes;
mod tally;
mod turns;

use calls::Export;
use port::Port;
use random::Random;
use std::path::{Path, PathBuf};
use tally::Tally;

const USAGE: &str = "\
host constants                   the numbers that the port records
host compare GROUP [N] [SEED]    N inputs of a group (or all) to both sides; exit status 1 on a difference
host compare turns [N] [SEED]    among them: angles and the directions of steady loops, beside exact angles in whole numbers
host compare radians [N] [SEED]  among them: N squared chords of each family, bit for bit, and how far they are from the Rust's
host compare long_arcs [N] [SEED]  and long_build, long_place, long_questions, long_pair among them: the long mode, and where it differs from the plain one
host compare samples [N] [SEED]  among them: the stored scenes, cut and damaged at every byte; N of these spread evenly, or all where N is 0
host groups                      the groups whose exports are there
host record FILE [N]             about N recorded answers an export, for the program `test_replay`
host rings INPUT OUTPUT          the samples of the program `test_cuts`, and what the source says of them
host expected FILE               what the model says of the scenes in FILE (samples/make.py), for the stored test `scene_tests`
host serve                       answers the stub's batches by the model (for host mutants)
host mutants [WORD]              wrong programs in the port's place: each must be noticed
host long-costs [N] [SEED]       wrong answers of both modes where the right one is known, over N loops of each kind
host bench                       nanoseconds of both and their ratio
host repeat WHO WHAT SHAPE N TIMES   one call over and over, for a profile (ours or rust; star or convex)";

/// The groups, with the exports that they need one of.
const GROUPS: [(&str, &[Export]); 22] = [
    ("root", &[Export::Root]),
    ("atan", &[Export::Atan2]),
    ("leaves", &[Export::LeafVec, Export::LeafNumber, Export::LeafCase, Export::LeafCap]),
    ("caps", &[Export::LeafCap]),
    (
        "arcs",
        &[
            Export::Arc,
            Export::ArcOpposite,
            Export::ArcSide,
            Export::ArcContains,
            Export::ArcIntersection,
            Export::ArcRelate,
        ],
    ),
    ("build", &[Export::Build, Export::BuildF64]),
    ("turns", &[Export::BuildF64]),
    ("place", &[Export::Place, Export::PlaceF64]),
    ("triangles", &[Export::Triangles, Export::TrianglesF64, Export::FullPositions]),
    ("accepts", &[Export::Accepts]),
    ("questions", &[Export::Convex, Export::Simple, Export::Vertex, Export::OnEdge, Export::Equivalent]),
    ("pair", &[Export::Pair, Export::PairF64]),
    ("far", &[Export::Far, Export::FarF64]),
    ("arc_far", &[Export::ArcFar]),
    ("radians", &[Export::Radians]),
    ("long_arcs", &[Export::ArcIntersectionLong, Export::ArcRelateLong]),
    ("long_build", &[Export::BuildLong, Export::BuildLongF64]),
    // A port that does not build long loops passes their mark over.
    ("long_place", &[Export::BuildLong]),
    ("long_questions", &[Export::BuildLong]),
    ("long_pair", &[Export::BuildLong]),
    ("scene", &[Export::Scene]),
    ("samples", &[Export::Scene]),
];

/// The repository's root: DESK_ROOT, or the folder above this crate's workspace.
fn root() -> PathBuf {
    match std::env::var_os("DESK_ROOT") {
        Some(r) => PathBuf::from(r),
        None => Path::new(env!("CARGO_MANIFEST_DIR")).join("../.."),
    }
}

fn stub() -> PathBuf {
    std::env::var_os("DESK_STUB").map_or(root().join("oracle/target/stub"), PathBuf::from)
}

fn open() -> Port {
    Port::open(&stub()).unwrap_or_else(|| {
        eprintln!("no port: link libdesk.a (x86-64) or make oracle/target/stub (oracle/stub/build)");
        std::process::exit(2);
    })
}

/// A tally over the port. The scene program is run by itself, so scenes need no port.
fn tally(group: &str) -> Tally {
    match Port::open(&stub()) {
        None if group == "scene" => Tally::only_filled(),
        _ => Tally::new(open()),
    }
}

fn available(t: &mut Tally, group: &str) -> bool {
    let (_, exports) = GROUPS.iter().find(|g| g.0 == group).unwrap();
    let scene = group == "scene" && scenes::Program::find(&root()).is_some();
    scene || (t.ported() && exports.iter().any(|e| t.has(*e)))
}

/// Puts a group's inputs to a tally.
fn feed(group: &str, t: &mut Tally, r: &mut Random, n: usize) {
    match group {
        "root" => leaves::root(t, r, n),
        "atan" => leaves::atan(t, r, n),
        "leaves" => leaves::leaves(t, r, n),
        "caps" => leaves::bounding_caps(t, r, n),
        "arcs" => arcs::arcs(t, r, n),
        "build" => rings::build(t, r, n),
        "turns" => turns::turns(t, r, n),
        "place" => rings::place(t, r, n),
        "triangles" => rings::triangles(t, r, n),
        "accepts" => rings::accepts(t, r, n),
        "questions" => rings::questions(t, r, n),
        "pair" => pairs::pair(t, r, n),
        "far" => far::loops(t, r, n),
        "arc_far" => far::arcs(t, r, n),
        "radians" => far::radians(t, r, n),
        "long_arcs" => long_arcs::arcs(t, r, n),
        "long_build" => long_loops::build(t, r, n),
        "long_place" => long_loops::place(t, r, n),
        "long_questions" => long_loops::questions(t, r, n),
        "long_pair" => long_loops::pair(t, r, n),
        "samples" => samples::samples(t, r, n, &root(), open),
        _ => scenes::scenes(t, r, n, &root()),
    }
}

fn record(file: &str, wanted: usize) {
    let mut calls = Vec::new();
    // `test_replay` takes no others.
    let left_out = ["scene", "samples", "leaves", "caps", "turns", "far", "arc_far", "radians"];
    for (group, _) in GROUPS.iter().filter(|g| !left_out.contains(&g.0) && !g.0.starts_with("long_")) {
        let mut t = Tally::only_filled();
        feed(group, &mut t, &mut Random::new(1), wanted * 4);
        calls.extend(t.drain());
    }
    let (bytes, n) = record::file(calls, wanted);
    std::fs::write(file, &bytes).expect("the file is written");
    println!("{n} answers, {} bytes", bytes.len());
}

fn run(group: &str, n: usize, seed: u64) -> bool {
    let mut t = tally(group);
    if !available(&mut t, group) {
        println!("{group}: not there yet");
        return true;
    }
    let began = std::time::Instant::now();
    feed(group, &mut t, &mut Random::new(seed), n);
    let same = t.report(group);
    println!("  ({n} inputs, seed {seed}, {:.1} s)", began.elapsed().as_secs_f64());
    same
}

fn compare(group: &str, n: usize, seed: u64) -> bool {
    let names: Vec<&str> = GROUPS.iter().map(|g| g.0).filter(|g| group == "all" || group == *g).collect();
    if names.is_empty() {
        eprintln!("no group {group}");
        std::process::exit(2);
    }
    println!("the port is {}", Port::open(&stub()).map_or("crates/scene/out/scene alone", |p| p.name()));
    names.iter().filter(|g| !run(g, n, seed)).count() == 0
}

fn number(word: &str) -> u64 {
    word.parse().unwrap_or_else(|_| {
        eprintln!("not a number: {word}");
        std::process::exit(2)
    })
}

fn main() {
    // Refusal 7 is the source's `unreachable!`, caught; its message would drown the rest.
    let quiet = std::panic::take_hook();
    std::panic::set_hook(Box::new(move |info| {
        if !info.to_string().contains("both loops contain a vertex of the other") {
            quiet(info);
        }
    }));
    let words: Vec<String> = std::env::args().skip(1).collect();
    let words: Vec<&str> = words.iter().map(String::as_str).collect();
    let same = match words.as_slice() {
        ["constants"] => {
            constants::print();
            true
        }
        ["compare", group] => compare(group, 1000, 1),
        ["compare", group, n] => compare(group, number(n) as usize, 1),
        ["compare", group, n, seed] => compare(group, number(n) as usize, number(seed)),
        ["record", file] => {
            record(file, 200);
            true
        }
        ["record", file, n] => {
            record(file, number(n) as usize);
            true
        }
        ["rings", input, output] => {
            cuts::write(input, output);
            true
        }
        ["expected", file] => {
            let scenes = std::fs::read(file).expect("the file is read");
            std::io::Write::write_all(&mut std::io::stdout(), &scenes::expected(&scenes)).expect("it is printed");
            true
        }
        ["serve"] => {
            port::serve();
            true
        }
        ["mutants"] => mutants::run(&root().join("oracle"), ""),
        ["mutants", word] => mutants::run(&root().join("oracle"), word),
        ["long-costs"] => {
            costs::costs(10_000, 1);
            true
        }
        ["long-costs", n] => {
            costs::costs(number(n) as usize, 1);
            true
        }
        ["long-costs", n, seed] => {
            costs::costs(number(n) as usize, number(seed));
            true
        }
        ["bench"] => {
            bench::bench();
            true
        }
        ["repeat", who, what, shape, n, times] => {
            bench::repeat(who, what, *shape == "star", number(n) as usize, number(times) as usize);
            true
        }
        ["groups"] => {
            let mut t = Tally::new(open());
            for (g, _) in GROUPS {
                if available(&mut t, g) {
                    println!("{g}");
                }
            }
            true
        }
        _ => {
            eprintln!("{USAGE}");
            std::process::exit(2);
        }
    };
    std::process::exit(i32::from(!same));
}
