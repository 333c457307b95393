//! Puts the host itself to the test: each file of oracle/mutants is a wrong program, made by one edit of a COPY of the
//! source or the model, and stands in for the port; the run of its group must find differences.
//! A file: '#' why, 'group G', 'file F', the lines to take out ('-') and those to put in ('+').
use std::path::{Path, PathBuf};
use std::process::Command;

struct Mutant {
    name: String,
    group: String,
    file: String,
    old: String,
    new: String,
}

fn read(path: &Path) -> Mutant {
    let text = std::fs::read_to_string(path).expect("a mutant is read");
    let after = |word: &str| {
        let found = text.lines().find_map(|l| l.strip_prefix(word));
        found.unwrap_or_else(|| panic!("{path:?} has no line '{word}'")).to_string()
    };
    let joined = |mark: char| text.lines().filter_map(|l| l.strip_prefix(mark)).collect::<Vec<_>>().join("\n");
    Mutant {
        name: path.file_name().unwrap().to_string_lossy().into_owned(),
        group: after("group "),
        file: after("file "),
        old: joined('-'),
        new: joined('+'),
    }
}

/// Builds the wrong program's host; quick to compile, its floats the same.
fn cargo(dir: &Path, target: &Path) {
    let mut c = Command::new("cargo");
    c.current_dir(dir).args(["build", "--profile", "mutant", "--offline", "--quiet", "-j1", "-p", "host"]);
    c.arg("--no-default-features").arg("--target-dir").arg(target).env_remove("DESK_LIB_DIR");
    c.env("RUSTFLAGS", "--cap-lints allow");
    assert!(c.status().expect("cargo runs").success(), "the wrong program is built");
}

fn copy(from: &Path, to: &Path) {
    std::fs::create_dir_all(to).unwrap();
    for entry in std::fs::read_dir(from).unwrap() {
        let entry = entry.unwrap();
        let target = to.join(entry.file_name());
        if entry.path().is_dir() {
            copy(&entry.path(), &target);
            continue;
        }
        let bytes = std::fs::read(entry.path()).unwrap();
        if std::fs::read(&target).ok().as_ref() != Some(&bytes) {
            std::fs::write(target, bytes).unwrap();
        }
    }
}

const WORKSPACE: &str = r#"[workspace]
resolver = "2"
members = ["jord", "model", "desk", "host"]
[profile.mutant]
inherits = "release"
opt-level = 1
incremental = true
"#;

/// Copies what has changed, so that cargo compiles no more than it must.
fn lay_out(oracle: &Path, work: &Path) {
    for part in ["jord", "model", "desk", "host"] {
        copy(&oracle.join(part), &work.join(part));
    }
    let manifest = work.join("Cargo.toml");
    if std::fs::read_to_string(&manifest).ok().as_deref() != Some(WORKSPACE) {
        std::fs::write(manifest, WORKSPACE).unwrap();
    }
}

/// Puts the mutant in the port's place and runs its group: whether differences were found.
fn noticed(oracle: &Path, room: &Path, m: &Mutant) -> bool {
    let work = room.join("work");
    lay_out(oracle, &work);
    let file = work.join(&m.file);
    let text = std::fs::read_to_string(&file).unwrap();
    assert!(text.contains(&m.old), "{}: its lines are not in {}", m.name, m.file);
    std::fs::write(&file, text.replacen(&m.old, &m.new, 1)).unwrap();
    cargo(&work, &room.join("target"));
    let own = std::env::current_exe().unwrap();
    let run = Command::new(own)
        .args(["compare", &m.group, "3000", "1"])
        .env("DESK_STUB", room.join("target/mutant/host"))
        .output()
        .unwrap();
    let said = String::from_utf8_lossy(&run.stdout);
    let line = said.lines().find(|l| l.contains(" compared, ")).unwrap_or("it stopped before the end");
    println!("{:<22} {line}", m.name);
    run.status.code() == Some(1) && line.contains("differences")
}

/// All mutants, or those whose name holds the word; returns whether each was noticed.
pub fn run(oracle: &Path, word: &str) -> bool {
    let oracle = std::fs::canonicalize(oracle).unwrap();
    let room = oracle.join("target/mutants");
    let mut files: Vec<PathBuf> =
        std::fs::read_dir(oracle.join("mutants")).unwrap().map(|e| e.unwrap().path()).collect();
    files.sort();
    let mut missed = Vec::new();
    let mut tried = 0;
    for m in files.iter().map(|f| read(f)).filter(|m| m.name.contains(word)) {
        tried += 1;
        if !noticed(&oracle, &room, &m) {
            missed.push(m.name);
        }
    }
    println!(
        "mutants: {tried} tried, {} not noticed{}{}",
        missed.len(),
        if missed.is_empty() { "" } else { ": " },
        missed.join(" ")
    );
    missed.is_empty()
}
