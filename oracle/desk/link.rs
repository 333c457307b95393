// Shared by the build scripts of `desk` and `host`: finds a static library of the port and says which functions it has.
use std::path::{Path, PathBuf};

/// The names of the archive's symbol index: its first member, "/", with big-endian counts ("/SYM64/": wider ones).
fn symbols(archive: &[u8]) -> Vec<String> {
    let Some(member) = archive.strip_prefix(b"!<arch>\n").filter(|m| m.len() > 68) else { return Vec::new() };
    let wide = if member.starts_with(b"/SYM64/") { 8 } else { 4 };
    let number = |at: usize| member[at..at + wide].iter().fold(0, |n, b| n << 8 | usize::from(*b));
    let size: usize = String::from_utf8_lossy(&member[48..58]).trim().parse().unwrap_or(0);
    let names = 60 + wide + wide * number(60);
    let end = (60 + size).min(member.len());
    member[names.min(end)..end].split(|b| *b == 0).map(|n| String::from_utf8_lossy(n).into_owned()).collect()
}

/// Where the libraries are: DESK_LIB_DIR, or target/staticlib of the repository, which holds x86-64 code and is none elsewhere.
fn folder() -> Option<PathBuf> {
    let own = Path::new(env!("CARGO_MANIFEST_DIR")).join("../../target/staticlib");
    let x86 = std::env::var("CARGO_CFG_TARGET_ARCH").is_ok_and(|a| a == "x86_64");
    std::env::var_os("DESK_LIB_DIR").map(PathBuf::from).or(x86.then_some(own))
}

/// What the library in that folder defines; nothing where it is not there.
fn defined(dir: &Path, library: &str) -> Vec<String> {
    let file = dir.join(format!("lib{library}.a"));
    println!("cargo:rerun-if-changed={}", file.display());
    std::fs::read(file).map_or(Vec::new(), |archive| symbols(&archive))
}

fn link(dir: &Path, library: &str) {
    println!("cargo:rustc-link-search=native={}", dir.display());
    println!("cargo:rustc-link-lib=static={library}");
}

/// Sets `has_NAME` for each of the names that is there.
fn say(names: &[&str], there: &[String]) {
    for name in names.iter().filter(|n| there.iter().any(|t| t == *n)) {
        println!("cargo:rustc-cfg=has_{name}");
    }
}

fn may_say(names: &[&str]) {
    println!("cargo:rerun-if-env-changed=DESK_LIB_DIR");
    for name in names {
        println!("cargo:rustc-check-cfg=cfg(has_{name})");
    }
}
