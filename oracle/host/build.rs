// Links the probes, libtest_probes.a, beside the exports that `desk` links. The stand-in has them in its libdesk.a.
include!("../desk/link.rs");

const NAMES: [&str; 4] = ["leaf_vec", "leaf_number", "leaf_case", "leaf_cap"];

fn main() {
    println!("cargo:rerun-if-changed=build.rs");
    println!("cargo:rerun-if-changed=../desk/link.rs");
    may_say(&NAMES);
    let Some(dir) = folder() else { return };
    let probes = defined(&dir, "test_probes");
    if !probes.is_empty() {
        link(&dir, "test_probes");
        say(&NAMES, &probes);
        return;
    }
    say(&NAMES, &defined(&dir, "desk"));
}
