// Links libdesk.a, where there is one for this machine, and says which exports it has: a call whose export is not there
// answers `None`.
include!("link.rs");

#[rustfmt::skip]
const NAMES: [&str; 33] = [
    "desk_root", "desk_atan2", "desk_build", "desk_place", "desk_pair", "desk_triangles", "desk_accepts",
    "desk_convex", "desk_simple", "desk_vertex", "desk_on_edge", "desk_equivalent", "desk_arc", "desk_arc_opposite",
    "desk_arc_side", "desk_arc_contains", "desk_arc_intersection", "desk_arc_relate", "desk_build_f64",
    "desk_place_f64", "desk_pair_f64", "desk_triangles_f64", "desk_full_positions", "desk_scene", "desk_radians",
    "desk_far", "desk_arc_far", "desk_far_f64", "desk_build_long", "desk_build_long_f64", "desk_arc_intersection_long",
    "desk_arc_relate_long", "desk_standin",
];

fn main() {
    println!("cargo:rerun-if-changed=build.rs");
    println!("cargo:rerun-if-changed=link.rs");
    may_say(&NAMES);
    let Some(dir) = folder() else { return };
    let there = defined(&dir, "desk");
    if !there.is_empty() {
        link(&dir, "desk");
        say(&NAMES, &there);
    }
}
