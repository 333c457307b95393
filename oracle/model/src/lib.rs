//! docs/SCOPE.md read over the unchanged Rust: one function per export of the desk, plain, with all refusals in
//! their order (`SCOPE 7` is its rule 7). What the source says is asked of the source (`jord`); only what is marked as added
//! there (refusals, ring numbers, the checker, the midpoint that stands in, the arctangent, the scene, the long mode) is written here.

pub mod angle;
pub mod arcs;
pub mod ask;
pub mod build;
pub mod cut;
pub mod far;
pub mod leaves;
pub mod long;
pub mod loops;
pub mod pair;
pub mod read;
pub mod scene;

pub use arcs::{
    desk_arc, desk_arc_contains, desk_arc_intersection, desk_arc_intersection_long, desk_arc_opposite, desk_arc_relate,
    desk_arc_relate_long, desk_arc_side,
};
pub use ask::{desk_convex, desk_equivalent, desk_on_edge, desk_place, desk_place_f64, desk_simple, desk_vertex};
pub use build::{desk_build, desk_build_f64, desk_build_long, desk_build_long_f64};
pub use cut::{desk_accepts, desk_full_positions, desk_triangles, desk_triangles_f64};
pub use far::{desk_arc_far, desk_far, desk_far_f64, desk_radians};
pub use leaves::{desk_atan2, desk_root, leaf_cap, leaf_case, leaf_number, leaf_vec};
pub use pair::{desk_pair, desk_pair_f64};
pub use scene::desk_scene;
