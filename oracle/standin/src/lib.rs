//! The model behind the exports' C names. It stands in for libdesk.a where that cannot be linked, and where the
//! host itself is put to the test (oracle/mutants). It is not the port: `desk_standin` says so to whoever links it.
use std::slice::{from_raw_parts, from_raw_parts_mut};

fn lent<'a, T>(p: *const T, n: usize) -> &'a [T] {
    if n == 0 { &[] } else { unsafe { from_raw_parts(p, n) } }
}

fn lent_mut<'a, T>(p: *mut T, n: usize) -> &'a mut [T] {
    if n == 0 { &mut [] } else { unsafe { from_raw_parts_mut(p, n) } }
}

macro_rules! stand {
    ($($name:ident [$($p:ident : $t:ty),*] ($($v:expr),*) -> $ret:ty;)*) => {
        $(
            #[unsafe(no_mangle)]
            #[allow(clippy::too_many_arguments)]
            pub extern "C" fn $name($($p: $t),*) -> $ret {
                model::$name($($v),*)
            }
        )*
    };
}

type B = *const u8;
type F = *const f64;
type OB = *mut u8;
type OF = *mut f64;
type OH = *mut u16;
type N = usize;

stand! {
    desk_root [b: u64] (b) -> u64;
    desk_atan2 [y: u64, x: u64] (y, x) -> u64;
    desk_build [a: B, n: N, o: OB, m: N] (lent(a, n), lent_mut(o, m)) -> u32;
    desk_place [a: B, n: N, b: B, m: N] (lent(a, n), lent(b, m)) -> u32;
    desk_pair [a: B, n: N, b: B, m: N] (lent(a, n), lent(b, m)) -> u32;
    desk_triangles [a: B, n: N, o: OB, m: N] (lent(a, n), lent_mut(o, m)) -> u32;
    desk_accepts [a: B, n: N, b: B, m: N] (lent(a, n), lent(b, m)) -> u32;
    desk_convex [a: B, n: N] (lent(a, n)) -> u32;
    desk_simple [a: B, n: N] (lent(a, n)) -> u32;
    desk_vertex [a: B, n: N, b: B, m: N] (lent(a, n), lent(b, m)) -> u32;
    desk_on_edge [a: B, n: N, b: B, m: N] (lent(a, n), lent(b, m)) -> u32;
    desk_equivalent [a: B, n: N, b: B, m: N] (lent(a, n), lent(b, m)) -> u32;
    desk_arc [a: B, n: N, b: B, m: N, o: OB, l: N] (lent(a, n), lent(b, m), lent_mut(o, l)) -> u32;
    desk_arc_opposite [a: B, n: N, o: OB, m: N] (lent(a, n), lent_mut(o, m)) -> u32;
    desk_arc_side [a: B, n: N, b: B, m: N] (lent(a, n), lent(b, m)) -> u32;
    desk_arc_contains [a: B, n: N, b: B, m: N] (lent(a, n), lent(b, m)) -> u32;
    desk_arc_intersection [a: B, n: N, b: B, m: N, o: OB, l: N] (lent(a, n), lent(b, m), lent_mut(o, l)) -> u32;
    desk_arc_relate [a: B, n: N, b: B, m: N, o: OB, l: N] (lent(a, n), lent(b, m), lent_mut(o, l)) -> u32;
    desk_build_f64 [a: F, n: N, h: OB, hn: N, p: OF, pn: N, q: OF, qn: N, c: OB, cn: N]
        (lent(a, n), lent_mut(h, hn), lent_mut(p, pn), lent_mut(q, qn), lent_mut(c, cn)) -> u32;
    desk_place_f64 [h: B, hn: N, p: F, pn: N, q: F, qn: N, c: B, cn: N, x: f64, y: f64, z: f64]
        (lent(h, hn), lent(p, pn), lent(q, qn), lent(c, cn), x, y, z) -> u32;
    desk_pair_f64 [h: B, hn: N, p: F, pn: N, q: F, qn: N, c: B, cn: N,
                   h2: B, hn2: N, p2: F, pn2: N, q2: F, qn2: N, c2: B, cn2: N]
        (lent(h, hn), lent(p, pn), lent(q, qn), lent(c, cn),
         lent(h2, hn2), lent(p2, pn2), lent(q2, qn2), lent(c2, cn2)) -> u32;
    desk_triangles_f64 [h: B, hn: N, p: F, pn: N, c: B, cn: N, o: OH, m: N]
        (lent(h, hn), lent(p, pn), lent(c, cn), lent_mut(o, m)) -> u32;
    desk_full_positions [o: OF, m: N] (lent_mut(o, m)) -> u32;
    leaf_vec [op: u32, a: F, n: N, o: OF, m: N] (op, lent(a, n), lent_mut(o, m)) -> u32;
    leaf_number [op: u32, a: F, n: N] (op, lent(a, n)) -> u64;
    leaf_case [op: u32, a: F, n: N] (op, lent(a, n)) -> u32;
    leaf_cap [a: F, n: N, o: OF, m: N] (lent(a, n), lent_mut(o, m)) -> u32;
    desk_scene [a: B, n: N, o: OB, m: N] (lent(a, n), lent_mut(o, m)) -> u64;
    desk_radians [c: u64] (c) -> u64;
    desk_far [a: B, n: N, b: B, m: N, o: OB, l: N] (lent(a, n), lent(b, m), lent_mut(o, l)) -> u32;
    desk_arc_far [a: B, n: N, b: B, m: N, o: OB, l: N] (lent(a, n), lent(b, m), lent_mut(o, l)) -> u32;
    desk_far_f64 [h: B, hn: N, p: F, pn: N, q: F, qn: N, c: B, cn: N, x: f64, y: f64, z: f64, o: OF, m: N]
        (lent(h, hn), lent(p, pn), lent(q, qn), lent(c, cn), x, y, z, lent_mut(o, m)) -> u32;
    desk_build_long [a: B, n: N, o: OB, m: N] (lent(a, n), lent_mut(o, m)) -> u32;
    desk_build_long_f64 [a: F, n: N, h: OB, hn: N, p: OF, pn: N, q: OF, qn: N, c: OB, cn: N]
        (lent(a, n), lent_mut(h, hn), lent_mut(p, pn), lent_mut(q, qn), lent_mut(c, cn)) -> u32;
    desk_arc_intersection_long [a: B, n: N, b: B, m: N, o: OB, l: N] (lent(a, n), lent(b, m), lent_mut(o, l)) -> u32;
    desk_arc_relate_long [a: B, n: N, b: B, m: N, o: OB, l: N] (lent(a, n), lent(b, m), lent_mut(o, l)) -> u32;
}

/// Tells the stand-in from the port.
#[unsafe(no_mangle)]
pub extern "C" fn desk_standin() -> u32 {
    1
}
