//! One call per export, as exports/desk.h declares it; `None` where the export is not linked.

/// Whether what is linked is the stand-in of oracle/standin and not the port.
pub const STANDIN: bool = cfg!(has_desk_standin);

/// Whether the exports are linked.
pub const LINKED: bool = cfg!(has_desk_build);

// A slice as the exports take it: pointer and count.
macro_rules! exports {
    ($($(#[$doc:meta])* $has:ident $name:ident ( $($arg:ident : $kind:ident),* ) -> $ret:ty;)*) => {
        $(
            $(#[$doc])*
            #[allow(unused_variables, clippy::too_many_arguments)]
            pub fn $name($($arg: exports!(@safe $kind)),*) -> Option<$ret> {
                #[cfg($has)]
                {
                    exports!(@call $name $ret [] $($arg : $kind),*)
                }
                #[cfg(not($has))]
                None
            }
        )*
    };
    (@safe word) => { u64 };
    (@safe float) => { f64 };
    (@safe bytes) => { &[u8] };
    (@safe floats) => { &[f64] };
    (@safe out_bytes) => { &mut [u8] };
    (@safe out_floats) => { &mut [f64] };
    (@safe out_shorts) => { &mut [u16] };
    // Collects the C parameters one by one, then declares and calls.
    (@call $name:ident $ret:ty [$($p:tt $t:ty, $v:expr;)*]) => {{
        unsafe extern "C" { fn $name($($p: $t),*) -> $ret; }
        // SAFETY: the exports are proved to read and write within the slices that they are lent.
        Some(unsafe { $name($($v),*) })
    }};
    (@call $name:ident $ret:ty [$($done:tt)*] $a:ident : word $(, $($rest:tt)*)?) => {
        exports!(@call $name $ret [$($done)* $a u64, $a;] $($($rest)*)?)
    };
    (@call $name:ident $ret:ty [$($done:tt)*] $a:ident : float $(, $($rest:tt)*)?) => {
        exports!(@call $name $ret [$($done)* $a f64, $a;] $($($rest)*)?)
    };
    (@call $name:ident $ret:ty [$($done:tt)*] $a:ident : bytes $(, $($rest:tt)*)?) => {
        exports!(@call $name $ret [$($done)* $a *const u8, $a.as_ptr(); _ usize, $a.len();] $($($rest)*)?)
    };
    (@call $name:ident $ret:ty [$($done:tt)*] $a:ident : floats $(, $($rest:tt)*)?) => {
        exports!(@call $name $ret [$($done)* $a *const f64, $a.as_ptr(); _ usize, $a.len();] $($($rest)*)?)
    };
    (@call $name:ident $ret:ty [$($done:tt)*] $a:ident : out_bytes $(, $($rest:tt)*)?) => {
        exports!(@call $name $ret [$($done)* $a *mut u8, $a.as_mut_ptr(); _ usize, $a.len();] $($($rest)*)?)
    };
    (@call $name:ident $ret:ty [$($done:tt)*] $a:ident : out_floats $(, $($rest:tt)*)?) => {
        exports!(@call $name $ret [$($done)* $a *mut f64, $a.as_mut_ptr(); _ usize, $a.len();] $($($rest)*)?)
    };
    (@call $name:ident $ret:ty [$($done:tt)*] $a:ident : out_shorts $(, $($rest:tt)*)?) => {
        exports!(@call $name $ret [$($done)* $a *mut u16, $a.as_mut_ptr(); _ usize, $a.len();] $($($rest)*)?)
    };
}

exports! {
    /// The square root of f64 bits.
    has_desk_root desk_root(b: word) -> u64;
    /// The angle of (x, y), in f64 bits: see desk.h for how near it is to the exact one.
    has_desk_atan2 desk_atan2(y: word, x: word) -> u64;
    /// Builds a loop: the count.
    has_desk_build desk_build(list: bytes, out: out_bytes) -> u32;
    /// 0 outside, 1 inside, 2 mute.
    has_desk_place desk_place(of: bytes, position: bytes) -> u32;
    /// The six relations, 0 to 5.
    has_desk_pair desk_pair(a: bytes, b: bytes) -> u32;
    /// The number of triples written.
    has_desk_triangles desk_triangles(of: bytes, out: out_bytes) -> u32;
    /// 0 no, 1 yes.
    has_desk_accepts desk_accepts(of: bytes, triangles: bytes) -> u32;
    /// 0 no, 1 yes.
    has_desk_convex desk_convex(of: bytes) -> u32;
    /// 0 no, 1 yes.
    has_desk_simple desk_simple(of: bytes) -> u32;
    /// 0 no, 1 yes.
    has_desk_vertex desk_vertex(of: bytes, position: bytes) -> u32;
    /// 0 no, 1 yes.
    has_desk_on_edge desk_on_edge(of: bytes, position: bytes) -> u32;
    /// 0 no, 1 yes.
    has_desk_equivalent desk_equivalent(a: bytes, b: bytes) -> u32;
    /// 0, with the arc in `out`.
    has_desk_arc desk_arc(start: bytes, end: bytes, out: out_bytes) -> u32;
    /// 0, with the arc in `out`.
    has_desk_arc_opposite desk_arc_opposite(arc: bytes, out: out_bytes) -> u32;
    /// 0 collinear, 1 left, 2 right.
    has_desk_arc_side desk_arc_side(arc: bytes, position: bytes) -> u32;
    /// 0 no, 1 yes.
    has_desk_arc_contains desk_arc_contains(arc: bytes, position: bytes) -> u32;
    /// 0 none, 1 with the position in `out`.
    has_desk_arc_intersection desk_arc_intersection(a: bytes, b: bytes, out: out_bytes) -> u32;
    /// The four relations, 0 to 3, with the position or arc in `out`.
    has_desk_arc_relate desk_arc_relate(a: bytes, b: bytes, out: out_bytes) -> u32;
    /// Builds a loop in parts: the count.
    has_desk_build_f64 desk_build_f64(list: floats, header: out_bytes, positions: out_floats,
        normals: out_floats, classes: out_bytes) -> u32;
    /// As `desk_place`, on parts.
    has_desk_place_f64 desk_place_f64(header: bytes, positions: floats, normals: floats, classes: bytes,
        x: float, y: float, z: float) -> u32;
    /// As `desk_pair`, on parts.
    has_desk_pair_f64 desk_pair_f64(header: bytes, positions: floats, normals: floats, classes: bytes,
        other_header: bytes, other_positions: floats, other_normals: floats, other_classes: bytes) -> u32;
    /// As `desk_triangles`, on parts.
    has_desk_triangles_f64 desk_triangles_f64(header: bytes, positions: floats, classes: bytes,
        out: out_shorts) -> u32;
    /// The 12 positions that a full loop's triangles number, 36 floats: 12.
    has_desk_full_positions desk_full_positions(out: out_floats) -> u32;
    /// How many bytes of text a scene has, written to `out`: a size, so that a refusal is 2^32 plus its number.
    has_desk_scene desk_scene(scene: bytes, out: out_bytes) -> u64;
    /// The radians of a squared chord, in f64 bits.
    has_desk_radians desk_radians(c: word) -> u64;
    /// 0, with the squared chord from the position to the loop's border in `out`.
    has_desk_far desk_far(of: bytes, position: bytes, out: out_bytes) -> u32;
    /// 0, with the squared chord from the position to the arc in `out`.
    has_desk_arc_far desk_arc_far(arc: bytes, position: bytes, out: out_bytes) -> u32;
    /// As `desk_far`, on parts.
    has_desk_far_f64 desk_far_f64(header: bytes, positions: floats, normals: floats, classes: bytes,
        x: float, y: float, z: float, out: out_floats) -> u32;
    /// As `desk_build`, in long mode.
    has_desk_build_long desk_build_long(list: bytes, out: out_bytes) -> u32;
    /// As `desk_build_f64`, in long mode.
    has_desk_build_long_f64 desk_build_long_f64(list: floats, header: out_bytes, positions: out_floats,
        normals: out_floats, classes: out_bytes) -> u32;
    /// As `desk_arc_intersection`, in long mode.
    has_desk_arc_intersection_long desk_arc_intersection_long(a: bytes, b: bytes, out: out_bytes) -> u32;
    /// As `desk_arc_relate`, in long mode.
    has_desk_arc_relate_long desk_arc_relate_long(a: bytes, b: bytes, out: out_bytes) -> u32;
}
