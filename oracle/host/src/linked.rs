//! Everything that is linked: the exports as `desk` has them, and what the host alone calls, the probes of the leaves. `None`
//! where it is not linked.
pub use desk::raw::*;

macro_rules! probes {
    ($($has:ident $name:ident [$($p:ident : $t:ty),*] ($($a:ident : $s:ty),*) ($($v:expr),*) -> $ret:ty;)*) => {
        $(
            #[allow(unused_variables)]
            pub fn $name($($a: $s),*) -> Option<$ret> {
                #[cfg($has)]
                {
                    unsafe extern "C" { fn $name($($p: $t),*) -> $ret; }
                    // SAFETY: proved to read and write within the slices that they are lent.
                    Some(unsafe { $name($($v),*) })
                }
                #[cfg(not($has))]
                None
            }
        )*
    };
}

probes! {
    has_leaf_vec leaf_vec [op: u32, i: *const f64, n: usize, o: *mut f64, m: usize]
        (op: u32, input: &[f64], out: &mut [f64]) (op, input.as_ptr(), input.len(), out.as_mut_ptr(), out.len()) -> u32;
    has_leaf_number leaf_number [op: u32, i: *const f64, n: usize]
        (op: u32, input: &[f64]) (op, input.as_ptr(), input.len()) -> u64;
    has_leaf_case leaf_case [op: u32, i: *const f64, n: usize]
        (op: u32, input: &[f64]) (op, input.as_ptr(), input.len()) -> u32;
    has_leaf_cap leaf_cap [l: *const f64, n: usize, o: *mut f64, m: usize]
        (list: &[f64], out: &mut [f64]) (list.as_ptr(), list.len(), out.as_mut_ptr(), out.len()) -> u32;
}
