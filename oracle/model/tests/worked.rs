//! The worked examples (SCOPE 37) and what running the source showed (docs/DIFFERENCES.md), asked of the model.
use model::read::REFUSED;
use model::*;

type P = [f64; 3];
const X: P = [1.0, 0.0, 0.0];
const Y: P = [0.0, 1.0, 0.0];
const Z: P = [0.0, 0.0, 1.0];

fn bytes(list: &[P]) -> Vec<u8> {
    list.iter().flatten().flat_map(|c| c.to_le_bytes()).collect()
}

fn built_by(build: fn(&[u8], &mut [u8]) -> u32, list: &[P]) -> Vec<u8> {
    let mut out = vec![0; 88 + 49 * list.len()];
    let n = build(&bytes(list), &mut out);
    assert!(n < REFUSED, "refused {}", n - REFUSED);
    out.truncate(88 + 49 * n as usize);
    out
}

fn built(list: &[P]) -> Vec<u8> {
    built_by(desk_build, list)
}

fn built_long(list: &[P]) -> Vec<u8> {
    built_by(desk_build_long, list)
}

fn side(a: P, b: P, c: P) -> u32 {
    leaf_case(6, &[a, b, c].concat())
}

fn triangles(l: &[u8]) -> Vec<[u16; 3]> {
    let mut out = vec![0; 6 * 600];
    let n = desk_triangles(l, &mut out) as usize;
    let numbers: Vec<u16> = out[..6 * n].chunks(2).map(|b| u16::from_le_bytes([b[0], b[1]])).collect();
    numbers.chunks(3).map(|t| [t[0], t[1], t[2]]).collect()
}

fn accepts(l: &[u8], ts: &[[u16; 3]]) -> u32 {
    let b: Vec<u8> = ts.iter().flatten().flat_map(|n| n.to_le_bytes()).collect();
    desk_accepts(l, &b)
}

#[test]
fn sides_and_roots() {
    assert_eq!((side(X, Y, Z), side(X, Z, Y), side(X, X, Y)), (1, 2, 0));
    assert_eq!(desk_root(4.0_f64.to_bits()), 2.0_f64.to_bits());
    assert_eq!(desk_root(1), 2.0_f64.powi(-537).to_bits());
}

#[test]
fn opening() {
    let d: P = [0.6, 0.0, 0.8];
    assert_eq!(built(&[X])[2], 0);
    assert_eq!(u16::from(built(&[X, Y, d, X])[0]), 3);
    assert_eq!(u16::from(built(&[X, Y, d, X, X])[0]), 4);
    assert_eq!((built(&[X; 4])[2], built(&[X; 3])[2]), (1, 0));
}

#[test]
fn area_one() {
    let l = built(&[X, Y, Z]);
    assert_eq!(l[88..88 + 72], bytes(&[Z, Y, X])[..]);
    assert_eq!(l[88 + 144..], [0, 0, 0]);
    assert_eq!(l[3], 1);
}

#[test]
fn full_and_empty() {
    let full = built(&[X, [0.6, 0.8, 0.0], Y]);
    let empty = built(&[]);
    assert_eq!((full[2], empty[2]), (1, 0));
    assert_eq!((desk_pair(&full, &empty), desk_pair(&empty, &full)), (3, 0));
    assert_eq!(triangles(&full).len(), 20);
}

#[test]
fn four_corners() {
    let l = built(&[[0.6, 0.0, 0.8], [0.0, 0.6, 0.8], [-0.6, 0.0, 0.8], [0.0, -0.6, 0.8]]);
    assert_eq!(l[3] & 1, 1);
    assert_eq!(triangles(&l), [[3, 0, 1], [1, 2, 3]]);
    assert_eq!(accepts(&l, &[[3, 0, 1], [1, 2, 3]]), 1);
    assert_eq!(accepts(&l, &[[0, 1, 2], [0, 2, 3]]), 1);
    assert_eq!(accepts(&l, &[[0, 1, 3], [1, 2, 3]]), 0);
}

/// Loops as built that the source stops at.
#[test]
fn refusal_seven() {
    let a = built(&[[-0.8, 0.0, -0.6], X, [0.64, -0.48, 0.6]]);
    let b = built(&[[0.0, -1.0, 0.0], Z, X]);
    assert_eq!(desk_pair(&a, &b), REFUSED + 7);
}

fn arc(s: P, e: P) -> Vec<u8> {
    let mut out = vec![0; 72];
    assert_eq!(desk_arc(&bytes(&[s]), &bytes(&[e]), &mut out), 0);
    out
}

/// Of long arcs the source says Disjoint one way round and Intersecting the other; the long mode says Intersecting, at one point.
#[test]
fn long_arcs() {
    let a = arc(X, [-0.6, 0.8, 0.0]);
    let b = arc([-0.224, 0.768, 0.6], [-0.224, 0.768, -0.6]);
    let mut out = vec![0; 72];
    assert_eq!((desk_arc_relate(&a, &b, &mut out), desk_arc_relate(&b, &a, &mut out)), (0, 1));
    let source = out[..24].to_vec();
    for (one, other) in [(&a, &b), (&b, &a)] {
        let mut out = vec![0; 24];
        assert_eq!((desk_arc_relate_long(one, other, &mut out), &out), (1, &source));
        out = vec![0; 24];
        assert_eq!((desk_arc_intersection_long(one, other, &mut out), &out), (1, &source));
    }
}

/// Half circles by normals of their own meet at both ends; the one on the side of the first's start is told, whichever that is.
#[test]
fn of_two_touches_the_starts() {
    let minus_x = [-1.0, 0.0, 0.0];
    for (s, e) in [(X, minus_x), (minus_x, X)] {
        let (a, b) = (bytes(&[s, e, Z]), bytes(&[minus_x, X, Y]));
        let mut out = vec![0; 24];
        assert_eq!((desk_arc_relate_long(&a, &b, &mut out), &out), (2, &bytes(&[s])));
    }
}

/// A product that runs over is right of everything, and so is that of the opposite point: the arcs are apart in both modes.
#[test]
fn products_that_run_over() {
    let huge = [f64::MAX, f64::MAX, -f64::MAX];
    let (a, b) = (bytes(&[X, Y, huge]), bytes(&[Y, Z, [0.6, -0.8, 0.0]]));
    for (one, other) in [(&a, &b), (&b, &a)] {
        let mut out = vec![7; 72];
        assert_eq!((desk_arc_relate(one, other, &mut out), desk_arc_relate_long(one, other, &mut out)), (0, 0));
        assert_eq!(out, [7; 72]);
    }
}

/// One side is longer than a quarter circle: behind it the plain mode says inside.
#[test]
fn long_places() {
    let list = [X, Z, [-0.6, 0.8, 0.0], [0.0, 0.6, -0.8]];
    let (plain, long) = (built(&list), built_long(&list));
    assert_eq!((plain[3] & 8, long[3] & 8), (0, 8));
    let place = |l: &[u8], p: P| desk_place(l, &bytes(&[p]));
    assert_eq!((place(&plain, Y), place(&long, Y)), (1, 1));
    assert_eq!((place(&plain, [-0.8, 0.6, 0.0]), place(&long, [-0.8, 0.6, 0.0])), (1, 0));
    let crossed = [X, Z, [0.0, -1.0, 0.0], [-0.8, 0.0, 0.6]];
    assert_eq!((desk_simple(&built(&crossed)), desk_simple(&built_long(&crossed))), (1, 0));
    let full = [X, [0.6, 0.8, 0.0], Y];
    assert_eq!((built_long(&[])[3], built_long(&full)[3]), (8, built(&full)[3] | 8));
}

/// 11 after all that either loop is refused for, ahead of 7, and of a pair alone.
#[test]
fn refusal_eleven() {
    let (a, b) = ([[-0.8, 0.0, -0.6], X, [0.64, -0.48, 0.6]], [[0.0, -1.0, 0.0], Z, X]);
    assert_eq!(desk_pair(&built_long(&a), &built_long(&b)), 2);
    let full = [X, [0.6, 0.8, 0.0], Y];
    for (x, y) in [(&a[..], &b[..]), (&a, &full), (&full, &a), (&full, &full), (&[], &full), (&[], &[])] {
        assert_eq!(desk_pair(&built(x), &built_long(y)), REFUSED + 11);
        assert_eq!(desk_pair(&built_long(x), &built(y)), REFUSED + 11);
        assert_eq!(desk_equivalent(&built(x), &built_long(y)), desk_equivalent(&built(x), &built(y)));
    }
    let mut off = built_long(&b);
    off[88..96].copy_from_slice(&2.0_f64.to_le_bytes());
    assert_eq!((desk_pair(&built(&a), &off), desk_pair(&off, &built(&a))), (REFUSED + 4, REFUSED + 4));
    let mut marked = built(&b);
    marked[3] |= 0xF0;
    assert_eq!(desk_pair(&built(&a), &marked), REFUSED + 7);
}
