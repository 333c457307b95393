//! What the long mode mends, and what it costs: wrong answers of either mode over convex loops, of which the sides of the edges tell the right one.
use crate::random::{P, Random, along, around, bytes, dot, neg};
use crate::rings::{HEADER, at, built_in, count, vertex};
use model::long::Mode;
use model::loops::INSIDES;
use std::collections::BTreeMap;
use std::f64::consts::{FRAC_PI_2, PI, TAU};

/// A loop in either mode.
struct Both {
    plain: Vec<u8>,
    long: Vec<u8>,
}

impl Both {
    fn of(list: &[P]) -> Both {
        Both { plain: built_in(Mode::Plain, list), long: built_in(Mode::Long, list) }
    }

    fn inside(&self) -> P {
        at(&self.plain, 40)
    }

    /// By the sides of its edges, which are clockwise: inside is right of each. None near one of their great circles.
    fn truth(&self, p: P, margin: f64) -> Option<bool> {
        let n = count(&self.plain);
        let depths = (0..n).map(|i| 0.0 - dot(p, at(&self.plain, HEADER + 24 * (n + i))));
        let least = depths.fold(f64::MAX, f64::min);
        (least.abs() > margin).then_some(least > 0.0)
    }
}

/// Corners round a centre, no two of them close, none of the sides across half the round: convex.
fn convex(r: &mut Random, n: usize, radius: f64) -> Vec<P> {
    let (centre, from) = (r.unit(), r.between(0.0, TAU));
    (0..n).map(|i| around(centre, from + TAU * (i as f64 + r.between(0.0, 0.8)) / n as f64, radius)).collect()
}

/// Convex, with one side longer than a quarter circle.
fn long_sided(r: &mut Random, n: usize) -> Vec<P> {
    loop {
        let (centre, radius, from) = (r.unit(), r.between(0.8, 1.5), r.between(0.0, TAU));
        let gap = r.between(FRAC_PI_2, 0.95 * PI);
        let list: Vec<P> =
            (0..n).map(|i| around(centre, from + (TAU - gap) * i as f64 / (n - 1) as f64, radius)).collect();
        if dot(list[n - 1], list[0]) < 0.0 {
            return list;
        }
    }
}

fn asked(r: &mut Random, list: impl Fn(&mut Random, usize) -> Vec<P>) -> Both {
    loop {
        let n = 4 + r.below(9);
        let both = Both::of(&list(r, n));
        // Steady, with all corners, and insides to count from.
        if both.plain[3] & (INSIDES | 2) == INSIDES && count(&both.plain) == n {
            return both;
        }
    }
}

/// No two of its positions are a quarter circle apart.
fn small(r: &mut Random, n: usize) -> Vec<P> {
    let radius = r.between(0.01, 0.7);
    convex(r, n, radius)
}

fn large(r: &mut Random, n: usize) -> Vec<P> {
    let radius = r.between(0.8, 1.5);
    convex(r, n, radius)
}

type Kind = (&'static str, fn(&mut Random, usize) -> Vec<P>);

const KINDS: [Kind; 3] = [
    ("small: all of it within a quarter circle", small),
    ("large: corners round a centre, 46 to 86 degrees off it", large),
    ("one side longer than a quarter circle", long_sided),
];

/// How many places were told wrongly in plain mode, in long mode, of how many.
#[derive(Default)]
struct Wrong([u64; 3]);

impl Wrong {
    fn ask(&mut self, l: &Both, p: P, truth: bool) {
        for (k, of) in [&l.plain, &l.long].into_iter().enumerate() {
            self.0[k] += u64::from(model::desk_place(of, &bytes(p)) != u32::from(truth));
        }
        self.0[2] += 1;
    }

    fn line(&self, what: &str) {
        let [plain, long, of] = self.0;
        println!("  {what:<40} plain {plain:>8}   long {long:>8}   of {of}");
    }
}

/// Shares of the way from the inside to the corner, beyond it.
const SHARES: [f64; 7] = [1e-14, 1e-12, 1e-9, 1e-6, 1e-3, 1e-1, 1.0];

/// Beyond each corner, on the ray from the first inside through it: all outside.
fn beyond_corners(r: &mut Random, n: usize) {
    println!(
        "places beyond a corner, on the ray from the first inside through it, each corner of {n} convex loops; told inside:"
    );
    for (name, list) in KINDS {
        println!(" {name}");
        let mut wrong: Vec<Wrong> = SHARES.iter().map(|_| Wrong::default()).collect();
        for _ in 0..n {
            let l = asked(r, list);
            for i in 0..count(&l.plain) {
                for (k, share) in SHARES.iter().enumerate() {
                    let p = along(l.inside(), vertex(&l.plain, i), 1.0 + share);
                    if l.truth(p, 0.0) == Some(false) {
                        wrong[k].ask(&l, p, false);
                    }
                }
            }
        }
        for (share, w) in SHARES.iter().zip(&wrong) {
            w.line(&format!("by {share:e} of the way"));
        }
    }
}

/// Off every edge's great circle, so that the sides tell.
const MARGIN: f64 = 1e-9;

fn anywhere(r: &mut Random, n: usize) {
    println!(
        "places anywhere, and about the antipode of the first inside, 40 of each of {n} convex loops; told wrongly:"
    );
    for (name, list) in KINDS {
        let (mut wrong, mut behind) = (Wrong::default(), Wrong::default());
        for _ in 0..n {
            let l = asked(r, list);
            for _ in 0..40 {
                let p = if r.chance(2) { r.unit() } else { r.near(l.inside(), 1.0) };
                let off = r.spread(-52, -10).abs();
                let q = neg(r.near(l.inside(), off));
                for (p, w) in [(p, &mut wrong), (q, &mut behind)] {
                    if let Some(truth) = l.truth(p, MARGIN) {
                        w.ask(&l, p, truth);
                    }
                }
            }
        }
        println!(" {name}");
        wrong.line("anywhere");
        behind.line("about the antipode of the first inside");
    }
}

const RELATIONS: [&str; 6] = ["disjoint", "touching", "intersecting", "containing", "within", "equal"];

fn word(told: u32) -> String {
    RELATIONS.get(told as usize).map_or_else(|| format!("refused {}", told - 65_536), |w| w.to_string())
}

/// A loop beside itself, drawn together about a point: it contains its copy.
fn shrunken(r: &mut Random, n: usize, what: &str, about: fn(&Both, P) -> P) {
    let mut told: [BTreeMap<String, u64>; 2] = Default::default();
    for _ in 0..n {
        let centre = r.unit();
        let (k, radius, share) = (4 + r.below(9), r.between(0.01, 1.2), r.between(0.05, 0.95));
        let list: Vec<P> = (0..k).map(|i| around(centre, TAU * i as f64 / k as f64, radius)).collect();
        let l = Both::of(&list);
        let to = about(&l, centre);
        let copy = Both::of(&list.iter().map(|p| along(to, *p, share)).collect::<Vec<P>>());
        for (m, a, b) in [(0, &l.plain, &copy.plain), (1, &l.long, &copy.long)] {
            *told[m].entry(word(model::desk_pair(a, b))).or_default() += 1;
        }
    }
    let of = |m: usize| told[m].iter().map(|(k, n)| format!("{k} {n}")).collect::<Vec<_>>().join(", ");
    println!("  {what:<40} plain: {};  long: {};  of {n}", of(0), of(1));
}

/// All of it, so many loops of each kind.
pub fn costs(n: usize, seed: u64) {
    println!("seed {seed}; the model in both modes, to which runs hold the port");
    let mut r = Random::new(seed);
    beyond_corners(&mut r, n);
    anywhere(&mut r, n);
    println!("a regular loop of 4 to 12 corners beside its own shrunken copy, which it contains:");
    shrunken(&mut r, n, "drawn together about its centre", |_, centre| centre);
    shrunken(&mut r, n, "drawn together about its first inside", |l, _| l.inside());
}
