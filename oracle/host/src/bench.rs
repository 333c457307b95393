//! Times the port (through the `_f64` exports, linked) and the Rust from one run, on the same loops.
use crate::random::{P, list_floats};
use crate::shapes::polygon;
use jord::spherical::{Loop, LoopRelation};
use jord::{NVector, Vec3};
use model::long::Mode;
use std::hint::black_box;
use std::time::{Duration, Instant};

/// How often a call is to be made in a round, that it take at least 10 ms.
fn often(call: &mut impl FnMut()) -> u32 {
    let mut times = 1u32;
    loop {
        let t = round(call, times);
        if t >= Duration::from_millis(10) {
            return times;
        }
        times = (times * 2).max((times as f64 * 0.012 / t.as_secs_f64().max(1e-9)).min(1e8) as u32);
    }
}

/// Nanoseconds of one call: the least of fifteen rounds of at least 10 ms each.
fn nanos(mut call: impl FnMut()) -> f64 {
    let times = often(&mut call);
    (0..15).map(|_| round(&mut call, times).as_nanos() as f64 / f64::from(times)).fold(f64::MAX, f64::min)
}

/// The same of two, round by round in turn, so that both meet the same machine.
fn nanos_in_turn(mut one: impl FnMut(), mut other: impl FnMut()) -> (f64, f64) {
    let times = (often(&mut one), often(&mut other));
    let per_call = |t: Duration, times: u32| t.as_nanos() as f64 / f64::from(times);
    (0..15).fold((f64::MAX, f64::MAX), |(a, b), _| {
        let (t, u) = (round(&mut one, times.0), round(&mut other, times.1));
        (a.min(per_call(t, times.0)), b.min(per_call(u, times.1)))
    })
}

fn round(call: &mut impl FnMut(), times: u32) -> Duration {
    let began = Instant::now();
    for _ in 0..times {
        call();
    }
    began.elapsed()
}

/// A loop for both sides.
struct Both {
    list: Vec<f64>,
    vs: Vec<NVector>,
    rust: Loop,
    header: Vec<u8>,
    /// The same with the mark of the long mode.
    long_header: Vec<u8>,
    positions: Vec<f64>,
    normals: Vec<f64>,
    classes: Vec<u8>,
}

fn nvector(p: P) -> NVector {
    NVector::new(Vec3::new(p[0], p[1], p[2]))
}

impl Both {
    fn of(list: &[P]) -> Both {
        let n = list.len();
        let vs: Vec<NVector> = list.iter().map(|p| nvector(*p)).collect();
        let mut b = Both {
            list: list_floats(list),
            rust: Loop::new(&vs),
            vs,
            header: vec![0; 88],
            long_header: Vec::new(),
            positions: vec![0.0; 3 * n],
            normals: vec![0.0; 3 * n],
            classes: vec![0; n],
        };
        let count = model::desk_build_f64(&b.list, &mut b.header, &mut b.positions, &mut b.normals, &mut b.classes);
        assert_eq!((count as usize, b.header[3] & 2), (n, 0), "a steady ring");
        b.long_header = b.header.clone();
        b.long_header[3] |= model::loops::LONG;
        b
    }

    fn build(&mut self) -> Option<u32> {
        desk::raw::desk_build_f64(
            &self.list,
            &mut self.header,
            &mut self.positions,
            &mut self.normals,
            &mut self.classes,
        )
    }

    fn header(&self, mode: Mode) -> &[u8] {
        if mode == Mode::Long { &self.long_header } else { &self.header }
    }

    fn place_in(&self, mode: Mode, p: P) -> Option<u32> {
        desk::raw::desk_place_f64(self.header(mode), &self.positions, &self.normals, &self.classes, p[0], p[1], p[2])
    }

    fn place(&self, p: P) -> Option<u32> {
        self.place_in(Mode::Plain, p)
    }

    fn far(&self, p: P, out: &mut [f64]) -> Option<u32> {
        desk::raw::desk_far_f64(&self.header, &self.positions, &self.normals, &self.classes, p[0], p[1], p[2], out)
    }

    fn pair(&self, o: &Both) -> Option<u32> {
        self.pair_in(Mode::Plain, o)
    }

    fn pair_in(&self, mode: Mode, o: &Both) -> Option<u32> {
        desk::raw::desk_pair_f64(
            self.header(mode),
            &self.positions,
            &self.normals,
            &self.classes,
            o.header(mode),
            &o.positions,
            &o.normals,
            &o.classes,
        )
    }

    fn triangles(&self, out: &mut [u16]) -> Option<u32> {
        desk::raw::desk_triangles_f64(&self.header, &self.positions, &self.classes, out)
    }
}

fn line(what: &str, shape: &str, n: usize, ours: Option<f64>, rust: f64) {
    match ours {
        Some(o) => println!("{what:<22} {shape:<7} {n:>4} {o:>12.0} {rust:>12.0} {:>7.2}", o / rust),
        None => println!("{what:<22} {shape:<7} {n:>4} {:>12} {rust:>12.0} {:>7}", "-", "-"),
    }
}

/// Ours is timed only where the export is linked: a call through an emulator says nothing of time.
fn timed(mut call: impl FnMut() -> Option<u32>) -> Option<f64> {
    call()?;
    Some(nanos(|| {
        black_box(call());
    }))
}

const CENTRE: P = [0.48, 0.6, 0.64];

fn shape(star: bool, n: usize, centre: P, size: f64) -> Vec<P> {
    // Clockwise, so that neither side reverses; a star's short radius keeps it free of collinear corners.
    polygon(centre, n, true, |i| if star && i % 2 == 1 { size * 0.7 } else { size })
}

fn one_size(star: bool, n: usize) {
    let name = if star { "star" } else { "convex" };
    let mut a = Both::of(&shape(star, n, CENTRE, 0.3));
    let rust = nanos(|| drop(black_box(Loop::new(black_box(&a.vs)))));
    line("build", name, n, timed(|| a.build()), rust);
    // A little off the centre: neither an inside nor in line with a corner.
    let p = off_centre();
    let q = nvector(p);
    let rust = nanos(|| {
        black_box(a.rust.contains_position(black_box(q)));
    });
    line("place inside", name, n, timed(|| a.place(black_box(p))), rust);
    // Every edge is asked wherever the position lies; outside, an end decides more of them, which is quicker.
    for (what, p) in [("far inside", p), ("far outside", outside())] {
        let (q, mut out) = (nvector(p), [0.0]);
        let rust = nanos(|| {
            black_box(a.rust.distance_to_boundary(black_box(q)));
        });
        line(what, name, n, timed(|| a.far(black_box(p), &mut out)), rust);
    }
    for (what, first, b) in &pairs(star, n) {
        let rust = nanos(|| {
            black_box(first.rust.relate(black_box(&b.rust)));
        });
        let expected = match *what {
            "pair crossing" => LoopRelation::Intersecting,
            "pair nested" => LoopRelation::Containing,
            _ => LoopRelation::Disjoint,
        };
        assert_eq!(first.rust.relate(&b.rust), expected);
        line(what, name, n, timed(|| first.pair(black_box(b))), rust);
    }
    let mut out = vec![0; 3 * n];
    let rust = nanos(|| drop(black_box(a.rust.triangulate())));
    line("triangles", name, n, timed(|| a.triangles(&mut out)), rust);
}

/// What is asked how it stands to what.
fn pairs(star: bool, n: usize) -> [(&'static str, Both, Both); 3] {
    let first = || Both::of(&shape(star, n, CENTRE, 0.3));
    [
        ("pair crossing", first(), Both::of(&shape(star, n, crate::random::around(CENTRE, 1.1, 0.31), 0.3))),
        ("pair nested", first(), Both::of(&shape(star, n, crate::random::around(CENTRE, 2.2, 0.001), 0.1))),
        // The caps meet, the loops do not: a cap reaches to the long corners.
        ("pair apart, caps meet", wedge(star, n), apart(star, n)),
    ]
}

/// Ours in plain mode and in long mode, of the same loops and the same answer: what the second point of two circles costs, and the cap saves.
fn both_modes(star: bool, n: usize) {
    let name = if star { "star" } else { "convex" };
    let row = |what: &str, call: &dyn Fn(Mode) -> Option<u32>| {
        assert_eq!(call(Mode::Plain), call(Mode::Long), "{what}: the same answer in both modes");
        let again = |mode: Mode| {
            black_box(call(mode));
        };
        let (plain, long) = nanos_in_turn(|| again(Mode::Plain), || again(Mode::Long));
        println!("{what:<22} {name:<7} {n:>4} {plain:>12.0} {long:>12.0} {:>10.2}", long / plain);
    };
    let (a, p) = (Both::of(&shape(star, n, CENTRE, 0.3)), off_centre());
    row("place inside", &|mode| a.place_in(mode, black_box(p)));
    for (what, first, b) in &pairs(star, n) {
        row(what, &|mode| first.pair_in(mode, black_box(b)));
    }
}

fn off_centre() -> P {
    crate::random::around(CENTRE, 0.123, 0.017)
}

/// Beside the loop and away from it, in line with no corner.
fn outside() -> P {
    crate::random::around(CENTRE, 0.123, 0.6)
}

/// A long thin loop, whose cap is far larger than itself.
fn thin(star: bool, n: usize, north: f64) -> Both {
    let half = n / 2;
    let mut list = Vec::new();
    for i in 0..half {
        let dent = if star && i % 2 == 1 { 0.01 } else { 0.0 };
        let long = 20.0 * i as f64 / half as f64;
        list.push(crate::random::degrees(north + 0.5 + dent, long));
    }
    for i in 0..n - half {
        let long = 20.0 - 20.0 * i as f64 / (n - half) as f64;
        list.push(crate::random::degrees(north, long));
    }
    Both::of(&list)
}

fn wedge(star: bool, n: usize) -> Both {
    thin(star, n, 10.0)
}

fn apart(star: bool, n: usize) -> Both {
    thin(star, n, 14.0)
}

pub fn bench() {
    let exe = std::env::current_exe().ok();
    let profile = exe.as_deref().and_then(|e| e.parent()?.file_name()?.to_str()).unwrap_or("unknown");
    println!(
        "The Rust by profile {profile} (release: cargo's default; fat: codegen-units = 1, lto = \"fat\"), on {}.",
        std::env::consts::ARCH
    );
    if desk::raw::STANDIN {
        println!("A STAND-IN is linked, not the port: the column `ours` says nothing.");
    }
    println!(
        "Nanoseconds a call, least of fifteen rounds; ours through the _f64 exports{}.",
        if Both::of(&shape(false, 4, CENTRE, 0.3)).build().is_some() { "" } else { " (not linked here, so not timed)" }
    );
    println!("{:<22} {:<7} {:>4} {:>12} {:>12} {:>7}", "what", "shape", "n", "ours", "the Rust", "ratio");
    for star in [false, true] {
        for n in SIZES {
            one_size(star, n);
        }
    }
    if desk::raw::desk_build_long(&[], &mut [0; 88]).is_none() {
        println!("The long mode is not linked here, so not timed.");
        return;
    }
    println!("{:<22} {:<7} {:>4} {:>12} {:>12} {:>10}", "ours", "shape", "n", "plain", "long", "long/plain");
    for star in [false, true] {
        for n in SIZES {
            both_modes(star, n);
        }
    }
}

const SIZES: [usize; 5] = [4, 16, 64, 256, 512];

/// Calls ours, or the Rust, so many times and does nothing else: for a profile by `valgrind --tool=callgrind`.
pub fn repeat(who: &str, what: &str, star: bool, n: usize, times: usize) {
    let mut a = Both::of(&shape(star, n, CENTRE, 0.3));
    let b = Both::of(&shape(star, n, crate::random::around(CENTRE, 2.2, 0.001), 0.1));
    let c = Both::of(&shape(star, n, crate::random::around(CENTRE, 1.1, 0.31), 0.3));
    let p = off_centre();
    let q = nvector(p);
    let (mut out, mut distance) = (vec![0; 3 * n], [0.0]);
    for _ in 0..times {
        match (who, what) {
            ("ours", "build") => drop(black_box(a.build())),
            ("ours", "place") => drop(black_box(a.place(black_box(p)))),
            ("ours", "far") => drop(black_box(a.far(black_box(p), &mut distance))),
            ("ours", "pair") => drop(black_box(a.pair(black_box(&b)))),
            ("ours", "place_long") => drop(black_box(a.place_in(Mode::Long, black_box(p)))),
            ("ours", "pair_long") => drop(black_box(a.pair_in(Mode::Long, black_box(&b)))),
            ("ours", "crossing") => drop(black_box(a.pair(black_box(&c)))),
            ("ours", "triangles") => drop(black_box(a.triangles(&mut out))),
            ("rust", "build") => drop(black_box(Loop::new(black_box(&a.vs)))),
            ("rust", "place") => drop(black_box(a.rust.contains_position(black_box(q)))),
            ("rust", "far") => drop(black_box(a.rust.distance_to_boundary(black_box(q)))),
            ("rust", "pair") => drop(black_box(a.rust.relate(black_box(&b.rust)))),
            ("rust", "crossing") => drop(black_box(a.rust.relate(black_box(&c.rust)))),
            ("rust", "triangles") => drop(black_box(a.rust.triangulate())),
            _ => panic!(
                "ours or rust; build, place, far, pair, crossing or triangles; ours alone: place_long, pair_long"
            ),
        }
    }
}
