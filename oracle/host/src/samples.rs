//! The scenes of the stored tests, cut at every byte and with every byte damaged in four ways: the export beside the model.
use crate::port::Port;
use crate::random::Random;
use crate::scenes::{Endings, parts, put};
use crate::tally::Tally;
use std::path::Path;

/// Each on a port of its own, beside each other.
const THREADS: usize = 2;
/// Ways to damage a byte.
const WAYS: usize = 4;

/// How many there are of a scene: it is cut before each byte, kept whole, and each byte is damaged.
fn count(scene: &[u8]) -> usize {
    scene.len() + 1 + WAYS * scene.len()
}

/// The `i`-th of them; none where the damage leaves the byte as it was.
fn damaged(scene: &[u8], i: usize) -> Option<Vec<u8>> {
    if i <= scene.len() {
        return Some(scene[..i].to_vec());
    }
    let (at, way) = ((i - scene.len() - 1) / WAYS, (i - scene.len() - 1) % WAYS);
    // Over a few bytes each bit is flipped, and the second one is never the first.
    let (bit, other) = (at % 8, (at + 1 + at / 8 % 7) % 8);
    let mut b = scene.to_vec();
    b[at] = match way {
        0 => b[at] ^ 1 << bit,
        1 => b[at] ^ 1 << other,
        2 => 0,
        _ => 255,
    };
    (b[at] != scene[at]).then_some(b)
}

/// How many to take of a scene at most, so that about `n` are taken in all: short scenes whole, long ones as far as that goes.
fn share(scenes: &[&[u8]], n: usize) -> usize {
    let taken = |share: usize| scenes.iter().map(|s| share.min(count(s))).sum::<usize>();
    let (mut low, mut high) = (0, scenes.iter().map(|s| count(s)).max().unwrap_or(0));
    if n == 0 {
        return high;
    }
    while low < high {
        let middle = (low + high).div_ceil(2);
        if taken(middle) <= n { low = middle } else { high = middle - 1 }
    }
    low
}

/// Which ones to take of `all`: every one, or `most`, one from each of as many equal stretches.
fn chosen(r: &mut Random, all: usize, most: usize) -> Vec<usize> {
    let most = most.min(all);
    let start = |k: usize| k * all / most;
    (0..most).map(|k| start(k) + r.below(start(k + 1) - start(k))).collect()
}

/// Every `THREADS`-th of those that are taken, from the `thread`-th on.
fn run(t: &mut Tally, scenes: &[&[u8]], n: usize, seed: u64, thread: usize) -> Endings {
    let (mut r, mut rooms) = (Random::new(seed), Random::new(seed + 1));
    let mut endings = Endings::default();
    let most = share(scenes, n);
    for scene in scenes {
        for i in chosen(&mut r, count(scene), most).into_iter().skip(thread).step_by(THREADS) {
            let Some(b) = damaged(scene, i) else { continue };
            let text = model::scene::scene(&b).0;
            endings.count(&text);
            put(t, &mut rooms, b, &text);
        }
    }
    t.flush();
    endings
}

/// About `n` of them, spread evenly, or all where `n` is 0.
pub fn samples(t: &mut Tally, r: &mut Random, n: usize, root: &Path, open: fn() -> Port) {
    let file = std::fs::read(root.join("crates/scene_tests/stdin")).expect("the scenes are read");
    let scenes: Vec<&[u8]> = parts(&file).into_iter().map(|p| p.1).collect();
    let (scenes, seed) = (&scenes[..], r.bits());
    let work = move |thread: usize| {
        let mut own = Tally::new(open());
        let endings = run(&mut own, scenes, n, seed, thread);
        (own, endings)
    };
    let done: Vec<(Tally, Endings)> = std::thread::scope(|s| {
        let threads: Vec<_> = (0..THREADS).map(|k| s.spawn(move || work(k))).collect();
        threads.into_iter().map(|h| h.join().expect("a thread ends")).collect()
    });
    let mut endings = Endings::default();
    for (own, ended) in done {
        t.take_in(own);
        endings.add(&ended);
    }
    endings.report(t);
}

#[cfg(test)]
mod tests {
    use super::{chosen, count, damaged, share};
    use crate::random::Random;

    #[test]
    fn each_cut_and_each_damage_once() {
        let scene = [0, 1, 255, 7, 7, 7, 7, 7, 7, 200];
        let all: Vec<Vec<u8>> = (0..count(&scene)).filter_map(|i| damaged(&scene, i)).collect();
        assert_eq!(all.len(), 51 - 2, "0 stays 0, and 255 stays 255");
        for n in 0..=scene.len() {
            assert!(all.contains(&scene[..n].to_vec()));
        }
        for at in 0..scene.len() {
            let of_byte = all.iter().filter(|b| b.len() == scene.len() && b[at] != scene[at]).count();
            assert_eq!(of_byte, if [0, 255].contains(&scene[at]) { 3 } else { 4 });
        }
        assert_eq!(all.iter().collect::<std::collections::BTreeSet<_>>().len(), all.len());
    }

    #[test]
    fn as_many_as_asked_for() {
        let (short, long) = (vec![1; 10], vec![1; 1_000]);
        let scenes = [&short[..], &long[..], &long[..]];
        assert_eq!((share(&scenes, 0), share(&scenes, 1_000_000)), (5_001, 5_001));
        assert_eq!((share(&scenes, 10_053), share(&scenes, 10_051), share(&scenes, 251)), (5_001, 5_000, 100));
        let mut r = Random::new(1);
        assert_eq!(chosen(&mut r, 7, 9), [0, 1, 2, 3, 4, 5, 6]);
        let some = chosen(&mut r, 5_001, 100);
        assert!((0..100).all(|k| (k * 5_001 / 100..(k + 1) * 5_001 / 100).contains(&some[k])));
    }
}
