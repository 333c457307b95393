//! Scenes made at random: whole ones, and such as end in each refusal that a scene can end in (SCOPE 46), with every two faults in
//! one record, so that their order (SCOPE 47) is met.
use crate::pairs::two_lists;
use crate::random::{P, Random, add, along, border_lengths, bytes, list_bytes, unit};
use crate::shapes;

const MOST_AREAS: usize = 16;
const MOST_POSITIONS: usize = 1_024;
const X: P = [1.0, 0.0, 0.0];

/// Numbers of areas, some of which differ in their high byte alone.
const NUMBERS: [u16; 22] =
    [1, 2, 3, 7, 8, 9, 10, 11, 12, 13, 14, 15, 16, 17, 255, 256, 257, 300, 512, 32_768, 65_534, 65_535];

pub fn record(kind: u16, body: &[u8]) -> Vec<u8> {
    let mut r = (body.len() as u32).to_le_bytes().to_vec();
    r.extend(kind.to_le_bytes());
    r.extend(body);
    r
}

pub fn area(number: u16, list: &[P]) -> Vec<u8> {
    let mut b = number.to_le_bytes().to_vec();
    b.extend(list_bytes(list));
    record(1, &b)
}

pub fn place(number: u16, p: P) -> Vec<u8> {
    let mut b = number.to_le_bytes().to_vec();
    b.extend(bytes(p));
    record(2, &b)
}

pub fn far(number: u16, p: P) -> Vec<u8> {
    let mut b = number.to_le_bytes().to_vec();
    b.extend(bytes(p));
    record(4, &b)
}

pub fn pair(a: u16, b: u16) -> Vec<u8> {
    let mut body = a.to_le_bytes().to_vec();
    body.extend(b.to_le_bytes());
    record(3, &body)
}

/// Records that nothing is wrong with, lists aside, and what the next one is judged by.
#[derive(Default)]
struct Good {
    records: Vec<Vec<u8>>,
    areas: Vec<(u16, Vec<P>)>,
    given: usize,
}

impl Good {
    fn met(&self, number: u16) -> bool {
        self.areas.iter().any(|a| a.0 == number)
    }

    /// A number that no area has.
    fn fresh(&self, r: &mut Random) -> u16 {
        loop {
            let number = *r.pick(&NUMBERS);
            if !self.met(number) {
                return number;
            }
        }
    }

    /// Takes the list as an area, where a scene has room for it.
    fn area(&mut self, r: &mut Random, list: Vec<P>) {
        if self.areas.len() == MOST_AREAS || self.given + list.len() > MOST_POSITIONS {
            return;
        }
        let number = self.fresh(r);
        self.given += list.len();
        self.records.push(area(number, &list));
        self.areas.push((number, list));
    }

    /// An area, and a position worth asking of it.
    fn query(&self, r: &mut Random) -> (u16, P) {
        let (number, list) = r.pick(&self.areas);
        let p = match r.below(5) {
            0 if !list.is_empty() => list[r.below(list.len())],
            1 if list.len() > 1 => along(list[0], list[1], 0.5),
            2 | 3 if !list.is_empty() => unit(list.iter().copied().fold([0.0; 3], add)),
            _ => r.position(),
        };
        (*number, p)
    }

    fn place(&mut self, r: &mut Random) {
        let (number, p) = self.query(r);
        self.records.push(place(number, p));
    }

    fn far(&mut self, r: &mut Random) {
        let (number, p) = self.query(r);
        self.records.push(far(number, p));
    }

    fn pair(&mut self, r: &mut Random) {
        let (a, b) = (r.pick(&self.areas).0, r.pick(&self.areas).0);
        self.records.push(pair(a, b));
    }

    /// A place, a far or a pair, where there is an area.
    fn ask(&mut self, r: &mut Random) {
        match r.below(3) {
            _ if self.areas.is_empty() => {}
            0 => self.place(r),
            1 => self.far(r),
            _ => self.pair(r),
        }
    }
}

/// Areas of every shape, and places, fars and pairs of them.
fn whole(r: &mut Random) -> Good {
    let most = *r.pick(&[1, 3, 6, 16, 16]);
    let mut good = Good::default();
    if r.chance(2) {
        // Two areas that have to do with each other, and their pair both ways round.
        let (a, b) = two_lists(r);
        good.area(r, a);
        good.area(r, b);
        let (a, b) = (good.areas[0].0, good.areas[1].0);
        good.records.extend([pair(a, b), pair(b, a)]);
    }
    for _ in 0..r.below(40) {
        if r.chance(3) && good.areas.len() < most {
            let len = if r.chance(30) { 200 + r.below(320) } else { r.below(14) };
            let list = if r.chance(3) { shapes::any(r, len) } else { shapes::plain(r, len.max(3)) };
            if list.len() <= 512 {
                good.area(r, list);
            }
        } else {
            good.ask(r);
        }
    }
    good
}

/// Few records, quick to answer, up to a limit of areas or of positions or not.
fn start(r: &mut Random) -> Good {
    let mut good = Good::default();
    if r.chance(5) {
        // The third one is empty.
        for count in [512, 512 - r.below(5), r.below(3)] {
            let p = r.round();
            good.area(r, vec![p; count]);
        }
    }
    let areas = *r.pick(&[0, 1, 1, 2, 3, 15, 16, 16]);
    while good.areas.len() < areas {
        let list = match r.below(8) {
            0 => shapes::convex(r, 4),
            1 | 2 => vec![r.round(); 1 + r.below(2)],
            _ => Vec::new(),
        };
        let fits = good.given + list.len() <= MOST_POSITIONS;
        good.area(r, if fits { list } else { Vec::new() });
        if r.chance(4) {
            good.ask(r);
        }
    }
    good
}

/// A position that is refused for a component, for its length, or for both at once; at the border of lengths one may be fine.
fn refused(r: &mut Random) -> P {
    let (big, off) = (*r.pick(&[2.0, 1e308, 0.0, 0.5, -3.0]), *r.pick(&[f64::NAN, f64::INFINITY, f64::NEG_INFINITY]));
    let mut p = match r.below(4) {
        0 => [*r.pick(&border_lengths()), 0.0, 0.0],
        1 => [big, 0.0, 0.0],
        _ => [off, *r.pick(&[0.0, 1.0, 2.0]), 0.0],
    };
    let k = r.below(3);
    p.rotate_left(k);
    p
}

/// A list with none, one or several refused positions at its start, its end or anywhere, now and then closed.
fn list_of(r: &mut Random, count: usize) -> Vec<P> {
    let mut list: Vec<P> = if count > 20 { vec![r.round(); count] } else { (0..count).map(|_| r.position()).collect() };
    for _ in 0..*r.pick(&[0, 0, 1, 1, 2, 3, 8]) {
        if count > 0 {
            let anywhere = r.below(count);
            let i = *r.pick(&[0, count - 1, count / 2, anywhere, anywhere]);
            list[i] = refused(r);
        }
    }
    if count > 1 && r.chance(5) {
        list[count - 1] = list[0];
    }
    list
}

/// How many positions to give: few, or about as many as a list or the scene may have.
fn count_of(r: &mut Random, good: &Good) -> usize {
    let left = MOST_POSITIONS - good.given;
    match r.below(12) {
        _ if left < 5 => r.below(7),
        0..3 => *r.pick(&[511, 512, 513, 513, 513, 514]),
        3 => *r.pick(&[left - 1, left, left + 1, left + 2, 1_025]),
        _ => r.below(9),
    }
}

/// An area number: mostly one that fits, else zero or one that does not.
fn number_of(r: &mut Random, good: &Good, kind: u16) -> u16 {
    let (met, wanted) = (!good.areas.is_empty(), kind != 1);
    match r.below(if kind == 3 { 4 } else { 6 }) {
        0 => 0,
        1 if wanted || !met => good.fresh(r),
        1 => r.pick(&good.areas).0,
        _ if wanted && met => r.pick(&good.areas).0,
        _ => good.fresh(r),
    }
}

/// A length of a record that is not its body's.
fn wrong_length(r: &mut Random, len: u32) -> u32 {
    match r.below(4) {
        0 => u32::MAX - *r.pick(&[0, 1, 2, 3, 4, 5, 5, 6, 7, 15, 85, 86, 200]),
        1 => *r.pick(&[65_530, 65_536, 1 << 31, (1 << 31) - 1]),
        _ => *r.pick(&[0, 1, 2, 4, 26, len.wrapping_sub(1), len + 1, len + 24, len + 256]),
    }
}

/// A record with as many faults as chance has it, each by itself, so that any two of them meet.
fn faulty(r: &mut Random, good: &Good) -> Vec<u8> {
    let form = *r.pick(&[1, 1, 1, 2, 3, 3, 4]);
    let mut body = number_of(r, good, form).to_le_bytes().to_vec();
    match form {
        1 => {
            let count = count_of(r, good);
            body.extend(list_bytes(&list_of(r, count)));
        }
        2 | 4 => body.extend(if r.chance(2) { bytes(refused(r)) } else { bytes(r.position()) }),
        _ => body.extend(number_of(r, good, form).to_le_bytes()),
    }
    if r.chance(8) {
        let size = body.len() + r.below(4);
        body.resize(size.saturating_sub(r.below(6)), r.below(2) as u8);
    }
    let kind = if r.chance(10) { *r.pick(&[0, 5, 9, 256, 257, 258, 259, 260, 1_024, 65_535]) } else { form };
    let mut b = record(kind, &body);
    if r.chance(12) {
        b[..4].copy_from_slice(&wrong_length(r, body.len() as u32).to_le_bytes());
    }
    b
}

/// A few good records, a faulty one, and now and then others behind it, which are not to be read; or it is cut short.
fn with_faults(r: &mut Random) -> Vec<u8> {
    let good = start(r);
    let mut b = good.records.concat();
    let at = b.len();
    b.extend(faulty(r, &good));
    match r.below(8) {
        0 => b.truncate(at + r.below(b.len() - at)),
        1 | 2 => b.extend(faulty(r, &good)),
        3 => b.extend(area(good.fresh(r), &[X])),
        _ => {}
    }
    b
}

/// Two areas of which each is found in the other (docs/DIFFERENCES.md), the axes turned and the lists reversed or not, and others
/// beside them.
fn both_ways(r: &mut Random) -> Vec<u8> {
    let mut good = if r.chance(2) { start(r) } else { Good::default() };
    let mut two = [vec![[-0.8, 0.0, -0.6], X, [0.64, -0.48, 0.6]], vec![[0.0, -1.0, 0.0], [0.0, 0.0, 1.0], X]];
    let turned = r.below(3);
    for list in &mut two {
        list.iter_mut().for_each(|p| p.rotate_left(turned));
        if r.chance(2) {
            list.reverse();
        }
    }
    let numbers = [good.fresh(r), 60_000];
    if good.areas.len() + 2 <= MOST_AREAS {
        for (number, list) in numbers.iter().zip(two) {
            good.records.push(area(*number, &list));
            good.areas.push((*number, list));
        }
    }
    for _ in 0..r.below(3) {
        good.ask(r);
    }
    good.records.push(pair(numbers[0], numbers[1]));
    good.records.concat()
}

/// About as many bytes as there may be, of pairs, places or fars of one area, or nothing that makes sense; a fault at the end.
fn long(r: &mut Random) -> Vec<u8> {
    let fits = r.chance(3);
    let size = *r.pick(if fits { &[65_530, 65_535, 65_536, 65_536] } else { &[65_537, 65_538, 70_000, 131_073] });
    if !fits && r.chance(2) {
        return vec![*r.pick(&[0, 1, 255]); size];
    }
    let mut good = Good::default();
    let (corners, filled) = (shapes::convex(r, 3), r.below(4));
    good.area(r, corners);
    let of = good.areas[0].0;
    let mut b = good.records.concat();
    let last = if r.chance(2) { faulty(r, &good) } else { pair(of, of) };
    let fill = match filled {
        0 => place(of, X),
        1 => far(of, X),
        _ => pair(of, of),
    };
    while b.len() + fill.len() + last.len() <= size {
        b.extend(&fill);
    }
    b.extend(last);
    if r.chance(2) {
        b.resize(size, r.below(2) as u8);
    }
    b
}

/// Another value in one field of one record: its length, its kind, an area number or a coordinate.
fn damage_field(r: &mut Random, b: &mut [u8]) {
    let (kind, len) = (b[4], b.len() as u32 - 6);
    match r.below(if b.len() > 8 { 4 } else { 3 }) {
        0 => b[..4].copy_from_slice(&wrong_length(r, len).to_le_bytes()),
        1 => b[4..6].copy_from_slice(&r.pick(&[0_u16, 1, 2, 3, 4, 5, 257, 65_535]).to_le_bytes()),
        2 => b[6..8].copy_from_slice(&r.pick(&[0_u16, 1, 2, 3, 999, 65_535]).to_le_bytes()),
        _ if kind == 3 => b[8..10].copy_from_slice(&r.pick(&[0_u16, 1, 2, 3, 999, 65_535]).to_le_bytes()),
        _ => {
            let at = 8 + 8 * r.below((b.len() - 8) / 8);
            let x = f64::from_le_bytes(b[at..at + 8].try_into().unwrap());
            let odd = *r.pick(&[f64::NAN, f64::INFINITY, f64::NEG_INFINITY, -0.0, 2.0, 1e308, 5e-324]);
            let near = *r.pick(&[x + 2.0_f64.powi(-41), x + 2.0_f64.powi(-39), -x, x.next_up()]);
            let v: f64 = if r.chance(2) { odd } else { near };
            b[at..at + 8].copy_from_slice(&v.to_le_bytes());
        }
    }
}

/// A whole scene with one thing changed.
fn changed(r: &mut Random) -> (&'static str, Vec<u8>) {
    let mut rs = whole(r).records;
    if !rs.is_empty() && r.chance(2) {
        let i = r.below(rs.len());
        damage_field(r, &mut rs[i]);
        return ("with a field damaged", rs.concat());
    }
    let mut b = rs.concat();
    match r.below(3) {
        0 if !b.is_empty() => {
            let i = r.below(b.len());
            b[i] ^= 1 << r.below(8);
            ("with a bit changed", b)
        }
        1 => {
            b.extend(vec![0; 1 + r.below(6)]);
            ("with bytes after it", b)
        }
        _ => {
            b.truncate(r.below(b.len() + 1));
            ("cut short", b)
        }
    }
}

/// A scene's bytes, and in a word how they were made.
pub fn scene(r: &mut Random) -> (&'static str, Vec<u8>) {
    match r.below(100) {
        0..20 => ("whole", whole(r).records.concat()),
        20..35 => changed(r),
        35..40 => ("of areas found in each other", both_ways(r)),
        40..43 => ("about as long as may be", long(r)),
        _ => ("with a faulty record", with_faults(r)),
    }
}

/// The worked example (SCOPE 38) and a far of it, cut at every byte, and with each bit of it changed.
pub fn every_byte() -> Vec<(&'static str, Vec<u8>)> {
    let (y, z) = ([0.0, 1.0, 0.0], [0.0, 0.0, 1.0]);
    let places = [place(1, [0.48, 0.6, 0.64]), place(1, [0.6, 0.0, 0.8])].concat();
    let whole = [area(1, &[X, y, z]), area(2, &[X, y, [0.0, 0.0, -1.0]]), places, pair(1, 2), far(2, z)].concat();
    let cut = (0..=whole.len()).map(|n| ("the example, cut at every byte", whole[..n].to_vec()));
    let changed = (0..8 * whole.len()).map(|i| {
        let mut b = whole.clone();
        b[i / 8] ^= 1 << (i % 8);
        ("the example, each bit changed", b)
    });
    cut.chain(changed).collect()
}
