//! A scene as a function from bytes to text (SCOPE 28 to 30, 46 to 48, 52).
use crate::ask::{INSIDE, MUTE, placed};
use crate::build::{Built, build};
use crate::cut::triangles_checked;
use crate::far::far_of;
use crate::long::Mode;
use crate::loops::{EMPTY, FULL, Handed, Ring, read_loop};
use crate::pair::relate;
use crate::read::{HEADER, MOST, floats, position, put};
use jord::NVector;
use jord::spherical::Loop;
use std::fmt::Write;

pub const MOST_BYTES: usize = 65_536;
pub const MOST_AREAS: usize = 16;
pub const MOST_POSITIONS: usize = 1_024;

/// A refusal of a call that answers a size is this plus its number (SCOPE 48).
pub const SIZE_REFUSED: u64 = 1 << 32;

/// Bytes of a record before its body: the length of that, and the kind.
const HEAD: usize = 6;
const AREA: u16 = 1;
const PLACE: u16 = 2;
const PAIR: u16 = 3;
const FAR: u16 = 4;

const RELATIONS: [&str; 6] = ["disjoint", "touching", "intersecting", "containing", "within", "equal"];

/// What the last line says of a refused record, beside the record's own offset.
struct Refused {
    number: u32,
    /// The offset of the field at fault.
    field: usize,
    /// Of 3 and 4 the position's index in its list.
    index: Option<usize>,
}

/// What was made of a record, or why it is refused.
type Taken<T> = Result<T, Refused>;

fn refuse_at(given: bool, number: u32, field: usize) -> Taken<()> {
    if given { Err(Refused { number, field, index: None }) } else { Ok(()) }
}

fn u16_at(bytes: &[u8], at: usize) -> u16 {
    u16::from_le_bytes([bytes[at], bytes[at + 1]])
}

struct Record<'a> {
    /// The offset at which it begins.
    at: usize,
    kind: u16,
    body: &'a [u8],
}

/// The record at `at` (SCOPE 46): 20 where it is cut short, 21 where its kind is unknown, 22 where its length is wrong for that.
fn record(input: &[u8], at: usize) -> Taken<Record<'_>> {
    let rest = &input[at..];
    refuse_at(rest.len() < HEAD, 20, input.len())?;
    let length = u32::from_le_bytes(rest[..4].try_into().unwrap()) as usize;
    refuse_at(rest.len() - HEAD < length, 20, input.len())?;
    let kind = u16_at(rest, 4);
    refuse_at(![AREA, PLACE, PAIR, FAR].contains(&kind), 21, at + 4)?;
    let fits = match kind {
        AREA => length >= 2 && (length - 2) % 24 == 0,
        PLACE | FAR => length == 26,
        _ => length == 4,
    };
    refuse_at(!fits, 22, at)?;
    Ok(Record { at, kind, body: &rest[HEAD..HEAD + length] })
}

impl Record<'_> {
    /// Where the body starts: the field of a call's own refusal.
    fn body_at(&self) -> usize {
        self.at + HEAD
    }

    /// The first area number in the body, and the offset of its field.
    fn first(&self) -> (u16, usize) {
        (u16_at(self.body, 0), self.body_at())
    }

    /// All area numbers in the body, in their order, each with the offset of its field.
    fn numbers(&self) -> Vec<(u16, usize)> {
        let mut all = vec![self.first()];
        if self.kind == PAIR {
            all.push((u16_at(self.body, 2), self.body_at() + 2));
        }
        all
    }

    /// How many positions are given behind an area number.
    fn count(&self) -> usize {
        (self.body.len() - 2) / 24
    }

    /// The positions behind an area number, one by one: a call's own 3 and 4 say which one it is.
    fn positions(&self) -> Taken<Vec<NVector>> {
        let own = |i: usize, number| Refused { number, field: self.body_at(), index: Some(i) };
        let coordinates = floats(&self.body[2..]);
        coordinates.chunks(3).enumerate().map(|(i, c)| position(c).map_err(|number| own(i, number))).collect()
    }
}

struct Area {
    number: u16,
    handed: Handed,
    of: Loop,
}

#[derive(Default)]
struct Scene {
    areas: Vec<Area>,
    given: usize,
    text: String,
    /// Whether an answer left the domain of equality: a weak loop, or a pair that needed a midpoint.
    outside: bool,
}

/// The loop as the library hands it to the next call.
fn handed(b: &Built) -> Handed {
    let n = b.count();
    let mut bytes = vec![0; HEADER + 49 * n];
    bytes[..HEADER].copy_from_slice(&b.header());
    for i in 0..n {
        put(&mut bytes, HEADER + 24 * i, b.vertices[i].0.as_vec3());
        put(&mut bytes, HEADER + 24 * (n + i), b.edges[i].normal());
        bytes[HEADER + 48 * n + i] = b.vertices[i].1;
    }
    read_loop(&bytes).expect("a built loop is well formed")
}

fn triangle_count(b: &Built) -> usize {
    match b.state {
        EMPTY => 0,
        FULL => 20,
        _ => {
            let ring = Ring { state: b.state, vertices: b.vertices.clone() };
            triangles_checked(&ring).map_or(0, |t| t.len())
        }
    }
}

fn area_line(number: u16, b: &Built) -> String {
    let state = match b.state {
        EMPTY => "empty",
        FULL => "full",
        _ if b.is_mute() => "mute",
        _ => "ring",
    };
    let turned = if b.reversed { "reversed" } else { "kept" };
    let sure = if b.weak { "weak" } else { "steady" };
    format!("area {number} {} {state} {turned} {sure} {}", b.count(), triangle_count(b))
}

impl Scene {
    fn find(&self, number: u16) -> Option<&Area> {
        self.areas.iter().find(|a| a.number == number)
    }

    /// 23 to 27, the lowest first, whichever field it is of (SCOPE 47).
    fn judge(&self, r: &Record) -> Taken<()> {
        for (number, field) in r.numbers() {
            refuse_at(number == 0, 23, field)?;
        }
        if r.kind == AREA {
            let (number, field) = r.first();
            refuse_at(self.find(number).is_some(), 24, field)?;
            refuse_at(self.areas.len() == MOST_AREAS, 26, field)?;
            return refuse_at(self.given + r.count() > MOST_POSITIONS, 27, r.at);
        }
        for (number, field) in r.numbers() {
            refuse_at(self.find(number).is_none(), 25, field)?;
        }
        Ok(())
    }

    fn area(&mut self, r: &Record) -> Taken<()> {
        refuse_at(r.count() > MOST, 2, r.body_at())?;
        let number = r.first().0;
        let b = build(Mode::Plain, &r.positions()?);
        self.given += r.count();
        self.outside |= b.weak;
        writeln!(self.text, "{}", area_line(number, &b)).unwrap();
        let handed = handed(&b);
        let of = handed.judge().expect("a loop as built is refused by none (SCOPE 40)");
        self.areas.push(Area { number, handed, of });
        Ok(())
    }

    fn place(&mut self, r: &Record) -> Taken<()> {
        let number = r.first().0;
        let p = r.positions()?[0];
        let area = self.find(number).expect("it was judged");
        let word = match placed(&area.handed, &area.of, p) {
            MUTE => "mute",
            INSIDE => "inside",
            _ => "outside",
        };
        writeln!(self.text, "place {number} {word}").unwrap();
        Ok(())
    }

    /// The squared chord's bits, the highest digit first.
    fn far(&mut self, r: &Record) -> Taken<()> {
        let number = r.first().0;
        let p = r.positions()?[0];
        let far = far_of(&self.find(number).expect("it was judged").of, p);
        writeln!(self.text, "far {number} {:016X}", far.to_bits()).unwrap();
        Ok(())
    }

    fn pair(&mut self, r: &Record) -> Taken<()> {
        let (a, b) = (u16_at(r.body, 0), u16_at(r.body, 2));
        let of = |number| &self.find(number).expect("it was judged").of;
        let related = relate(of(a), of(b));
        self.outside |= related.outside;
        let own = |number| Refused { number, field: r.body_at(), index: None };
        let word = RELATIONS[related.answer.map_err(own)? as usize];
        writeln!(self.text, "pair {a} {b} {word}").unwrap();
        Ok(())
    }

    /// Takes the record at `at`, and says where the next one begins.
    fn take(&mut self, input: &[u8], at: usize) -> Taken<usize> {
        let r = record(input, at)?;
        self.judge(&r)?;
        match r.kind {
            AREA => self.area(&r)?,
            PLACE => self.place(&r)?,
            FAR => self.far(&r)?,
            _ => self.pair(&r)?,
        }
        Ok(r.body_at() + r.body.len())
    }
}

/// The last line of a scene that is refused at the record at `at`.
fn refused_line(at: usize, r: &Refused) -> String {
    let index = r.index.map_or(String::new(), |i| format!(" {i}"));
    format!("refused {} at {at} {}{index}", r.number, r.field)
}

/// A scene's text, and whether an answer in it left the domain of equality.
pub fn scene(input: &[u8]) -> (String, bool) {
    let mut s = Scene::default();
    let (mut at, mut records) = (0, 0);
    let mut judged = refuse_at(input.len() > MOST_BYTES, 28, MOST_BYTES);
    while judged.is_ok() && at < input.len() {
        judged = s.take(input, at).map(|next| {
            at = next;
            records += 1;
        });
    }
    let last = match judged {
        Ok(()) => format!("end {records}"),
        Err(refused) => refused_line(at, &refused),
    };
    writeln!(s.text, "{last}").unwrap();
    (s.text, s.outside)
}

/// A scene's text into a lent buffer: how many bytes it has; 5 where it does not fit, and then nothing is written (SCOPE 48).
pub fn lay(text: &str, out: &mut [u8]) -> u64 {
    if out.len() < text.len() {
        return SIZE_REFUSED + 5;
    }
    out[..text.len()].copy_from_slice(text.as_bytes());
    text.len() as u64
}

pub fn desk_scene(input: &[u8], out: &mut [u8]) -> u64 {
    lay(&scene(input).0, out)
}

#[cfg(test)]
mod tests {
    use super::{MOST_BYTES, desk_scene, scene};

    type P = [f64; 3];

    const X: P = [1.0, 0.0, 0.0];
    const Y: P = [0.0, 1.0, 0.0];
    const Z: P = [0.0, 0.0, 1.0];
    const NAN: P = [f64::NAN, 0.0, 0.0];
    const FAR: P = [2.0, 0.0, 0.0];

    fn record(kind: u16, body: &[u8]) -> Vec<u8> {
        [&(body.len() as u32).to_le_bytes()[..], &kind.to_le_bytes(), body].concat()
    }

    fn body(number: u16, ps: &[P]) -> Vec<u8> {
        let mut b = number.to_le_bytes().to_vec();
        b.extend(ps.iter().flatten().flat_map(|c| c.to_le_bytes()));
        b
    }

    fn area(number: u16, ps: &[P]) -> Vec<u8> {
        record(1, &body(number, ps))
    }

    fn place(number: u16, p: P) -> Vec<u8> {
        record(2, &body(number, &[p]))
    }

    fn far(number: u16, p: P) -> Vec<u8> {
        record(4, &body(number, &[p]))
    }

    fn pair(a: u16, b: u16) -> Vec<u8> {
        record(3, &[a.to_le_bytes(), b.to_le_bytes()].concat())
    }

    /// Area 1, 80 bytes.
    fn one() -> Vec<u8> {
        area(1, &[X, Y, Z])
    }

    /// Empty areas 1 to n, 8 bytes each.
    fn empty(n: u16) -> Vec<u8> {
        (1..=n).flat_map(|k| area(k, &[])).collect()
    }

    fn last(scene_bytes: &[u8]) -> String {
        scene(scene_bytes).0.lines().last().unwrap().to_string()
    }

    /// What a scene ends in whose record at offset 80, after area 1, is this one.
    fn after_one(bytes: &[u8]) -> String {
        let whole = [&one()[..], bytes, &pair(1, 1)].concat();
        let text = scene(&whole).0;
        assert!(text.starts_with("area 1 3 ring reversed steady 1\n"), "{text}");
        last(&whole)
    }

    /// The worked example (SCOPE 38).
    #[test]
    fn worked_example() {
        let mut input = one();
        input.extend(area(2, &[X, Y, [0.0, 0.0, -1.0]]));
        input.extend(place(1, [0.48, 0.6, 0.64]));
        input.extend(place(1, [0.6, 0.0, 0.8]));
        input.extend(pair(1, 2));
        assert_eq!(input.len(), 234);
        let expected = "area 1 3 ring reversed steady 1\narea 2 3 ring kept steady 1\n\
                        place 1 inside\nplace 1 outside\npair 1 2 touching\nend 5\n";
        assert_eq!(scene(&input), (expected.to_string(), false));
        assert_eq!(scene(&[]).0, "end 0\n");
    }

    /// Sixteen digits of upper case, of an area without corners too.
    #[test]
    fn how_far() {
        let fars = [far(1, [0.48, 0.6, 0.64]), far(1, X), area(7, &[]), far(7, Z)].concat();
        let text = scene(&[one(), fars].concat()).0;
        let lines = [
            "area 1 3 ring reversed steady 1",
            "far 1 3FCF6B55165238B9",
            "far 1 0000000000000000",
            "area 7 0 empty kept steady 0",
            "far 7 0000000000000000",
        ];
        assert_eq!(text, format!("{}\nend 5\n", lines.join("\n")));
    }

    #[test]
    fn too_many_bytes_is_28_and_comes_first() {
        let mut whole = one();
        while whole.len() + 10 <= MOST_BYTES {
            whole.extend(pair(1, 1));
        }
        assert_eq!(last(&whole), "end 6546");
        whole.resize(MOST_BYTES, 0);
        assert_eq!(last(&whole), "refused 21 at 65530 65534");
        whole.push(0);
        assert_eq!(scene(&whole).0, "refused 28 at 0 65536\n");
        assert_eq!(scene(&[255; 65_537]).0, "refused 28 at 0 65536\n");
        assert_eq!(scene(&vec![0; 300_000]).0, "refused 28 at 0 65536\n");
    }

    #[test]
    fn cut_short_is_20() {
        for left in 1..6 {
            assert_eq!(last(&[one(), vec![0; left]].concat()), format!("refused 20 at 80 {}", 80 + left));
            assert_eq!(last(&vec![255; left]), format!("refused 20 at 0 {left}"));
        }
        for n in 6..10 {
            assert_eq!(last(&[&one()[..], &pair(1, 1)[..n]].concat()), format!("refused 20 at 80 {}", 80 + n));
        }
        for length in [5_u32, 65_536, 1 << 31, u32::MAX - 6, u32::MAX - 5, u32::MAX - 1, u32::MAX] {
            let mut r = pair(1, 1);
            r[..4].copy_from_slice(&length.to_le_bytes());
            assert_eq!(last(&[one(), r.clone()].concat()), "refused 20 at 80 90");
            assert_eq!(last(&r), "refused 20 at 0 10");
        }
    }

    /// A kind, a length and a number are not looked at in a record that is cut short.
    #[test]
    fn cut_short_comes_before_all_else() {
        for r in [
            record(9, &[1, 0]),
            record(3, &[1, 0, 0]),
            pair(0, 1),
            area(0, &[X]),
            area(1, &[NAN]),
            place(9, FAR),
            far(9, NAN),
        ] {
            for n in 1..r.len() {
                assert_eq!(last(&[&one()[..], &r[..n]].concat()), format!("refused 20 at 80 {}", 80 + n));
            }
        }
    }

    #[test]
    fn unknown_kind_is_21() {
        for kind in [0, 5, 9, 256, 257, 258, 259, 260, 512, 1_024, 65_535] {
            for body in [&[][..], &[0, 0], &[1, 0, 1, 0], &[0; 26]] {
                assert_eq!(after_one(&record(kind, body)), "refused 21 at 80 84");
            }
        }
        assert_eq!(last(&record(5, &[])), "refused 21 at 0 4");
    }

    #[test]
    fn wrong_length_is_22() {
        let wrong: [(u16, &[usize]); 4] = [
            (1, &[0, 1, 3, 24, 25, 27, 48, 49, 51, 24_577]),
            (2, &[0, 2, 24, 25, 27, 50]),
            (3, &[0, 2, 3, 5, 6, 8, 26]),
            (4, &[0, 2, 4, 24, 25, 27, 50]),
        ];
        for (kind, lengths) in wrong {
            for n in lengths {
                // Zeros: its numbers are 0, and come later.
                assert_eq!(after_one(&record(kind, &vec![0; *n])), "refused 22 at 80 80");
                assert_eq!(after_one(&record(kind, &vec![1; *n])), "refused 22 at 80 80");
            }
        }
    }

    #[test]
    fn zero_is_23() {
        for r in
            [area(0, &[]), area(0, &[X, Y, Z]), area(0, &[NAN]), place(0, Z), place(0, NAN), far(0, NAN), pair(0, 1)]
        {
            assert_eq!(after_one(&r), "refused 23 at 80 86");
            assert_eq!(last(&r), "refused 23 at 0 6");
        }
        assert_eq!(after_one(&pair(1, 0)), "refused 23 at 80 88");
        assert_eq!(after_one(&pair(0, 0)), "refused 23 at 80 86");
    }

    /// Within a record the lowest number comes first, whichever field it is of.
    #[test]
    fn zero_comes_before_not_met() {
        assert_eq!(after_one(&pair(9, 0)), "refused 23 at 80 88");
        assert_eq!(after_one(&pair(0, 9)), "refused 23 at 80 86");
        assert_eq!(last(&pair(9, 0)), "refused 23 at 0 8");
    }

    #[test]
    fn a_number_again_is_24() {
        assert_eq!(after_one(&one()), "refused 24 at 80 86");
        assert_eq!(after_one(&area(1, &[NAN])), "refused 24 at 80 86");
        assert_eq!(after_one(&area(1, &[NAN; 1_025])), "refused 24 at 80 86");
        assert_eq!(after_one(&area(2, &[])), "end 3");
    }

    #[test]
    fn not_met_is_25() {
        assert_eq!(after_one(&place(2, Z)), "refused 25 at 80 86");
        assert_eq!(after_one(&place(2, NAN)), "refused 25 at 80 86");
        assert_eq!(after_one(&far(2, Z)), "refused 25 at 80 86");
        assert_eq!(after_one(&far(2, NAN)), "refused 25 at 80 86");
        assert_eq!(after_one(&pair(2, 1)), "refused 25 at 80 86");
        assert_eq!(after_one(&pair(1, 2)), "refused 25 at 80 88");
        assert_eq!(after_one(&pair(2, 3)), "refused 25 at 80 86");
        assert_eq!(after_one(&pair(2, 2)), "refused 25 at 80 86");
        assert_eq!(after_one(&pair(1, 256)), "refused 25 at 80 88");
        // One that comes later is not met yet.
        assert_eq!(last(&[pair(1, 1), one()].concat()), "refused 25 at 0 6");
    }

    #[test]
    fn an_area_to_itself_is_allowed() {
        assert_eq!(scene(&[one(), pair(1, 1)].concat()).0, "area 1 3 ring reversed steady 1\npair 1 1 equal\nend 2\n");
    }

    #[test]
    fn a_17th_area_is_26() {
        let full = |r: Vec<u8>| last(&[empty(16), r].concat());
        assert_eq!(full(pair(1, 16)), "end 17");
        assert_eq!(full(area(17, &[])), "refused 26 at 128 134");
        assert_eq!(full(area(17, &[NAN])), "refused 26 at 128 134");
        assert_eq!(full(area(17, &[X; 1_025])), "refused 26 at 128 134");
        assert_eq!(full(area(16, &[])), "refused 24 at 128 134");
        assert_eq!(full(area(1, &[X; 1_025])), "refused 24 at 128 134");
        assert_eq!(full(area(0, &[X; 1_025])), "refused 23 at 128 134");
        assert_eq!(full(record(1, &[0; 25])), "refused 22 at 128 128");
    }

    #[test]
    fn too_many_positions_is_27() {
        let most = [area(1, &[X; 512]), area(2, &[X; 511])].concat();
        let then = |r: Vec<u8>| last(&[&most[..], &r].concat());
        assert_eq!(most.len(), 24_568);
        assert_eq!(then(area(3, &[X])), "end 3");
        assert_eq!(then([area(3, &[X]), area(4, &[]), place(1, X), far(2, X), pair(1, 2)].concat()), "end 7");
        assert_eq!(then([far(1, X), place(1, X), far(2, X), area(3, &[X])].concat()), "end 6");
        assert_eq!(then([area(3, &[X]), area(4, &[X])].concat()), "refused 27 at 24600 24600");
        assert_eq!(then(area(3, &[X, X])), "refused 27 at 24568 24568");
        assert_eq!(then(area(3, &[NAN, X])), "refused 27 at 24568 24568");
        assert_eq!(then(area(3, &[X; 513])), "refused 27 at 24568 24568");
        assert_eq!(then(area(2, &[X, X])), "refused 24 at 24568 24574");
        assert_eq!(then(area(0, &[X, X])), "refused 23 at 24568 24574");
        assert_eq!(last(&area(1, &[X; 1_025])), "refused 27 at 0 0");
        assert_eq!(last(&area(1, &[NAN; 1_025])), "refused 27 at 0 0");
        assert_eq!(last(&area(1, &[X; 1_024])), "refused 2 at 0 6");
    }

    /// Positions count as they are given, a closing one too, and those of empty areas.
    #[test]
    fn given_positions_count() {
        let mut closed: Vec<P> = (0..511).map(|k| if k % 2 == 0 { X } else { Y }).collect();
        closed.push(X);
        let two = [area(1, &closed), area(2, &[X, X]), area(3, &[X; 509])].concat();
        assert_eq!(last(&[&two[..], &area(4, &[Z])].concat()), "end 4");
        assert!(last(&[&two[..], &area(4, &[Z, Z])].concat()).starts_with("refused 27 at "));
        closed.push(X);
        assert_eq!(last(&area(1, &closed)), "refused 2 at 0 6");
    }

    #[test]
    fn a_calls_own_is_at_the_body() {
        assert_eq!(after_one(&area(2, &[X; 513])), "refused 2 at 80 86");
        assert_eq!(after_one(&area(2, &[NAN; 513])), "refused 2 at 80 86");
        let seven =
            [area(1, &[[-0.8, 0.0, -0.6], X, [0.64, -0.48, 0.6]]), area(2, &[[0.0, -1.0, 0.0], Z, X]), pair(1, 2)];
        assert_eq!(last(&seven.concat()), "refused 7 at 160 166");
        assert_eq!(after_one(&area(2, &[X, Y, FAR, Z])), "refused 4 at 80 86 2");
        assert_eq!(last(&area(2, &[X, Y, NAN])), "refused 3 at 0 6 2");
    }

    /// The first faulty position of the list as given; 3 before 4 of one position.
    #[test]
    fn the_index_is_of_the_first_faulty_position() {
        let infinite = [0.0, 0.0, f64::NEG_INFINITY];
        assert_eq!(after_one(&area(2, &[NAN, FAR, X])), "refused 3 at 80 86 0");
        assert_eq!(after_one(&area(2, &[X, FAR, NAN])), "refused 4 at 80 86 1");
        assert_eq!(after_one(&area(2, &[X, infinite, FAR, NAN])), "refused 3 at 80 86 1");
        assert_eq!(after_one(&area(2, &[X, [2.0, 0.0, f64::NAN]])), "refused 3 at 80 86 1");
        assert_eq!(after_one(&area(2, &[FAR, X, Y, FAR])), "refused 4 at 80 86 0");
        assert_eq!(after_one(&area(2, &[X, Y, Z, X, [0.0; 3]])), "refused 4 at 80 86 4");
        let mut long = [X; 512];
        long[511] = FAR;
        assert_eq!(after_one(&area(2, &long)), "refused 4 at 80 86 511");
        long[510] = NAN;
        assert_eq!(after_one(&area(2, &long)), "refused 3 at 80 86 510");
    }

    /// A query is a list of one, so that a number has one shape of line.
    #[test]
    fn a_query_says_index_0() {
        assert_eq!(after_one(&place(1, NAN)), "refused 3 at 80 86 0");
        assert_eq!(after_one(&place(1, [0.0, f64::INFINITY, 0.0])), "refused 3 at 80 86 0");
        assert_eq!(after_one(&place(1, FAR)), "refused 4 at 80 86 0");
        assert_eq!(after_one(&place(1, [0.0; 3])), "refused 4 at 80 86 0");
        assert_eq!(after_one(&far(1, NAN)), "refused 3 at 80 86 0");
        assert_eq!(after_one(&far(1, FAR)), "refused 4 at 80 86 0");
    }

    #[test]
    fn the_text_needs_room() {
        for input in [one(), area(0, &[]), Vec::new()] {
            let text = scene(&input).0;
            let n = text.len();
            let mut out = vec![7; n + 9];
            assert_eq!(desk_scene(&input, &mut out[..n - 1]), (1 << 32) + 5);
            assert_eq!(desk_scene(&input, &mut []), (1 << 32) + 5);
            assert_eq!(out, vec![7; n + 9]);
            assert_eq!(desk_scene(&input, &mut out), n as u64);
            assert_eq!((&out[..n], &out[n..]), (text.as_bytes(), &[7; 9][..]));
            assert_eq!(desk_scene(&input, &mut out[..n]), n as u64);
        }
    }
}
