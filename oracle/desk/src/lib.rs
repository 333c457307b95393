//! The desk's exports for Rust. `raw` has one safe call per export, on slices and numbers; the types over it own their bytes.
//! The library is x86-64 code; where it is not linked, or an export is not in it, a raw call answers `None` and the others
//! `Error::Absent`.
#![warn(missing_docs)]

use std::fmt::{self, Display, Formatter};

pub mod raw;

/// The number of a refusal: docs/REFUSALS.md, and the constants of exports/desk.h.
#[derive(Clone, Copy, Debug, PartialEq, Eq, Hash)]
pub struct Refusal(pub u32);

impl Refusal {
    /// What the number means.
    pub fn words(self) -> &'static str {
        match self.0 {
            1 => "a slice has a length that cannot be, or a loop's count does not fit its state",
            2 => "more than 512 positions",
            3 => "a component is NaN or infinite",
            4 => "a position is not a unit vector",
            5 => "an output is shorter than the result needs",
            6 => "a class above 2 in a loop handed back",
            7 => "each of two loops is found in the other",
            8 => "the ring cannot be cut into triangles",
            9 => "triangles of an empty or full loop cannot be checked",
            11 => "one of two loops is of the plain mode, the other of the long one",
            20 => "a record is cut short",
            21 => "a record's kind is unknown",
            22 => "a record's length is wrong for its kind",
            23 => "an area number is zero",
            24 => "an area has the number of another",
            25 => "an area is named that no earlier record brought",
            26 => "more than 16 areas",
            27 => "more than 1,024 positions in all areas",
            28 => "more than 65,536 bytes of a scene",
            _ => "a refusal that this crate does not know",
        }
    }
}

impl Display for Refusal {
    fn fmt(&self, f: &mut Formatter) -> fmt::Result {
        write!(f, "refused {}: {}", self.0, self.words())
    }
}

/// Why there is no answer.
#[derive(Clone, Copy, Debug, PartialEq, Eq)]
pub enum Error {
    /// The desk refused.
    Refused(Refusal),
    /// The export is not linked.
    Absent,
    /// A text that the desk does not write for a scene.
    Broken,
}

impl Display for Error {
    fn fmt(&self, f: &mut Formatter) -> fmt::Result {
        match self {
            Error::Refused(r) => r.fmt(f),
            Error::Absent => f.write_str("the desk's library is not linked, or it has no such export"),
            Error::Broken => f.write_str("the text is none of a scene"),
        }
    }
}

impl std::error::Error for Error {}

/// An answer of the desk.
pub type Answered<T> = Result<T, Error>;

/// The most positions of a list, and corners of a ring.
pub const MOST_POSITIONS: usize = 512;

/// The most bytes of a scene.
pub const MOST_SCENE_BYTES: usize = 65_536;

/// Room for the text of any scene.
pub const MOST_TEXT_BYTES: usize = 196_989;

const REFUSED: u32 = 65_536;
const SIZE_REFUSED: u64 = 1 << 32;
const HEADER: usize = 88;

fn answered(word: Option<u32>) -> Answered<u32> {
    match word {
        None => Err(Error::Absent),
        Some(w) if w >= REFUSED => Err(Error::Refused(Refusal(w - REFUSED))),
        Some(w) => Ok(w),
    }
}

/// A size may be 65,536 or more, so that its refusals begin higher up.
fn sized(word: Option<u64>) -> Answered<usize> {
    match word {
        None => Err(Error::Absent),
        Some(w) if w >= SIZE_REFUSED => Err(Error::Refused(Refusal((w - SIZE_REFUSED) as u32))),
        Some(w) => Ok(w as usize),
    }
}

fn yes(word: Option<u32>) -> Answered<bool> {
    answered(word).map(|w| w == 1)
}

/// A position: a unit vector.
pub type Position = [f64; 3];

fn bytes(p: Position) -> [u8; 24] {
    let mut b = [0; 24];
    for (i, c) in p.iter().enumerate() {
        b[8 * i..8 * i + 8].copy_from_slice(&c.to_le_bytes());
    }
    b
}

fn position(b: &[u8]) -> Position {
    std::array::from_fn(|i| f64::from_le_bytes(b[8 * i..8 * i + 8].try_into().unwrap()))
}

/// How long a chord is, kept as its square, from 0 to 4. It orders distances as their angles do, but it is no angle: `to_angle` has that.
#[derive(Clone, Copy, Debug, PartialEq, PartialOrd)]
pub struct ChordLength(f64);

impl ChordLength {
    /// A squared chord that is known; no number is refused here.
    pub fn of_length2(length2: f64) -> ChordLength {
        ChordLength(length2)
    }

    /// The chord's square.
    pub fn length2(self) -> f64 {
        self.0
    }

    /// The angle from one end of the chord to the other, seen from the centre: -1 radians of a square below 0, NaN of one that is too large.
    pub fn to_angle(self) -> Answered<Angle> {
        let radians = raw::desk_radians(self.0.to_bits()).ok_or(Error::Absent)?;
        Ok(Angle(f64::from_bits(radians)))
    }
}

impl Display for ChordLength {
    fn fmt(&self, f: &mut Formatter) -> fmt::Result {
        write!(f, "squared chord {}", self.0)
    }
}

/// An angle.
#[derive(Clone, Copy, Debug, PartialEq, PartialOrd)]
pub struct Angle(f64);

impl Angle {
    /// In radians.
    pub fn as_radians(self) -> f64 {
        self.0
    }
}

impl Display for Angle {
    fn fmt(&self, f: &mut Formatter) -> fmt::Result {
        write!(f, "{} radians", self.0)
    }
}

/// The squared chord that a call wrote.
fn chord(word: Option<u32>, out: [u8; 8]) -> Answered<ChordLength> {
    answered(word).map(|_| ChordLength(f64::from_le_bytes(out)))
}

/// The 12 positions that a full loop's triangles number.
pub fn full_positions() -> Answered<[Position; 12]> {
    let mut out = [0.0; 36];
    answered(raw::desk_full_positions(&mut out))?;
    Ok(std::array::from_fn(|i| [out[3 * i], out[3 * i + 1], out[3 * i + 2]]))
}

/// How arcs meet, a loop's edges among them. Two great circles meet in a point and its opposite.
#[derive(Clone, Copy, Debug, Default, PartialEq, Eq, Hash)]
pub enum Mode {
    /// The point on the side of the first arc's start is the only one tried, and a loop's cap is asked first. A meeting a quarter circle or
    /// more from that start is missed, so this is for arcs, and for loops across, below a quarter circle.
    #[default]
    Plain,
    /// Both points are tried, and no cap is asked.
    Long,
}

impl Display for Mode {
    fn fmt(&self, f: &mut Formatter) -> fmt::Result {
        f.write_str(match self {
            Mode::Plain => "plain",
            Mode::Long => "long",
        })
    }
}

/// Where a position lies. One on the border, a corner or on an edge, may be told inside or outside: `has_vertex` and
/// `any_edge_contains` tell of the border.
#[derive(Clone, Copy, Debug, PartialEq, Eq)]
pub enum Place {
    /// Outside.
    Outside,
    /// Inside.
    Inside,
    /// The loop cannot tell: a ring above three corners without insides. This is not `Outside`.
    Mute,
}

impl Display for Place {
    fn fmt(&self, f: &mut Formatter) -> fmt::Result {
        f.write_str(match self {
            Place::Outside => "outside",
            Place::Inside => "inside",
            Place::Mute => "mute",
        })
    }
}

/// How two loops stand to each other. With a mute or a weak loop none of these is sure: a mute one contains nothing here, and which side
/// of a weak one is inside hangs on rounding.
#[derive(Clone, Copy, Debug, PartialEq, Eq)]
pub enum Relation {
    /// No point shared.
    Disjoint,
    /// Borders meet, interiors do not.
    Touching,
    /// Borders cross.
    Intersecting,
    /// The other lies within this one; their borders may meet.
    Containing,
    /// This one lies within the other; their borders may meet.
    Within,
    /// The same border.
    Equal,
}

impl Display for Relation {
    fn fmt(&self, f: &mut Formatter) -> fmt::Result {
        f.write_str(match self {
            Relation::Disjoint => "disjoint",
            Relation::Touching => "touching",
            Relation::Intersecting => "intersecting",
            Relation::Containing => "containing",
            Relation::Within => "within",
            Relation::Equal => "equal",
        })
    }
}

/// A built loop, in the exports' bytes.
#[derive(Clone, Debug, PartialEq, Eq)]
pub struct Loop(Vec<u8>);

impl Loop {
    /// Builds a loop from a list of positions, in plain mode.
    pub fn build(list: &[Position]) -> Answered<Loop> {
        Loop::build_in(Mode::Plain, list)
    }

    /// Builds a loop of that mode: long where a side, or the loop across, may be a quarter circle or more, and for whatever is to be related to
    /// such a loop.
    pub fn build_in(mode: Mode, list: &[Position]) -> Answered<Loop> {
        let given: Vec<u8> = list.iter().flat_map(|p| bytes(*p)).collect();
        let mut out = vec![0; HEADER + 49 * list.len()];
        let n = answered(match mode {
            Mode::Plain => raw::desk_build(&given, &mut out),
            Mode::Long => raw::desk_build_long(&given, &mut out),
        })?;
        out.truncate(HEADER + 49 * n as usize);
        Ok(Loop(out))
    }

    /// The bytes: header, positions, normals, classes.
    pub fn bytes(&self) -> &[u8] {
        &self.0
    }

    /// The number of corners: 0 for the empty and the full loop.
    pub fn count(&self) -> usize {
        usize::from(u16::from_le_bytes([self.0[0], self.0[1]]))
    }

    /// Whether the loop is empty: no position lies in it.
    pub fn is_empty(&self) -> bool {
        self.0[2] == 0
    }

    /// Whether the loop is full: every position lies in it.
    pub fn is_full(&self) -> bool {
        self.0[2] == 1
    }

    /// Whether the loop cannot tell what lies in it: a ring above three corners without insides.
    pub fn is_mute(&self) -> bool {
        self.count() > 3 && self.0[3] & 4 == 0
    }

    /// Whether the list was reversed.
    pub fn reversed(&self) -> bool {
        self.0[3] & 1 != 0
    }

    /// Whether the turn sum is too small to be sure of the direction.
    pub fn weak(&self) -> bool {
        self.0[3] & 2 != 0
    }

    /// The mode that the loop was built in, which its places, its relations and `is_simple` go by.
    pub fn mode(&self) -> Mode {
        if self.0[3] & 8 != 0 { Mode::Long } else { Mode::Plain }
    }

    /// The corner of that number, counted from 0; none from `count` on.
    pub fn vertex(&self, i: usize) -> Option<Position> {
        (i < self.count()).then(|| position(&self.0[HEADER + 24 * i..]))
    }

    /// Where a position lies.
    pub fn place(&self, p: Position) -> Answered<Place> {
        Ok(match answered(raw::desk_place(&self.0, &bytes(p)))? {
            0 => Place::Outside,
            1 => Place::Inside,
            _ => Place::Mute,
        })
    }

    /// How far a position is from the border, inside or outside: 0 from an empty and from a full loop, which have none. Next to a corner it
    /// may be off by last bits.
    pub fn distance_to_boundary(&self, p: Position) -> Answered<ChordLength> {
        let mut out = [0; 8];
        chord(raw::desk_far(&self.0, &bytes(p), &mut out), out)
    }

    /// How this loop stands to another of the same mode; one of the other mode is refused with 11.
    pub fn relate(&self, o: &Loop) -> Answered<Relation> {
        Ok(match answered(raw::desk_pair(&self.0, &o.0))? {
            0 => Relation::Disjoint,
            1 => Relation::Touching,
            2 => Relation::Intersecting,
            3 => Relation::Containing,
            4 => Relation::Within,
            _ => Relation::Equal,
        })
    }

    /// Triangles of ring numbers; a full loop's are numbers of `full_positions`.
    pub fn triangulate(&self) -> Answered<Vec<[u16; 3]>> {
        let room = if self.is_full() { 20 } else { self.count().saturating_sub(2) };
        let mut out = vec![0; 6 * room];
        let n = answered(raw::desk_triangles(&self.0, &mut out))? as usize;
        let number = |b: &[u8]| u16::from_le_bytes([b[0], b[1]]);
        Ok(out[..6 * n].chunks(6).map(|t| [number(&t[0..2]), number(&t[2..4]), number(&t[4..6])]).collect())
    }

    /// Whether the triangles are cuts at eligible ears.
    pub fn accepts(&self, triangles: &[[u16; 3]]) -> Answered<bool> {
        let b: Vec<u8> = triangles.iter().flatten().flat_map(|n| n.to_le_bytes()).collect();
        yes(raw::desk_accepts(&self.0, &b))
    }

    /// Whether the loop is convex.
    pub fn is_convex(&self) -> Answered<bool> {
        yes(raw::desk_convex(&self.0))
    }

    /// Whether no two of its edges cross and each is a proper arc.
    pub fn is_simple(&self) -> Answered<bool> {
        yes(raw::desk_simple(&self.0))
    }

    /// Whether the position is a corner.
    pub fn has_vertex(&self, p: Position) -> Answered<bool> {
        yes(raw::desk_vertex(&self.0, &bytes(p)))
    }

    /// Whether the position is on an edge.
    pub fn any_edge_contains(&self, p: Position) -> Answered<bool> {
        yes(raw::desk_on_edge(&self.0, &bytes(p)))
    }

    /// Whether the loops have the same corners and classes, whatever the start and direction, and whatever the modes.
    pub fn is_equivalent(&self, o: &Loop) -> Answered<bool> {
        yes(raw::desk_equivalent(&self.0, &o.0))
    }
}

impl Display for Loop {
    fn fmt(&self, f: &mut Formatter) -> fmt::Result {
        let state = match (self.0[2], self.is_mute()) {
            (0, _) => "empty",
            (1, _) => "full",
            (_, true) => "mute ring",
            _ => "ring",
        };
        let turned = if self.reversed() { "reversed" } else { "kept" };
        let sure = if self.weak() { "weak" } else { "steady" };
        write!(f, "{state} of {} corners, {turned}, {sure}", self.count())?;
        if self.mode() == Mode::Long { f.write_str(", long") } else { Ok(()) }
    }
}

/// The side of an arc.
#[derive(Clone, Copy, Debug, PartialEq, Eq)]
pub enum Side {
    /// On the arc's great circle.
    Collinear,
    /// Left of it.
    Left,
    /// Right of it.
    Right,
}

impl Display for Side {
    fn fmt(&self, f: &mut Formatter) -> fmt::Result {
        f.write_str(match self {
            Side::Collinear => "collinear",
            Side::Left => "left",
            Side::Right => "right",
        })
    }
}

/// How two arcs stand to each other.
#[derive(Clone, Copy, Debug, PartialEq)]
pub enum ArcRelation {
    /// No point shared.
    Disjoint,
    /// They cross at this position.
    Intersecting(Position),
    /// They meet at this end of one of them.
    Touching(Position),
    /// They share this arc.
    Overlapping(Arc),
}

fn coordinates(f: &mut Formatter, p: Position) -> fmt::Result {
    write!(f, "({}, {}, {})", p[0], p[1], p[2])
}

impl Display for ArcRelation {
    fn fmt(&self, f: &mut Formatter) -> fmt::Result {
        match self {
            ArcRelation::Disjoint => f.write_str("disjoint"),
            ArcRelation::Intersecting(p) => f.write_str("intersecting at ").and_then(|()| coordinates(f, *p)),
            ArcRelation::Touching(p) => f.write_str("touching at ").and_then(|()| coordinates(f, *p)),
            ArcRelation::Overlapping(a) => write!(f, "overlapping along {a}"),
        }
    }
}

/// An arc of a great circle, in the exports' bytes.
#[derive(Clone, Copy, Debug, PartialEq)]
pub struct Arc([u8; 72]);

impl Arc {
    /// The arc from start to end.
    pub fn new(start: Position, end: Position) -> Answered<Arc> {
        let mut out = [0; 72];
        answered(raw::desk_arc(&bytes(start), &bytes(end), &mut out))?;
        Ok(Arc(out))
    }

    /// Where it starts.
    pub fn start(&self) -> Position {
        position(&self.0[..24])
    }

    /// Where it ends.
    pub fn end(&self) -> Position {
        position(&self.0[24..48])
    }

    /// Its normal.
    pub fn normal(&self) -> Position {
        position(&self.0[48..])
    }

    /// The same arc walked backwards.
    pub fn opposite(&self) -> Answered<Arc> {
        let mut out = [0; 72];
        answered(raw::desk_arc_opposite(&self.0, &mut out))?;
        Ok(Arc(out))
    }

    /// The side on which a position lies.
    pub fn side_of(&self, p: Position) -> Answered<Side> {
        Ok(match answered(raw::desk_arc_side(&self.0, &bytes(p)))? {
            0 => Side::Collinear,
            1 => Side::Left,
            _ => Side::Right,
        })
    }

    /// Whether the position is on the arc.
    pub fn contains(&self, p: Position) -> Answered<bool> {
        yes(raw::desk_arc_contains(&self.0, &bytes(p)))
    }

    /// How far a position is from the arc.
    pub fn distance_to(&self, p: Position) -> Answered<ChordLength> {
        let mut out = [0; 8];
        chord(raw::desk_arc_far(&self.0, &bytes(p), &mut out), out)
    }

    /// Where two arcs meet, if they do in one point, in plain mode.
    pub fn intersection(&self, o: &Arc) -> Answered<Option<Position>> {
        self.intersection_in(Mode::Plain, o)
    }

    /// Where two arcs meet in that mode, if they do in one point.
    pub fn intersection_in(&self, mode: Mode, o: &Arc) -> Answered<Option<Position>> {
        let mut out = [0; 24];
        let found = yes(match mode {
            Mode::Plain => raw::desk_arc_intersection(&self.0, &o.0, &mut out),
            Mode::Long => raw::desk_arc_intersection_long(&self.0, &o.0, &mut out),
        })?;
        Ok(found.then(|| position(&out)))
    }

    /// How two arcs stand to each other in plain mode.
    pub fn relate(&self, o: &Arc) -> Answered<ArcRelation> {
        self.relate_in(Mode::Plain, o)
    }

    /// How two arcs stand to each other in that mode; what collinear ones share is the same in both.
    pub fn relate_in(&self, mode: Mode, o: &Arc) -> Answered<ArcRelation> {
        let mut out = [0; 72];
        let relation = answered(match mode {
            Mode::Plain => raw::desk_arc_relate(&self.0, &o.0, &mut out),
            Mode::Long => raw::desk_arc_relate_long(&self.0, &o.0, &mut out),
        })?;
        Ok(match relation {
            0 => ArcRelation::Disjoint,
            1 => ArcRelation::Intersecting(position(&out[..24])),
            2 => ArcRelation::Touching(position(&out[..24])),
            _ => ArcRelation::Overlapping(Arc(out)),
        })
    }
}

impl Display for Arc {
    fn fmt(&self, f: &mut Formatter) -> fmt::Result {
        coordinates(f, self.start())?;
        f.write_str(" to ")?;
        coordinates(f, self.end())
    }
}

/// What the desk says of a scene, as the program `scene` prints it: a line for each record, and a last one for how it ended.
/// A refused scene is an answer, too: `Ending` reads which record it was, and why.
pub fn scene(records: &[u8]) -> Answered<String> {
    let mut out = vec![0; MOST_TEXT_BYTES];
    let n = sized(raw::desk_scene(records, &mut out))?;
    out.truncate(n);
    String::from_utf8(out).map_err(|_| Error::Broken)
}

/// How a scene ended, by the last line of its text.
#[derive(Clone, Copy, Debug, PartialEq, Eq)]
pub enum Ending {
    /// Every record was answered.
    Ended {
        /// How many there were.
        records: u32,
    },
    /// A record was refused, and nothing after it was read.
    Refused {
        /// Why.
        refusal: Refusal,
        /// The offset of the record.
        record: u32,
        /// The offset of the field at fault.
        field: u32,
        /// Of 3 and 4, and of no other: the index of the position in its list.
        index: Option<u32>,
    },
}

/// A number as the lines have it: no sign, and no zero before it.
fn decimal(word: &str) -> Option<u32> {
    word.parse().ok().filter(|n: &u32| n.to_string() == word)
}

impl Ending {
    /// Reads the last line of a scene's text; `Error::Broken` where that is none.
    pub fn read(text: &str) -> Answered<Ending> {
        let lines = text.strip_suffix('\n').ok_or(Error::Broken)?;
        Ending::of_line(lines.rsplit('\n').next().unwrap_or(lines)).ok_or(Error::Broken)
    }

    fn of_line(line: &str) -> Option<Ending> {
        let words: Vec<&str> = line.split(' ').collect();
        let (number, record, field, index) = match words.as_slice() {
            ["end", records] => return Some(Ending::Ended { records: decimal(records)? }),
            ["refused", number, "at", record, field] => (decimal(number)?, record, field, None),
            ["refused", number, "at", record, field, index] => (decimal(number)?, record, field, Some(decimal(index)?)),
            _ => return None,
        };
        let shaped = match number {
            3 | 4 => index.is_some(),
            2 | 7 | 20..=28 => index.is_none(),
            _ => false,
        };
        let (record, field) = (decimal(record)?, decimal(field)?);
        shaped.then_some(Ending::Refused { refusal: Refusal(number), record, field, index })
    }
}

impl Display for Ending {
    fn fmt(&self, f: &mut Formatter) -> fmt::Result {
        match self {
            Ending::Ended { records } => write!(f, "end {records}"),
            Ending::Refused { refusal, record, field, index } => {
                write!(f, "refused {} at {record} {field}", refusal.0)?;
                index.map_or(Ok(()), |i| write!(f, " {i}"))
            }
        }
    }
}
