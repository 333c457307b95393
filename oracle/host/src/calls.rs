//! A call of an export as data, so that one run can be put to the port and to the model.

/// The exports, in the stub's order.
#[derive(Clone, Copy, Debug, PartialEq, Eq, PartialOrd, Ord, Hash)]
#[repr(u32)]
#[rustfmt::skip]
pub enum Export {
    Root, Atan2, Build, Place, Pair, Triangles, Accepts, Convex, Simple, Vertex, OnEdge, Equivalent,
    Arc, ArcOpposite, ArcSide, ArcContains, ArcIntersection, ArcRelate,
    BuildF64, PlaceF64, PairF64, TrianglesF64, FullPositions, LeafVec, LeafNumber, LeafCase, LeafCap, Scene,
    Radians, Far, ArcFar, FarF64, BuildLong, BuildLongF64, ArcIntersectionLong, ArcRelateLong,
}

impl Export {
    #[rustfmt::skip]
    pub const ALL: [Export; 36] = {
        use Export::*;
        [
            Root, Atan2, Build, Place, Pair, Triangles, Accepts, Convex, Simple, Vertex, OnEdge, Equivalent,
            Arc, ArcOpposite, ArcSide, ArcContains, ArcIntersection, ArcRelate,
            BuildF64, PlaceF64, PairF64, TrianglesF64, FullPositions, LeafVec, LeafNumber, LeafCase, LeafCap, Scene,
            Radians, Far, ArcFar, FarF64, BuildLong, BuildLongF64, ArcIntersectionLong, ArcRelateLong,
        ]
    };
}

#[derive(Clone, Debug, PartialEq)]
pub enum Arg {
    Word(u64),
    Int(u32),
    Float(f64),
    Bytes(Vec<u8>),
    Floats(Vec<f64>),
    OutBytes(Vec<u8>),
    OutFloats(Vec<f64>),
    OutShorts(Vec<u16>),
}

#[derive(Clone, Debug)]
pub struct Call {
    pub export: Export,
    pub args: Vec<Arg>,
}

/// What came back: the value, and the bytes of each buffer that was lent to be written.
#[derive(Clone, Debug, PartialEq)]
pub struct Answer {
    pub value: u64,
    pub outs: Vec<Vec<u8>>,
}

/// Bytes that no result is likely to hold, for buffers to be written.
pub fn blank(n: usize) -> Vec<u8> {
    (0..n).map(|i| 0xA5 ^ (i as u8).wrapping_mul(7)).collect()
}

pub fn blank_floats(n: usize) -> Vec<f64> {
    (0..n).map(|i| -123456.789 - i as f64).collect()
}

pub fn blank_shorts(n: usize) -> Vec<u16> {
    (0..n).map(|i| 0xBEEF ^ i as u16).collect()
}

impl Arg {
    /// The bytes of a slice.
    pub fn bytes(&self) -> Option<Vec<u8>> {
        match self {
            Arg::Bytes(b) | Arg::OutBytes(b) => Some(b.clone()),
            Arg::Floats(f) | Arg::OutFloats(f) => Some(f.iter().flat_map(|x| x.to_bits().to_le_bytes()).collect()),
            Arg::OutShorts(s) => Some(s.iter().flat_map(|x| x.to_le_bytes()).collect()),
            _ => None,
        }
    }

    /// An argument of the same kind, of a word or of a slice's bytes.
    pub fn of(&self, word: u64, data: &[u8]) -> Arg {
        let floats = || data.chunks_exact(8).map(|c| f64::from_le_bytes(c.try_into().unwrap())).collect();
        match self {
            Arg::Word(_) => Arg::Word(word),
            Arg::Int(_) => Arg::Int(word as u32),
            Arg::Float(_) => Arg::Float(f64::from_bits(word)),
            Arg::Bytes(_) => Arg::Bytes(data.to_vec()),
            Arg::OutBytes(_) => Arg::OutBytes(data.to_vec()),
            Arg::Floats(_) => Arg::Floats(floats()),
            Arg::OutFloats(_) => Arg::OutFloats(floats()),
            Arg::OutShorts(_) => {
                Arg::OutShorts(data.chunks_exact(2).map(|c| u16::from_le_bytes([c[0], c[1]])).collect())
            }
        }
    }

    /// How many bytes a slice has; none of a number.
    pub fn size(&self) -> Option<usize> {
        match self {
            Arg::Bytes(b) | Arg::OutBytes(b) => Some(b.len()),
            Arg::Floats(f) | Arg::OutFloats(f) => Some(8 * f.len()),
            Arg::OutShorts(s) => Some(2 * s.len()),
            _ => None,
        }
    }

    pub fn is_out(&self) -> bool {
        matches!(self, Arg::OutBytes(_) | Arg::OutFloats(_) | Arg::OutShorts(_))
    }

    /// The count of elements of a slice, or the bits of a number.
    pub fn word(&self) -> u64 {
        match self {
            Arg::Word(w) => *w,
            Arg::Int(w) => u64::from(*w),
            Arg::Float(f) => f.to_bits(),
            Arg::Bytes(b) | Arg::OutBytes(b) => b.len() as u64,
            Arg::Floats(f) | Arg::OutFloats(f) => f.len() as u64,
            Arg::OutShorts(s) => s.len() as u64,
        }
    }
}

/// Something that a call can be put to: a word of 32 or 64 bits, or none where it is absent.
pub trait Value {
    fn value(self) -> Option<u64>;
}
impl Value for u32 {
    fn value(self) -> Option<u64> {
        Some(u64::from(self))
    }
}
impl Value for u64 {
    fn value(self) -> Option<u64> {
        Some(self)
    }
}
impl<T: Value> Value for Option<T> {
    fn value(self) -> Option<u64> {
        self.and_then(Value::value)
    }
}

/// Calls the function of that export in the named module.
macro_rules! dispatch {
    ($module:path, $call:expr) => {{
        use Arg::*;
        use $module as to;
        let mut args = $call.args.clone();
        let value = match ($call.export, args.as_mut_slice()) {
            (Export::Root, [Word(b)]) => to::desk_root(*b).value(),
            (Export::Atan2, [Word(y), Word(x)]) => to::desk_atan2(*y, *x).value(),
            (Export::Build, [Bytes(l), OutBytes(o)]) => to::desk_build(l, o).value(),
            (Export::Place, [Bytes(l), Bytes(p)]) => to::desk_place(l, p).value(),
            (Export::Pair, [Bytes(a), Bytes(b)]) => to::desk_pair(a, b).value(),
            (Export::Triangles, [Bytes(l), OutBytes(o)]) => to::desk_triangles(l, o).value(),
            (Export::Accepts, [Bytes(l), Bytes(t)]) => to::desk_accepts(l, t).value(),
            (Export::Convex, [Bytes(l)]) => to::desk_convex(l).value(),
            (Export::Simple, [Bytes(l)]) => to::desk_simple(l).value(),
            (Export::Vertex, [Bytes(l), Bytes(p)]) => to::desk_vertex(l, p).value(),
            (Export::OnEdge, [Bytes(l), Bytes(p)]) => to::desk_on_edge(l, p).value(),
            (Export::Equivalent, [Bytes(a), Bytes(b)]) => to::desk_equivalent(a, b).value(),
            (Export::Arc, [Bytes(s), Bytes(e), OutBytes(o)]) => to::desk_arc(s, e, o).value(),
            (Export::ArcOpposite, [Bytes(a), OutBytes(o)]) => to::desk_arc_opposite(a, o).value(),
            (Export::ArcSide, [Bytes(a), Bytes(p)]) => to::desk_arc_side(a, p).value(),
            (Export::ArcContains, [Bytes(a), Bytes(p)]) => to::desk_arc_contains(a, p).value(),
            (Export::ArcIntersection, [Bytes(a), Bytes(b), OutBytes(o)]) => to::desk_arc_intersection(a, b, o).value(),
            (Export::ArcRelate, [Bytes(a), Bytes(b), OutBytes(o)]) => to::desk_arc_relate(a, b, o).value(),
            (Export::BuildF64, [Floats(l), OutBytes(h), OutFloats(p), OutFloats(n), OutBytes(c)]) => {
                to::desk_build_f64(l, h, p, n, c).value()
            }
            (Export::PlaceF64, [Bytes(h), Floats(p), Floats(n), Bytes(c), Float(x), Float(y), Float(z)]) => {
                to::desk_place_f64(h, p, n, c, *x, *y, *z).value()
            }
            (
                Export::PairF64,
                [Bytes(h), Floats(p), Floats(n), Bytes(c), Bytes(h2), Floats(p2), Floats(n2), Bytes(c2)],
            ) => to::desk_pair_f64(h, p, n, c, h2, p2, n2, c2).value(),
            (Export::TrianglesF64, [Bytes(h), Floats(p), Bytes(c), OutShorts(o)]) => {
                to::desk_triangles_f64(h, p, c, o).value()
            }
            (Export::FullPositions, [OutFloats(o)]) => to::desk_full_positions(o).value(),
            (Export::LeafVec, [Int(op), Floats(i), OutFloats(o)]) => to::leaf_vec(*op, i, o).value(),
            (Export::LeafNumber, [Int(op), Floats(i)]) => to::leaf_number(*op, i).value(),
            (Export::LeafCase, [Int(op), Floats(i)]) => to::leaf_case(*op, i).value(),
            (Export::LeafCap, [Floats(l), OutFloats(o)]) => to::leaf_cap(l, o).value(),
            (Export::Scene, [Bytes(i), OutBytes(o)]) => to::desk_scene(i, o).value(),
            (Export::Radians, [Word(c)]) => to::desk_radians(*c).value(),
            (Export::Far, [Bytes(l), Bytes(p), OutBytes(o)]) => to::desk_far(l, p, o).value(),
            (Export::ArcFar, [Bytes(a), Bytes(p), OutBytes(o)]) => to::desk_arc_far(a, p, o).value(),
            (
                Export::FarF64,
                [Bytes(h), Floats(p), Floats(n), Bytes(c), Float(x), Float(y), Float(z), OutFloats(o)],
            ) => to::desk_far_f64(h, p, n, c, *x, *y, *z, o).value(),
            (Export::BuildLong, [Bytes(l), OutBytes(o)]) => to::desk_build_long(l, o).value(),
            (Export::BuildLongF64, [Floats(l), OutBytes(h), OutFloats(p), OutFloats(n), OutBytes(c)]) => {
                to::desk_build_long_f64(l, h, p, n, c).value()
            }
            (Export::ArcIntersectionLong, [Bytes(a), Bytes(b), OutBytes(o)]) => {
                to::desk_arc_intersection_long(a, b, o).value()
            }
            (Export::ArcRelateLong, [Bytes(a), Bytes(b), OutBytes(o)]) => to::desk_arc_relate_long(a, b, o).value(),
            _ => panic!("{:?} takes other arguments", $call.export),
        };
        value.map(|value| Answer { value, outs: args.iter().filter(|a| a.is_out()).filter_map(Arg::bytes).collect() })
    }};
}

/// The model's answer.
pub fn by_model(call: &Call) -> Answer {
    dispatch!(model, call).expect("the model has every export")
}

/// The linked library's answer, where it is linked and has the export.
pub fn by_link(call: &Call) -> Option<Answer> {
    dispatch!(crate::linked, call)
}
