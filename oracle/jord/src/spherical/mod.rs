// Shim. Files whose private items the judge needs are held by `include!`, with a child module that opens them.
mod base;
mod great_circle;
mod rectangle;
mod sphere;

pub mod chord_length {
    include!("chord_length.rs");

    /// Opens `ChordLength`'s private field and constructor.
    pub mod probe {
        use super::ChordLength;

        pub fn of_length2(length2: f64) -> ChordLength {
            ChordLength { length2 }
        }
        pub fn length2(c: ChordLength) -> f64 {
            c.length2
        }
    }
}

pub mod cap {
    include!("cap.rs");

    /// Opens `Cap`'s private fields.
    pub mod probe {
        use super::{Cap, ChordLength, NVector};

        pub fn of_parts(centre: NVector, radius: ChordLength) -> Cap {
            Cap { centre, radius }
        }
        pub fn radius(c: Cap) -> ChordLength {
            c.radius
        }
    }
}

pub mod minor_arc {
    include!("minor_arc.rs");

    /// Opens `MinorArc`'s private fields, so that an arc may be handed back with another normal, and where the source says a point lies.
    pub mod probe {
        use super::{MinorArc, NVector, OnMinorArcLocation, Vec3};

        /// `OnMinorArcLocation`, which is private.
        #[derive(Clone, Copy, Debug, PartialEq, Eq)]
        pub enum Location {
            Endpoint,
            Interior,
            Exterior,
        }

        pub fn of_parts(start: NVector, end: NVector, normal: Vec3) -> MinorArc {
            MinorArc { start, end, normal }
        }
        /// Where a point of the arc's great circle lies, by `triage_on_minor_arc`.
        pub fn location(arc: MinorArc, v: Vec3) -> Location {
            match arc.triage_on_minor_arc(v) {
                OnMinorArcLocation::Endpoint => Location::Endpoint,
                OnMinorArcLocation::Interior => Location::Interior,
                OnMinorArcLocation::Exterior => Location::Exterior,
            }
        }
    }
}

pub mod sloop {
    include!("sloop.rs");

    /// Opens `Loop`'s private fields and the private functions of its file.
    pub mod probe {
        use super::{Cap, Classification, Loop, MinorArc, NVector, Vec3, Vertex};

        /// Class codes of the desk: 0 convex, 1 reflex, 2 both.
        fn code(c: Classification) -> u8 {
            match c {
                Classification::Convex => 0,
                Classification::Reflex => 1,
                Classification::Both => 2,
            }
        }
        fn class(code: u8) -> Classification {
            match code {
                0 => Classification::Convex,
                1 => Classification::Reflex,
                _ => Classification::Both,
            }
        }
        fn vertices(vs: &[(NVector, u8)]) -> Vec<Vertex> {
            vs.iter().map(|v| Vertex(v.0, class(v.1))).collect()
        }
        fn coded(vs: &[Vertex]) -> Vec<(NVector, u8)> {
            vs.iter().map(|v| (v.0, code(v.1))).collect()
        }

        pub fn of_parts(
            vs: &[(NVector, u8)],
            insides: Option<(NVector, NVector)>,
            edges: &[MinorArc],
            bounding_cap: Cap,
            full: bool,
        ) -> Loop {
            Loop { vertices: vertices(vs), insides, edges: edges.to_vec(), bounding_cap, full }
        }
        pub fn vertices_of(l: &Loop) -> Vec<(NVector, u8)> {
            coded(&l.vertices)
        }
        pub fn insides_of(l: &Loop) -> Option<(NVector, NVector)> {
            l.insides
        }
        pub fn edges_of(l: &Loop) -> &[MinorArc] {
            &l.edges
        }
        pub fn opened(vs: &[NVector]) -> &[NVector] {
            super::opened(vs)
        }
        pub fn to_edges(vs: &[NVector]) -> (Vec<MinorArc>, bool) {
            super::to_edges(vs)
        }
        pub fn reverse_edges(es: &[MinorArc]) -> Vec<MinorArc> {
            super::reverse_edges(es)
        }
        pub fn classed(es: &[MinorArc]) -> Vec<(NVector, u8)> {
            coded(&super::clockwise_edges_to_vertices(es))
        }
        pub fn find_insides(vs: &[(NVector, u8)]) -> Option<(NVector, NVector)> {
            super::find_insides(&vertices(vs))
        }
        pub fn ear_clipping(vs: &[(NVector, u8)]) -> Vec<(NVector, NVector, NVector)> {
            super::ear_clipping(&vertices(vs))
        }
        /// One cut: the ear and the vertices left.
        pub fn next_ear(
            vs: &[(NVector, u8)],
        ) -> Option<((NVector, NVector, NVector), Vec<(NVector, u8)>)> {
            let mut remaining = vertices(vs);
            super::next_ear(&mut remaining).map(|ear| (ear, coded(&remaining)))
        }
        /// The vertices left by a cut at `ear_index`, its neighbours classed afresh.
        pub fn re_classify(vs: &[(NVector, u8)], ear_index: usize) -> Vec<(NVector, u8)> {
            let mut remaining = vertices(vs);
            super::re_classify(&mut remaining, ear_index);
            coded(&remaining)
        }
        pub fn inside_or_edge(p: NVector, v1: NVector, v2: NVector, v3: NVector) -> bool {
            super::inside_or_edge(p, v1, v2, v3)
        }
        pub fn calc_bounding_cap(vs: &[NVector]) -> Cap {
            Loop::calc_bounding_cap(vs)
        }
        pub fn bound_expansion() -> crate::Angle {
            Loop::bound_expansion()
        }
        pub fn find_unambiguous_point(probe: &Loop, reference: &Loop) -> Option<NVector> {
            Loop::find_unambiguous_point(probe, reference)
        }
        pub fn icosahedron() -> Vec<(NVector, NVector, NVector)> {
            super::icosahedron()
        }
        pub fn vec3_eq(a: Vec3, b: Vec3) -> bool {
            super::vec3_eq(a, b)
        }
    }
}

pub use base::Side;
pub use cap::Cap;
pub use chord_length::ChordLength;
pub use great_circle::GreatCircle;
pub use minor_arc::{MinorArc, MinorArcRelation};
pub use rectangle::Rectangle;
pub use sloop::{Loop, LoopRelation, is_loop_clockwise};
pub use sphere::Sphere;

/// base.rs's functions, which are private to the crate.
pub mod base_probe {
    use super::Side;
    use crate::Vec3;

    pub fn side(v0: Vec3, v1: Vec3, v2: Vec3) -> Side {
        super::base::side(v0, v1, v2)
    }
    pub fn angle_radians_between(v1: Vec3, v2: Vec3, vn: Option<Vec3>) -> f64 {
        super::base::angle_radians_between(v1, v2, vn)
    }
}
