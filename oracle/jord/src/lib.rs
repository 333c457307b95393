// Shim. The carried files stand beside this one, byte for byte (oracle/same-source); what they lean on and
// what was not published with them is in shim/. `probe` modules open private items: they are children of
// the module that holds an unchanged file by `include!`, so no source line is edited.
#![allow(dead_code, clippy::all)]

#[macro_use]
#[path = "shim/measurement.rs"]
mod measurement;
#[path = "shim/lengths.rs"]
mod lengths;
#[path = "shim/matrices.rs"]
mod matrices;
#[path = "shim/surface.rs"]
pub mod surface;
#[path = "shim/vehicles.rs"]
mod vehicles;

mod angle;
mod numbers;
mod positions;
mod prng;
pub mod spherical;
mod vec3;

pub use angle::Angle;
pub use lengths::{Length, Speed};
pub use matrices::Mat33;
pub use measurement::Measurement;
pub use positions::{GeocentricPosition, GeodeticPosition, LatLong, NVector, PositionVector};
pub(crate) use prng::Prng;
pub use vec3::Vec3;
pub use vehicles::Vehicle;

/// The comparisons of numbers.rs, which are private to the crate.
pub mod numbers_probe {
    pub fn eq_zero(f: f64) -> bool {
        crate::numbers::eq_zero(f)
    }
    pub fn eq(left: f64, right: f64) -> bool {
        crate::numbers::eq(left, right)
    }
    pub fn lte(left: f64, right: f64) -> bool {
        crate::numbers::lte(left, right)
    }
    pub fn gte(left: f64, right: f64) -> bool {
        crate::numbers::gte(left, right)
    }
}
