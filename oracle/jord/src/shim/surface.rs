// Shim for the surface trait: only its shape; no answer of the loop part uses it.
use crate::{GeocentricPosition, GeodeticPosition};

pub trait Surface {
    fn geodetic_to_geocentric_position(&self, pos: GeodeticPosition) -> GeocentricPosition;
    fn geocentric_to_geodetic_position(&self, pos: GeocentricPosition) -> GeodeticPosition;
}
