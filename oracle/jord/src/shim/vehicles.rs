// Shim for vehicles: only their shape; no answer of the loop part uses them.
use crate::{Angle, NVector, Speed};

#[derive(PartialEq, Clone, Copy, Debug)]
pub struct Vehicle {
    position: NVector,
    bearing: Angle,
    speed: Speed,
}

impl Vehicle {
    pub fn position(&self) -> NVector {
        self.position
    }
    pub fn bearing(&self) -> Angle {
        self.bearing
    }
    pub fn speed(&self) -> Speed {
        self.speed
    }
}
