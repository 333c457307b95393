// Shim for lengths and speeds: enough for the carried files to compile; no answer of the loop part uses them.
use crate::{Angle, Measurement};
use std::time::Duration;

#[derive(PartialEq, PartialOrd, Clone, Copy, Debug)]
pub struct Length {
    metres: f64,
}

impl Length {
    pub const ZERO: Length = Length { metres: 0.0 };

    pub const fn from_metres(metres: f64) -> Self {
        Length { metres }
    }
    pub fn as_metres(&self) -> f64 {
        self.metres
    }
    pub fn as_nautical_miles(&self) -> f64 {
        self.metres / 1852.0
    }
    pub fn abs(&self) -> Self {
        Length::from_metres(self.metres.abs())
    }
    pub fn round_m(&self) -> Self {
        Length::from_metres(self.metres.round())
    }
    pub fn round_dm(&self) -> Self {
        Length::from_metres((self.metres * 10.0).round() / 10.0)
    }
    pub fn round_cm(&self) -> Self {
        Length::from_metres((self.metres * 100.0).round() / 100.0)
    }
    pub fn round_mm(&self) -> Self {
        Length::from_metres((self.metres * 1000.0).round() / 1000.0)
    }
}

impl Measurement for Length {
    fn from_default_unit(amount: f64) -> Self {
        Length::from_metres(amount)
    }
    fn as_default_unit(&self) -> f64 {
        self.metres
    }
}

impl_measurement! { Length }

impl ::std::ops::Mul<Length> for Angle {
    type Output = Length;
    fn mul(self, rhs: Length) -> Length {
        Length::from_metres(self.as_radians() * rhs.metres)
    }
}

impl ::std::ops::Mul<Angle> for Length {
    type Output = Length;
    fn mul(self, rhs: Angle) -> Length {
        rhs * self
    }
}

#[derive(PartialEq, PartialOrd, Clone, Copy, Debug)]
pub struct Speed {
    mps: f64,
}

impl Speed {
    pub fn as_knots(&self) -> f64 {
        self.mps * 3600.0 / 1852.0
    }
    pub fn as_metres_per_second(&self) -> f64 {
        self.mps
    }
}

impl ::std::ops::Mul<Duration> for Speed {
    type Output = Length;
    fn mul(self, rhs: Duration) -> Length {
        Length::from_metres(self.mps * rhs.as_secs_f64())
    }
}
