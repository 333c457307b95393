// Shim for the measurement macro: a wrapped f64, each operator the plain f64 operator on the default unit.

/// A measurement: an f64 in its default unit.
pub trait Measurement {
    fn from_default_unit(amount: f64) -> Self;
    fn as_default_unit(&self) -> f64;
}

macro_rules! impl_measurement {
    ($t:ty) => {
        impl ::std::ops::Add for $t {
            type Output = Self;
            fn add(self, rhs: Self) -> Self {
                <$t as crate::Measurement>::from_default_unit(
                    crate::Measurement::as_default_unit(&self)
                        + crate::Measurement::as_default_unit(&rhs),
                )
            }
        }
        impl ::std::ops::Sub for $t {
            type Output = Self;
            fn sub(self, rhs: Self) -> Self {
                <$t as crate::Measurement>::from_default_unit(
                    crate::Measurement::as_default_unit(&self)
                        - crate::Measurement::as_default_unit(&rhs),
                )
            }
        }
        impl ::std::ops::Mul<f64> for $t {
            type Output = Self;
            fn mul(self, rhs: f64) -> Self {
                <$t as crate::Measurement>::from_default_unit(
                    crate::Measurement::as_default_unit(&self) * rhs,
                )
            }
        }
        impl ::std::ops::Mul<$t> for f64 {
            type Output = $t;
            fn mul(self, rhs: $t) -> $t {
                <$t as crate::Measurement>::from_default_unit(
                    self * crate::Measurement::as_default_unit(&rhs),
                )
            }
        }
        impl ::std::ops::Div<f64> for $t {
            type Output = Self;
            fn div(self, rhs: f64) -> Self {
                <$t as crate::Measurement>::from_default_unit(
                    crate::Measurement::as_default_unit(&self) / rhs,
                )
            }
        }
        impl ::std::ops::Neg for $t {
            type Output = Self;
            fn neg(self) -> Self {
                <$t as crate::Measurement>::from_default_unit(
                    -crate::Measurement::as_default_unit(&self),
                )
            }
        }
    };
}
