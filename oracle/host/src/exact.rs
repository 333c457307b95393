//! The exact angle of a pair of finite floats, held between two whole numbers of 2^-62. Nothing here is float arithmetic, so
//! that it can judge angles that are made of nothing else. Every step rounds outward: what leads to the lower end down, what
//! leads to the upper end up.
//!
//! Euler's series, for a slope t of at most 1: with z = 1 + t² and y = t²/z, atan t = t/z (c_0 + c_1 y + c_2 y² + ..), where
//! c_k = 2/3 * 4/5 * .. * 2k/(2k+1). The angle rises with the slope, and no term is negative: so the ends of a slope give the
//! ends of its angle, step by step.

/// Angles are counted in units of 2^-62: products of two numbers below 2 then fit 128 bits.
pub const UNITS: u32 = 62;
const ONE: u128 = 1 << UNITS;
/// The last term in. y is at most 1/2, so c_62 y^62 is less than a unit.
const LAST: usize = 62;

const LOW: [u128; LAST + 1] = coefficients(false);
const HIGH: [u128; LAST + 1] = coefficients(true);
/// A quarter of pi is the angle of slope 1, so no digit of pi is taken from elsewhere.
const QUARTER: Between = Between { low: acute(ONE, false) as i128, high: acute(ONE, true) as i128 };
const HALF: Between = QUARTER.plus(QUARTER);
const WHOLE: Between = HALF.plus(HALF);

/// Where an exact number lies, in units, both ends included.
#[derive(Clone, Copy, Debug, PartialEq, Eq)]
pub struct Between {
    pub low: i128,
    pub high: i128,
}

impl Between {
    pub const ZERO: Between = Between { low: 0, high: 0 };

    pub const fn plus(self, o: Between) -> Between {
        Between { low: self.low + o.low, high: self.high + o.high }
    }

    pub const fn negated(self) -> Between {
        Between { low: -self.high, high: -self.low }
    }

    /// The farthest that a number in this one can be from a number in the other.
    pub fn farthest(self, o: Between) -> i128 {
        (self.high - o.low).max(o.high - self.low)
    }

    /// Whether the number is below 0; none where both signs are left.
    pub fn is_below(self) -> Option<bool> {
        if self.high < 0 {
            Some(true)
        } else if self.low > 0 {
            Some(false)
        } else {
            None
        }
    }
}

const fn quotient(a: u128, b: u128, up: bool) -> u128 {
    if up { a.div_ceil(b) } else { a / b }
}

/// c_0 to c_LAST, each from the one before.
const fn coefficients(up: bool) -> [u128; LAST + 1] {
    let mut c = [ONE; LAST + 1];
    let mut k = 1;
    while k <= LAST {
        let even = 2 * k as u128;
        c[k] = quotient(c[k - 1] * even, even + 1, up);
        k += 1;
    }
    c
}

/// The sum of the c_k y^k, from the last term back. What is left out is at most the last term in, since y is at most 1/2 and
/// c falls: the upper end has that term twice.
const fn series(y: u128, up: bool) -> u128 {
    let c = if up { &HIGH } else { &LOW };
    let mut sum = if up { 2 * c[LAST] } else { c[LAST] };
    let mut k = LAST;
    while k > 0 {
        k -= 1;
        sum = c[k] + quotient(sum * y, ONE, up);
    }
    sum
}

/// An end of the angle whose slope is t units, at most 1. A divisor rounds the other way than its quotient.
const fn acute(t: u128, up: bool) -> u128 {
    let z = ONE + quotient(t * t, ONE, !up);
    let y = quotient(t * t, z, up);
    let first = quotient(t * ONE, z, up);
    quotient(first * series(y, up), ONE, up)
}

/// The size of a finite float is m 2^(e - 1075): m and e, from the bits.
fn parts(x: f64) -> (u128, u64) {
    let size = x.to_bits() << 1 >> 1;
    let (m, e) = (size & ((1 << 52) - 1), size >> 52);
    if e == 0 { (m.into(), 1) } else { ((m | 1 << 52).into(), e) }
}

/// An end of the slope p/q, where p is not above q in size: 0 of two zeros, as IEEE 754 has it.
fn slope(p: f64, q: f64, up: bool) -> u128 {
    let ((m, e), (n, f)) = (parts(p), parts(q));
    if n == 0 {
        return 0;
    }
    // e is not above f, as p is not above q. The first quotient is below 2^116: from 127 on, nothing changes any more.
    quotient(quotient(m << UNITS, n, up), 1 << (f - e).min(127), up)
}

/// The exact angle of (x, y) from the positive x axis. Zeros count by their signs, as IEEE 754 has it.
pub fn angle(y: f64, x: f64) -> Between {
    assert!(y.is_finite() && x.is_finite(), "a pair of finite floats");
    let size = |f: f64| f.to_bits() << 1;
    let steep = size(y) > size(x);
    let (p, q) = if steep { (x, y) } else { (y, x) };
    let end = |up| acute(slope(p, q, up), up) as i128;
    let mut angle = Between { low: end(false), high: end(true) };
    if steep {
        angle = HALF.plus(angle.negated());
    }
    if x.is_sign_negative() {
        angle = WHOLE.plus(angle.negated());
    }
    if y.is_sign_negative() { angle.negated() } else { angle }
}

/// A float in units, exact where it is a whole number of them; none for what no sum of angles can be.
pub fn number(f: f64) -> Option<Between> {
    let (m, e) = parts(f);
    // 1075 - 62: from this exponent on the units are whole. Up to 20 more is below 2^11, more than 512 half circles.
    let ends = match e {
        0..1013 => [false, true].map(|up| quotient(m, 1 << (1013 - e).min(127), up) as i128),
        1013..=1033 => [(m << (e - 1013)) as i128; 2],
        _ => return None,
    };
    let size = Between { low: ends[0], high: ends[1] };
    Some(if f.is_sign_negative() { size.negated() } else { size })
}

#[cfg(test)]
mod tests {
    use super::*;
    use crate::random::Random;

    /// floor(pi 2^62), from pi's hexadecimal digits 3.243F6A88 85A308D3 13198A2E.
    const PI: i128 = 0xC90F_DAA2_2168_C234;

    /// Whether a number lies in it that is at least `below`, and less than `below` and one unit.
    fn holds(b: Between, below: i128) -> bool {
        b.low <= below && below < b.high
    }

    #[test]
    fn pi_is_held() {
        assert!(holds(WHOLE, PI) && holds(HALF, PI / 2) && holds(QUARTER, PI / 4));
        assert!(QUARTER.high - QUARTER.low < 8, "{QUARTER:?}");
        assert_eq!(angle(1.0, 1.0), QUARTER);
        assert_eq!(angle(1.0, 0.0), HALF);
    }

    /// Machin: four times the angle of slope 1/5, less that of 1/239, is a quarter of pi.
    #[test]
    fn machin_agrees() {
        let twice = angle(1.0, 5.0).plus(angle(1.0, 5.0));
        let machin = twice.plus(twice).plus(angle(-1.0, 239.0));
        assert!(holds(machin, PI / 4) && machin.high - machin.low < 40, "{machin:?}");
    }

    /// The root of 3 lies between two floats: a sixth and a third of pi between the angles of their slopes.
    #[test]
    fn sixth_and_third() {
        let (below, above) = (f64::from_bits(0x3FFB_B67A_E858_4CAA), f64::from_bits(0x3FFB_B67A_E858_4CAB));
        assert!(angle(1.0, above).high < PI / 6 && PI / 6 + 1 < angle(1.0, below).low);
        assert!(angle(below, 1.0).high < PI / 3 && PI / 3 + 1 < angle(above, 1.0).low);
    }

    #[test]
    fn zeros_by_their_signs() {
        for x in [0.0, 1.0, 5e-324, f64::MAX] {
            assert_eq!(angle(0.0, x), Between::ZERO);
            assert_eq!(angle(-0.0, x), Between::ZERO);
            assert_eq!(angle(0.0, -x), WHOLE);
            assert_eq!(angle(-0.0, -x), WHOLE.negated());
        }
        for y in [1.0, 5e-324, f64::MAX] {
            let other = WHOLE.plus(HALF.negated());
            assert_eq!([angle(y, 0.0), angle(y, -0.0)], [HALF, other]);
            assert_eq!([angle(-y, 0.0), angle(-y, -0.0)], [HALF.negated(), other.negated()]);
        }
    }

    /// Any pair: the ends are near each other and within 2^-50 of the machine's arctangent; mirrored, the mirrored ends.
    #[test]
    fn any_pair() {
        let mut r = Random::new(7);
        for _ in 0..20_000 {
            let (y, x) = crate::leaves::finite_pair(&mut r);
            let a = angle(y, x);
            assert!(a.low <= a.high && a.high - a.low < 1 << 6, "{y:e} {x:e} {a:?}");
            let near = number(y.atan2(x)).unwrap();
            assert!(a.farthest(near) < 1 << 12, "{y:e} {x:e} {a:?} {near:?}");
            assert_eq!(angle(-y, x), a.negated());
            let turned = if y.is_sign_negative() { WHOLE.negated() } else { WHOLE }.plus(angle(y, -x).negated());
            assert!(turned.low <= a.high && a.low <= turned.high);
        }
    }

    #[test]
    fn subnormals_and_far_apart() {
        let least = f64::from_bits(1);
        let few = f64::from_bits;
        assert_eq!(angle(least, least), QUARTER);
        assert_eq!(angle(few(3), few(4)), angle(3.0, 4.0));
        assert_eq!(angle(-few(5), few(2)), angle(-5.0, 2.0));
        assert_eq!(angle(f64::MIN_POSITIVE, few(1 << 51)), angle(2.0, 1.0));
        for (p, q) in [(least, f64::MAX), (least, 1.0), (few(77), f64::MIN_POSITIVE * 2.0_f64.powi(140))] {
            assert_eq!(angle(p, q), Between { low: 0, high: 2 });
            assert_eq!(angle(q, p), HALF.plus(Between { low: -2, high: 0 }));
        }
    }

    #[test]
    fn floats_in_units() {
        let between = |low, high| Some(Between { low, high });
        assert_eq!(number(1.0), between(1 << 62, 1 << 62));
        assert_eq!(number(-1024.5), between(-2049 << 61, -2049 << 61));
        assert_eq!(number(2.0_f64.powi(-62)), between(1, 1));
        assert_eq!(number(-2.0_f64.powi(-63)), between(-1, 0));
        assert_eq!([number(5e-324), number(-0.0)], [between(0, 1), between(0, 0)]);
        assert_eq!([number(2048.0), number(f64::NAN), number(f64::NEG_INFINITY)], [None; 3]);
    }
}
