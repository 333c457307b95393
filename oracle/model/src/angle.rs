//! The port's own arctangent, read from its definition (crates/angle/specs/Arctan, SCOPE 6): Euler's series, 49 terms, two at a time.
//! It is here so that a loop's direction and marks are fixed where the Rust's own turn sum is near a border.

const QUARTER: f64 = f64::from_bits(0x3fe921fb54442d18);
const HALF: f64 = f64::from_bits(0x3ff921fb54442d18);
const WHOLE: f64 = f64::from_bits(0x400921fb54442d18);

/// c_k = 2/3 * 4/5 * .. * 2k/(2k+1), each the nearest double: the integer quotient, scaled and rounded once.
fn coefficients() -> [f64; 49] {
    std::array::from_fn(nearest)
}

/// The double nearest c_k, by long division of whole numbers: c_k = 2^k k! / (1 * 3 * .. * (2k+1)).
fn nearest(k: usize) -> f64 {
    // c_k = N / D, with N and D kept as lists of factors and divided digit by digit in base 2.
    let mut remainder = Big::of(1);
    let mut divisor = Big::of(1);
    for i in 1..=k as u64 {
        remainder = remainder.times(2 * i);
        divisor = divisor.times(2 * i + 1);
    }
    // 1/8 < c_k <= 1, so 60 binary digits after the point hold at least 57 significant ones, and the rest is sticky.
    let mut quotient: u64 = 0;
    if !remainder.less(&divisor) {
        return 1.0;
    }
    for _ in 0..60 {
        remainder = remainder.times(2);
        quotient *= 2;
        if !remainder.less(&divisor) {
            remainder = remainder.minus(&divisor);
            quotient += 1;
        }
    }
    if !remainder.is_zero() {
        quotient |= 1;
    }
    // The conversion rounds to nearest once; the last bit stands for all that was cut off.
    quotient as f64 * 2.0_f64.powi(-60)
}

/// Whole numbers, least digit first.
#[derive(Clone)]
struct Big(Vec<u32>);

impl Big {
    fn of(n: u32) -> Self {
        Big(vec![n])
    }
    fn times(&self, by: u64) -> Self {
        let mut carry = 0u64;
        let mut out = Vec::new();
        for d in &self.0 {
            let p = u64::from(*d) * by + carry;
            out.push(p as u32);
            carry = p >> 32;
        }
        out.push(carry as u32);
        Big(out)
    }
    fn digit(&self, i: usize) -> u32 {
        self.0.get(i).copied().unwrap_or(0)
    }
    fn less(&self, o: &Self) -> bool {
        let n = self.0.len().max(o.0.len());
        for i in (0..n).rev() {
            if self.digit(i) != o.digit(i) {
                return self.digit(i) < o.digit(i);
            }
        }
        false
    }
    fn minus(&self, o: &Self) -> Self {
        let mut borrow = 0i64;
        let mut out = Vec::new();
        for i in 0..self.0.len() {
            let mut d = i64::from(self.digit(i)) - i64::from(o.digit(i)) - borrow;
            borrow = i64::from(d < 0);
            d += borrow << 32;
            out.push(d as u32);
        }
        Big(out)
    }
    fn is_zero(&self) -> bool {
        self.0.iter().all(|d| *d == 0)
    }
}

fn table() -> &'static [f64; 49] {
    static TABLE: std::sync::OnceLock<[f64; 49]> = std::sync::OnceLock::new();
    TABLE.get_or_init(coefficients)
}

fn sum(y: f64) -> f64 {
    let w = y * y;
    let c = table();
    let mut g = c[48];
    for k in (0..48).step_by(2).rev() {
        g = (c[k] + y * c[k + 1]) + w * g;
    }
    g
}

fn acute(t: f64) -> f64 {
    let s = t * t;
    let z = 1.0 + s;
    (t / z) * sum(s / z)
}

fn quadrant(a: f64, b: f64) -> f64 {
    if a < b {
        acute(a / b)
    } else if b < a {
        HALF - acute(b / a)
    } else if a == 0.0 {
        0.0
    } else if a == b {
        QUARTER
    } else {
        a + b
    }
}

fn minus(x: f64) -> bool {
    x < 0.0 || 1.0 / x < 0.0
}

fn size(x: f64) -> f64 {
    if minus(x) { -x } else { x }
}

/// The angle of (x, y) from the positive x axis.
pub fn atan2(y: f64, x: f64) -> f64 {
    let q = quadrant(size(y), size(x));
    let turned = if minus(x) { WHOLE - q } else { q };
    if minus(y) { -turned } else { turned }
}

#[cfg(test)]
mod tests {
    /// The coefficients that the definition writes out.
    #[test]
    fn coefficients() {
        let written: [(usize, u64); 6] = [
            (0, 0x3ff0000000000000),
            (1, 0x3fe5555555555555),
            (2, 0x3fe1111111111111),
            (14, 0x3fcd88cc90b2c6e4),
            (33, 0x3fc386a45780f5f8),
            (48, 0x3fc03f26b61999c3),
        ];
        for (k, bits) in written {
            assert_eq!(super::table()[k].to_bits(), bits, "{k}");
        }
    }
}
