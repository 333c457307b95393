//! The run's own generator of numbers, so that a seed gives the same run everywhere, and positions made with it.

pub type P = [f64; 3];

/// splitmix64.
pub struct Random(u64);

impl Random {
    pub fn new(seed: u64) -> Self {
        Random(seed.wrapping_mul(0x9E37_79B9_7F4A_7C15) ^ 0x1234_5678_9ABC_DEF0)
    }

    pub fn bits(&mut self) -> u64 {
        self.0 = self.0.wrapping_add(0x9E37_79B9_7F4A_7C15);
        let mut z = self.0;
        z = (z ^ (z >> 30)).wrapping_mul(0xBF58_476D_1CE4_E5B9);
        z = (z ^ (z >> 27)).wrapping_mul(0x94D0_49BB_1331_11EB);
        z ^ (z >> 31)
    }

    /// Below n, which is not 0.
    pub fn below(&mut self, n: usize) -> usize {
        (self.bits() % n as u64) as usize
    }

    pub fn chance(&mut self, one_in: usize) -> bool {
        self.below(one_in) == 0
    }

    /// From 0 up to 1.
    pub fn fraction(&mut self) -> f64 {
        (self.bits() >> 11) as f64 / (1u64 << 53) as f64
    }

    pub fn between(&mut self, a: f64, b: f64) -> f64 {
        a + (b - a) * self.fraction()
    }

    /// A number whose size spreads evenly over powers of two, of either sign.
    pub fn spread(&mut self, low: i32, high: i32) -> f64 {
        let e = low + self.below((high - low + 1) as usize) as i32;
        let m = self.between(1.0, 2.0) * 2.0_f64.powi(e);
        if self.chance(2) { m } else { -m }
    }

    pub fn pick<'a, T>(&mut self, from: &'a [T]) -> &'a T {
        &from[self.below(from.len())]
    }

    pub fn unit(&mut self) -> P {
        loop {
            let v = [self.between(-1.0, 1.0), self.between(-1.0, 1.0), self.between(-1.0, 1.0)];
            let n = dot(v, v);
            if (0.01..1.0).contains(&n) {
                return unit(v);
            }
        }
    }

    /// A few ulps off, each component.
    pub fn jitter(&mut self, p: P, ulps: u64) -> P {
        p.map(|c| nudge(c, self.below(2 * ulps as usize + 1) as i64 - ulps as i64))
    }

    /// About `distance` away, any direction.
    pub fn near(&mut self, p: P, distance: f64) -> P {
        let d = self.unit();
        unit([p[0] + distance * d[0], p[1] + distance * d[1], p[2] + distance * d[2]])
    }

    /// A position whose products come out round: axes, (0.6, 0.8, 0) and (0.48, 0.6, 0.64), any order and signs.
    pub fn round(&mut self) -> P {
        let base = *self.pick(&[[1.0, 0.0, 0.0], [0.6, 0.8, 0.0], [0.48, 0.6, 0.64], [0.28, 0.96, 0.0]]);
        let mut p = base;
        for i in (1..3).rev() {
            p.swap(i, self.below(i + 1));
        }
        p.map(|c| if c != 0.0 && self.chance(2) { -c } else { c })
    }

    /// A position of a coarse grid of latitudes and longitudes.
    pub fn grid(&mut self) -> P {
        let lat = self.below(13) as f64 * 15.0 - 90.0;
        let long = self.below(24) as f64 * 15.0 - 180.0;
        degrees(lat, long)
    }

    /// Any of the kinds of position above.
    pub fn position(&mut self) -> P {
        match self.below(6) {
            0 => self.round(),
            1 => self.grid(),
            2 => self.tiny(),
            _ => self.unit(),
        }
    }

    /// Near an axis, the other components tiny: products underflow.
    pub fn tiny(&mut self) -> P {
        let mut p = [self.spread(-545, -535), self.spread(-545, -535), self.spread(-545, -535)];
        if self.chance(3) {
            p[self.below(3)] = 0.0;
        }
        let at = self.below(3);
        p[at] = if self.chance(2) { 1.0 } else { -1.0 };
        p
    }
}

pub fn degrees(lat: f64, long: f64) -> P {
    let v = jord::NVector::from_lat_long_degrees(lat, long).as_vec3();
    [v.x(), v.y(), v.z()]
}

pub fn dot(a: P, b: P) -> f64 {
    a[0] * b[0] + a[1] * b[1] + a[2] * b[2]
}

pub fn cross(a: P, b: P) -> P {
    [a[1] * b[2] - a[2] * b[1], a[2] * b[0] - a[0] * b[2], a[0] * b[1] - a[1] * b[0]]
}

pub fn unit(v: P) -> P {
    let n = dot(v, v).sqrt();
    if n == 0.0 { [1.0, 0.0, 0.0] } else { v.map(|c| c / n) }
}

pub fn neg(v: P) -> P {
    v.map(|c| 0.0 - c)
}

pub fn add(a: P, b: P) -> P {
    [a[0] + b[0], a[1] + b[1], a[2] + b[2]]
}

pub fn scale(a: P, k: f64) -> P {
    a.map(|c| c * k)
}

/// The point `t` of the way from a to b, by the chord.
pub fn along(a: P, b: P, t: f64) -> P {
    unit(add(scale(a, 1.0 - t), scale(b, t)))
}

/// Two directions that make a frame with p.
pub fn frame(p: P) -> (P, P) {
    let other = if p[0].abs() < 0.7 { [1.0, 0.0, 0.0] } else { [0.0, 1.0, 0.0] };
    let u = unit(cross(p, other));
    (u, cross(p, u))
}

/// The position at an angle and a distance (radians) from a centre.
pub fn around(centre: P, angle: f64, distance: f64) -> P {
    let (u, v) = frame(centre);
    let d = add(scale(u, angle.cos()), scale(v, angle.sin()));
    unit(add(scale(centre, distance.cos()), scale(d, distance.sin())))
}

/// k doubles up or down; not through a zero or an infinity.
pub fn nudge(f: f64, k: i64) -> f64 {
    if f == 0.0 || !f.is_finite() {
        return f;
    }
    let moved = f64::from_bits((f.to_bits() as i64 + k) as u64);
    if moved.is_finite() { moved } else { f }
}

pub fn bytes(p: P) -> Vec<u8> {
    p.iter().flat_map(|c| c.to_le_bytes()).collect()
}

pub fn list_bytes(list: &[P]) -> Vec<u8> {
    list.iter().flat_map(|p| bytes(*p)).collect()
}

pub fn list_floats(list: &[P]) -> Vec<f64> {
    list.iter().flatten().copied().collect()
}

/// Lengths x for which (x, 0, 0) has a squared norm at, just inside and just outside each end of the range.
pub fn border_lengths() -> Vec<f64> {
    let room = 2.0_f64.powi(-40);
    let mut out = Vec::new();
    for end in [1.0 - room, 1.0 + room] {
        let near = end.sqrt();
        let mut seen = std::collections::BTreeSet::new();
        for k in -4..=4 {
            let x = nudge(near, k);
            if seen.insert((x * x).to_bits()) {
                out.push(x);
            }
        }
    }
    out
}

#[cfg(test)]
mod tests {
    /// The ends themselves are met exactly, and both neighbours outside.
    #[test]
    fn ends_are_met() {
        let room = 2.0_f64.powi(-40);
        let squares: Vec<f64> = super::border_lengths().iter().map(|x| x * x).collect();
        for end in [1.0 - room, 1.0 + room] {
            assert!(squares.contains(&end));
            assert!(squares.iter().any(|s| *s == super::nudge(end, 1) || *s == super::nudge(end, 2)));
            assert!(squares.iter().any(|s| *s == super::nudge(end, -1) || *s == super::nudge(end, -2)));
        }
    }
}
