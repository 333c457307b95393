// The numbers that the port records from the Rust, bit for bit, each found by running the unchanged source.
use jord::spherical::sloop::probe as sloop;
use jord::spherical::{ChordLength, cap, chord_length, minor_arc};
use jord::{Angle, NVector, Vec3};

fn hex(f: f64) -> String {
    format!("{:016X}", f.to_bits())
}

/// Whether the source's `cap.radius() >= Angle::QUARTER_CIRCLE` holds at this squared chord.
fn is_quarter(bits: u64) -> bool {
    let radius = chord_length::probe::of_length2(f64::from_bits(bits));
    let c = cap::probe::of_parts(NVector::new(Vec3::UNIT_Z), radius);
    c.radius() >= Angle::QUARTER_CIRCLE
}

/// The least squared chord near 2 that is a quarter circle or more, over `reach` doubles below and above;
/// the test must change exactly once there.
fn threshold(reach: u64) -> (u64, u32) {
    let two = 2.0_f64.to_bits();
    let mut changes = 0;
    let mut least = 0;
    let mut before = is_quarter(two - reach);
    for bits in two - reach + 1..=two + reach {
        let now = is_quarter(bits);
        if now != before {
            changes += 1;
            least = bits;
        }
        before = now;
    }
    (least, changes)
}

fn same(a: NVector, b: NVector) -> bool {
    let bits = |v: Vec3| (v.x().to_bits(), v.y().to_bits(), v.z().to_bits());
    bits(a.as_vec3()) == bits(b.as_vec3())
}

/// The 12 positions, and the faces by their numbers.
fn icosahedron() -> (&'static [NVector], Vec<[usize; 3]>) {
    let vs = model::cut::full_positions();
    let at = |p: NVector| {
        let indexes: Vec<usize> = (0..vs.len()).filter(|i| same(vs[*i], p)).collect();
        assert_eq!(indexes.len(), 1, "each corner is one of the 12, and they differ");
        indexes[0]
    };
    let triples = sloop::icosahedron().iter().map(|f| [at(f.0), at(f.1), at(f.2)]).collect();
    (vs, triples)
}

/// The triples by their rule (SCOPE 19).
fn by_rule() -> Vec<[usize; 3]> {
    let mut t = Vec::new();
    t.extend((1..=4).map(|i| [0, i, i + 1]));
    t.push([0, 5, 1]);
    t.extend((1..=4).map(|i| [i, i + 1, i + 5]));
    t.push([5, 1, 10]);
    t.extend((6..=9).map(|i| [i, i + 1, i - 4]));
    t.push([10, 6, 1]);
    t.extend((6..=9).map(|i| [i, i + 1, 11]));
    t.push([10, 6, 11]);
    t
}

pub fn print() {
    let growth = ChordLength::from_angle(sloop::bound_expansion());
    println!("growth {}", hex(chord_length::probe::length2(growth)));
    let reach = 1_000_000;
    let (least, changes) = threshold(reach);
    println!("threshold {least:016X}");
    println!("threshold-changes {changes} over {reach} doubles below and above 2");
    for (name, bits) in [("below", least - 1), ("at", least)] {
        let angle = chord_length::probe::of_length2(f64::from_bits(bits)).to_angle();
        println!("threshold-{name} {bits:016X} radius {}", hex(angle.as_radians()));
    }
    println!("quarter-circle {}", hex(Angle::QUARTER_CIRCLE.as_radians()));
    let (vs, triples) = icosahedron();
    for (i, v) in vs.iter().enumerate() {
        let v = v.as_vec3();
        println!("position {i} {} {} {}", hex(v.x()), hex(v.y()), hex(v.z()));
        assert!([v.x(), v.y(), v.z()].iter().all(|c| c.to_bits() != (-0.0_f64).to_bits()));
    }
    for t in &triples {
        println!("triple {} {} {}", t[0], t[1], t[2]);
    }
    println!("triples-by-the-rule {}", triples == by_rule());
    // Not a recorded number: shows that altered normals reach the source.
    let x = NVector::new(Vec3::UNIT_X);
    let _ = minor_arc::probe::of_parts(x, x, Vec3::UNIT_Z);
}
