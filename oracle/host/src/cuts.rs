//! The samples of the program `test_cuts`: rings as built, and what the source says of each.
use crate::random::{P, Random};
use crate::shapes;
use jord::spherical::sloop::probe as sloop;
use jord::{NVector, Vec3};
use model::long::Mode;
use model::loops::{RING, Ring};

/// A ring in bytes: u16 count, the positions, the classes.
fn bytes(ring: &Ring) -> Vec<u8> {
    let mut b = (ring.vertices.len() as u16).to_le_bytes().to_vec();
    for (p, _) in &ring.vertices {
        let v = p.as_vec3();
        for f in [v.x(), v.y(), v.z()] {
            b.extend(f.to_le_bytes());
        }
    }
    b.extend(ring.vertices.iter().map(|v| v.1));
    b
}

fn position(p: &NVector) -> String {
    let v = p.as_vec3();
    format!(" {:016x} {:016x} {:016x}", v.x().to_bits(), v.y().to_bits(), v.z().to_bits())
}

/// The line of a ring: its triangles by the source's ear clipping, and the insides by the source's `find_insides`.
fn line(ring: &Ring) -> String {
    let mut s = format!("ring of {}", ring.vertices.len());
    match model::cut::triangles_checked(ring) {
        Some(list) => {
            list.iter().for_each(|[a, b, c]| s += &format!(", {a} {b} {c}"));
            s += if model::cut::accepted(ring, &list) { "; accepted" } else { "; not accepted" };
        }
        None => s += ", no ear",
    }
    s + &match sloop::find_insides(&ring.vertices) {
        Some((a, b)) => format!("; insides{}{}\n", position(&a), position(&b)),
        None => "; no insides\n".to_string(),
    }
}

fn ring(list: &[P]) -> Option<Ring> {
    let vs: Vec<NVector> = list.iter().map(|p| NVector::new(Vec3::new(p[0], p[1], p[2]))).collect();
    let b = model::build::build(Mode::Plain, &vs);
    (b.state == RING).then_some(Ring { state: RING, vertices: b.vertices })
}

/// The rings: the four corners of SCOPE 37, then some of each size, then some that get stuck, then two of 512.
fn rings(r: &mut Random) -> Vec<Ring> {
    let given = [[0.6, 0.0, 0.8], [0.0, 0.6, 0.8], [-0.6, 0.0, 0.8], [0.0, -0.6, 0.8]];
    let mut all: Vec<Ring> = ring(&given).into_iter().collect();
    for n in 3..=24 {
        all.extend((0..6).filter_map(|_| ring(&shapes::any(r, n))));
    }
    let mut stuck = Vec::new();
    while stuck.len() < 12 {
        let n = 4 + r.below(20);
        stuck.extend(ring(&shapes::any(r, n)).filter(|g| model::cut::triangles(g).is_none()));
    }
    all.extend(stuck);
    all.extend([shapes::star(r, 512), shapes::ragged(r, 512)].iter().filter_map(|l| ring(l)));
    all
}

pub fn write(input: &str, output: &str) {
    let rings = rings(&mut Random::new(4));
    std::fs::write(input, rings.iter().flat_map(bytes).collect::<Vec<u8>>()).expect("the rings are written");
    std::fs::write(output, rings.iter().map(line).collect::<String>()).expect("the lines are written");
    println!("{} rings", rings.len());
}
