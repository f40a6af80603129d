// Writes the program's test: queries, and for each the answer that the Rust gives, set apart by a tab.
// First the seven lines of the requirements, then every resolution in every orientation (first and
// last position, corners and edges of the wedge, random places; points inside, on edges, just off
// them, far outside, subnormal, negative zero), then each refusal by several bad lines.
mod coordinate_systems;
mod lattice;
mod shared;

use coordinate_systems::IJ;
use lattice::curve::round_to_triple;
use lattice::lsystem::s_to_cell;
use lattice::types::Triple;
use shared::{moved, position, Random, ORIENTATIONS};

fn by_position(o: usize, r: u8, s: u64) -> Triple {
    let c = s_to_cell(s, r as usize, ORIENTATIONS[o]);
    println!("P {o} {r} {s}\t{} {} {} {}", c.triple.x, c.triple.y, c.triple.z, c.flavor);
    c.triple
}

fn by_triple(o: usize, r: u8, t: &Triple) {
    let (s, f) = position(o, r, t);
    println!("C {o} {r} {} {} {}\t{s} {f}", t.x, t.y, t.z);
}

fn by_point(o: usize, r: u8, i: f64, j: f64) {
    let t = round_to_triple(IJ(i, j), r as usize);
    let (s, f) = position(o, r, &t);
    println!("R {o} {r} {:016X} {:016X}\t{} {} {} {s} {f} {}", i.to_bits(), j.to_bits(), t.x, t.y, t.z, moved(i, j, r) as u8);
}

fn refused(number: u8, lines: &[&str]) {
    for line in lines {
        println!("{line}\t! {number}");
    }
}

fn main() {
    for line in [
        "P 0 1 2\t-1 1 0 2",
        "P 5 1 0\t-1 1 0 2",
        "C 0 2 -1 2 0\t6 3",
        "C 1 2 0 3 -3\t0 2",
        "R 0 1 3FE0000000000000 3FE0000000000000\t0 1 0 1 1 0",
        "P 0 1 4\t! 3",
        "C 0 1 0 2 -2\t! 5",
    ] {
        println!("{line}");
    }
    let mut random = Random(0x9E3779B97F4A7C15);
    for r in 0..=30u8 {
        let last = ((1i64 << r) - 1) as i32;
        let side = (1u64 << r) as f64;
        for o in 0..6 {
            by_position(o, r, 0);
            by_position(o, r, (1 << (2 * r)) - 1);
            for _ in 0..2 {
                let t = by_position(o, r, random.below(1 << (2 * r)));
                by_triple(o, r, &t);
            }
            // the wedge's three corners, and a place on each of its sides
            let some = random.below(last as u64 + 1) as i32;
            for t in [
                Triple::new(0, 0, 0),
                Triple::new(-last, last, 0),
                Triple::new(0, last, -last),
                Triple::new(-some, some, 0),
                Triple::new(0, some, -some),
                Triple::new(-some, last, some - last),
            ] {
                by_triple(o, r, &t);
            }
            let a = random.below(1 << 53) as f64 / (1u64 << 53) as f64;
            let b = random.below(1 << 53) as f64 / (1u64 << 53) as f64;
            by_point(o, r, a * side, b * side);
        }
        let o = r as usize % 6;
        let off = |x: f64, by: i64| f64::from_bits((x.to_bits() as i64 + by) as u64);
        for (i, j) in [
            (0.0, 0.0),
            (-0.0, -0.0),
            (0.5, 0.5),
            (0.5, off(0.5, -1)),
            (off(1.0, -1), 0.0),
            (1.0, off(1.0, -1)),
            (side, 0.0),
            (0.0, off(side, -1)),
            (off(side, 1), off(side, 1)),
            (-1.0, side / 2.0),
            (side / 2.0, -0.25),
            (5e-324, -5e-324),
            (-5e-324, 1e-310),
            (2147483648.0, -2147483648.0),
            (2147483648.0, 2147483648.0),
            (-2147483648.0, 2147483648.0),
            (1e9, 3.75),
        ] {
            by_point(o, r, i, j);
        }
    }
    refused(1, &["P 0 31 0", "P 255 255 0", "C 0 31 0 0 0", "C 6 31 5 5 5", "R 0 31 0000000000000000 0000000000000000", "R 6 200 7FF8000000000000 0000000000000000"]);
    refused(2, &["P 6 30 0", "P 255 0 9", "C 6 1 5 5 5", "C 200 30 0 0 0", "R 6 1 0000000000000000 0000000000000000", "R 7 30 7FF0000000000000 0000000000000000"]);
    refused(3, &["P 0 0 1", "P 1 0 1", "P 1 1 4", "P 4 2 16", "P 0 30 1152921504606846976", "P 5 30 18446744073709551615"]);
    refused(4, &["C 0 0 1 1 1", "C 0 1 -1 0 0", "C 3 30 2147483647 2147483647 2147483647", "C 5 7 -2147483648 -2147483648 0", "C 2 2 2147483647 1 -2147483646"]);
    refused(5, &["C 0 0 0 1 0", "C 0 1 1 0 0", "C 1 1 0 2 -1", "C 4 3 -8 8 0", "C 5 30 -1073741824 1073741824 0", "C 0 2 0 -1 1", "C 2 30 2147483647 -2147483648 1"]);
    refused(9, &[
        "R 0 1 7FF8000000000000 0000000000000000",
        "R 0 1 0000000000000000 FFF0000000000000",
        "R 5 30 7FF0000000000000 0000000000000000",
        "R 1 1 41E0000000000001 0000000000000000",
        "R 1 1 0000000000000000 C1E0000000000001",
        "R 2 7 7FEFFFFFFFFFFFFF 0000000000000000",
    ]);
    refused(21, &[
        "", " ", "P", "P 0 1", "P 0 1 ", "P 0 1 2 ", " P 0 1 2", "P  0 1 2", "P 0 1 2 3", "p 0 1 2", "X 0 1 2", "PP 0 1 2", "P 00 1 2", "P 0 01 2", "P 0 1 02", "P 0 1 -2",
        "P 256 1 2", "P 0 256 2", "P 0 1 18446744073709551616", "P 0 1 +2", "P 0 1 2\r", "P 0 1 0x2", "P 31 1 99999999999999999999999",
        "C 0 1 0 0", "C 0 1 -0 0 0", "C 0 1 0 0 0 0", "C 0 1 2147483648 0 0", "C 0 1 0 -2147483649 0", "C 0 1 0 0 --1", "C 0 1 0 - 1", "C 0 1 00 0 0", "C 0 1 1.0 0 0",
        "R 0 1 3FE0000000000000", "R 0 1 3FE000000000000 3FE0000000000000", "R 0 1 3FE0000000000000 3FE00000000000000", "R 0 1 3fe0000000000000 3FE0000000000000", "R 0 1 3FE000000000000G 3FE0000000000000",
        "P 0 1 0000000000000000000000000000000000000000000000000000000000000000000000000000000",
        "R 0 1 3FE0000000000000 3FE0000000000000 and more than sixty-four bytes of a line",
    ]);
}
