// Times the library beside the Rust in one run, on the same random inputs: positions to cells and
// cells to positions, all six orientations mixed, at resolutions 5, 15 and 30, and at all mixed. Each
// row is the best of many short rounds, in nanoseconds a call, and the ratio of the two. Built with
// --cfg s2, it has rows of S2's leaf cells too, as far down as resolution 30, timed in the same rounds.
mod coordinate_systems;
mod haspbarley;
mod lattice;
mod shared;

use lattice::lsystem::{s_to_cell, triple_to_s_lattice};
use lattice::types::Triple;
use shared::{best, Random, ORIENTATIONS};
use std::hint::black_box;

const CALLS: usize = 20_000;
const ROUNDS: usize = 200;

fn row(name: &str, at: &str, ours: f64, other: &str, theirs: f64) {
    println!("{name:<18} {at:<5}  library {ours:>7.1} ns   {other:<8} {theirs:>7.1} ns   ratio {:.2}", ours / theirs);
}

#[cfg(s2)]
mod s2 {
    use crate::shared::Random;

    #[repr(C)]
    #[derive(Clone, Copy)]
    pub struct FaceIJ {
        face: i32,
        i: i32,
        j: i32,
    }

    extern "C" {
        fn s2_ids_to_ij(ids: *const u64, count: usize) -> u64;
        fn s2_ij_to_ids(cells: *const FaceIJ, count: usize) -> u64;
        fn s2_id(cell: FaceIJ) -> u64;
    }

    pub struct Cells {
        ids: Vec<u64>,
        cells: Vec<FaceIJ>,
    }

    impl Cells {
        pub fn new(count: usize, random: &mut Random) -> Cells {
            let mut coordinate = |n| random.below(n) as i32;
            let cells: Vec<FaceIJ> = (0..count).map(|_| FaceIJ { face: coordinate(6), i: coordinate(1 << 30), j: coordinate(1 << 30) }).collect();
            Cells { ids: cells.iter().map(|&c| unsafe { s2_id(c) }).collect(), cells }
        }

        pub fn to_ij(&self) -> u64 {
            unsafe { s2_ids_to_ij(self.ids.as_ptr(), self.ids.len()) }
        }

        pub fn to_ids(&self) -> u64 {
            unsafe { s2_ij_to_ids(self.cells.as_ptr(), self.cells.len()) }
        }
    }
}

#[cfg(not(s2))]
mod s2 {
    use crate::shared::Random;

    pub struct Cells;

    impl Cells {
        pub fn new(_: usize, _: &mut Random) -> Cells {
            Cells
        }

        pub fn to_ij(&self) -> u64 {
            0
        }

        pub fn to_ids(&self) -> u64 {
            0
        }
    }
}

fn main() {
    let mut random = Random(88172645463325252);
    let leaves = s2::Cells::new(CALLS, &mut random);
    for (at, resolutions) in [("r  5", 5..6), ("r 15", 15..16), ("r 30", 30..31), ("mixed", 1..31u8)] {
        let asked: Vec<(usize, u8, u64)> = (0..CALLS)
            .map(|_| {
                let r = resolutions.start + random.below(resolutions.len() as u64) as u8;
                (random.below(6) as usize, r, random.below(1 << (2 * r)))
            })
            .collect();
        let triples: Vec<(usize, u8, Triple)> = asked.iter().map(|&(o, r, s)| (o, r, s_to_cell(s, r as usize, ORIENTATIONS[o]).triple)).collect();
        let cells = || {
            asked.iter().fold(0, |sum, &(o, r, s)| {
                let c = haspbarley::cell(o as u8, r, black_box(s)).unwrap();
                sum + (c[0] as i64 + 3 * c[1] as i64 + 5 * c[2] as i64 + 7 * c[3] as i64) as u64 % 1024
            })
        };
        let rust_cells = || {
            asked.iter().fold(0, |sum, &(o, r, s)| {
                let c = s_to_cell(black_box(s), r as usize, ORIENTATIONS[o]);
                sum + (c.triple.x as i64 + 3 * c.triple.y as i64 + 5 * c.triple.z as i64 + 7 * c.flavor as i64) as u64 % 1024
            })
        };
        let places = || triples.iter().fold(0, |sum, (o, r, t)| sum + haspbarley::position(*o as u8, *r, black_box([t.x, t.y, t.z])).unwrap()[0] % 1024);
        let rust_places = || triples.iter().fold(0, |sum, (o, r, t)| sum + triple_to_s_lattice(black_box(t), *r as usize, ORIENTATIONS[*o]) % 1024);
        assert_eq!((cells(), places()), (rust_cells(), rust_places()));
        let down = best(ROUNDS, CALLS, &mut [&mut { cells }, &mut { rust_cells }, &mut || leaves.to_ij()]);
        let up = best(ROUNDS, CALLS, &mut [&mut { places }, &mut { rust_places }, &mut || leaves.to_ids()]);
        row("position to cell", at, down[0], "the Rust", down[1]);
        row("cell to position", at, up[0], "the Rust", up[1]);
        if cfg!(s2) && at == "r 30" {
            row("S2's id to ij", at, down[0], "S2", down[2]);
            row("S2's ij to id", at, up[0], "S2", up[2]);
        }
    }
}
