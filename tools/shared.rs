// What the drivers share: a source of random numbers, the six orientations by number, the Rust's lookup
// of a position with its flavor, whether a point is moved, the best time of many rounds, and a
// comparison's count.
use crate::lattice::lsystem::triple_to_s_lattice;
use crate::lattice::triple::triple_flavor;
use crate::lattice::types::{Orientation, Triple};

pub const ORIENTATIONS: [Orientation; 6] = [Orientation::UV, Orientation::VU, Orientation::UW, Orientation::WU, Orientation::VW, Orientation::WV];

pub struct Random(pub u64);

impl Random {
    pub fn next(&mut self) -> u64 {
        self.0 ^= self.0 << 13;
        self.0 ^= self.0 >> 7;
        self.0 ^= self.0 << 17;
        self.0
    }

    pub fn below(&mut self, n: u64) -> u64 {
        self.next() % n
    }
}

// At resolution 0 the Rust's lookup goes through the leaf table: its one cell has position 0.
pub fn position(o: usize, r: u8, t: &Triple) -> (u64, u8) {
    let s = if r == 0 { 0 } else { triple_to_s_lattice(t, r as usize, ORIENTATIONS[o]) };
    (s, triple_flavor(t, ((1i64 << r) - 1) as i32))
}

// Whether a point is moved, which the Rust does not tell: a floor is negative, or m + n + parity is above
// the last row, before any correction.
pub fn moved(i: f64, j: f64, r: u8) -> bool {
    let (m, n) = (i.floor(), j.floor());
    let parity = if (i - m) + (j - n) >= 1.0 { 1 } else { 0 };
    m < 0.0 || n < 0.0 || m as i64 + n as i64 + parity > (1 << r) - 1
}

// The best time of so many rounds, in nanoseconds for each of so many calls, of each of the runs; their rounds
// alternate.
pub fn best(rounds: usize, calls: usize, runs: &mut [&mut dyn FnMut() -> u64]) -> Vec<f64> {
    let mut least = vec![f64::MAX; runs.len()];
    for _ in 0..rounds {
        for (run, least) in runs.iter_mut().zip(&mut least) {
            let start = std::time::Instant::now();
            std::hint::black_box(run());
            *least = least.min(start.elapsed().as_secs_f64() / calls as f64 * 1e9);
        }
    }
    least
}

// One part of the comparison: how much was compared, and how much differed.
pub struct Part {
    name: &'static str,
    compared: u64,
    differed: u64,
}

impl Part {
    pub fn new(name: &'static str) -> Part {
        Part { name, compared: 0, differed: 0 }
    }

    pub fn same<T: PartialEq + std::fmt::Debug>(&mut self, asked: std::fmt::Arguments, ours: T, rust: T) {
        self.compared += 1;
        if ours != rust {
            self.differed += 1;
            if self.differed == 1 {
                println!("  {}: {asked}: the library {ours:?}, the Rust {rust:?}", self.name);
            }
        }
    }

    pub fn done(self, all: &mut u64) {
        println!("{:<34} {:>10} compared, {} differed", self.name, self.compared, self.differed);
        *all += self.differed;
    }
}
