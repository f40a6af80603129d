// Times checking a treated list in one run: the library beside the same pair by pair in Rust, on 512 codes
// of resolution 30 that do not overlap, in curve order, in reverse and at random, and at random of mixed
// resolutions. Each row is the best of many rounds, in microseconds a list.
mod coordinate_systems;
mod haspbarley;
mod lattice;
mod shared;

use shared::{best, Random};
use std::hint::black_box;

const CODES: usize = 512;
const ROUNDS: usize = 400;

// A code in UV.
fn code(resolution: u8, s: u64) -> Vec<u8> {
    let bytes = (resolution as usize + 3) / 4;
    let position = s << (8 * bytes - 2 * resolution as usize);
    let mut code = vec![resolution];
    code.extend((0..bytes).rev().map(|k| (position >> (8 * k)) as u8));
    code
}

// Whether all codes of a list in UV are sound and no two of them overlap; how many there are.
fn pair_by_pair(list: &[u8]) -> Option<usize> {
    let mut cells: Vec<(u8, u64)> = Vec::new();
    let mut at = 0;
    while at < list.len() {
        let resolution = list[at];
        let bytes = (resolution as usize + 3) / 4;
        if resolution > 30 || at + bytes >= list.len() + (bytes == 0) as usize {
            return None;
        }
        let spare = 8 * bytes - 2 * resolution as usize;
        let position = list[at + 1..at + 1 + bytes].iter().fold(0u64, |v, &b| v << 8 | b as u64);
        if position & ((1 << spare) - 1) != 0 {
            return None;
        }
        let s = position >> spare;
        for &(r, t) in &cells {
            let level = r.min(resolution);
            if s >> (2 * (resolution - level)) == t >> (2 * (r - level)) {
                return None;
            }
        }
        cells.push((resolution, s));
        at += 1 + bytes;
    }
    Some(cells.len())
}

fn row(name: &str, codes: &[Vec<u8>]) {
    let list = codes.concat();
    assert_eq!(haspbarley::check(&list), Ok([0, CODES as u64]));
    assert_eq!(pair_by_pair(&list), Some(CODES));
    let times = best(ROUNDS, 1000, &mut [&mut || haspbarley::check(black_box(&list)).unwrap()[1], &mut || pair_by_pair(black_box(&list)).unwrap() as u64]);
    println!("check {name:<22} {:>5} bytes  library {:>7.1} us   pair by pair {:>7.1} us   ratio {:.2}", list.len(), times[0], times[1], times[0] / times[1]);
}

fn main() {
    let mut random = Random(88172645463325252);
    let mut shuffled = |mut codes: Vec<Vec<u8>>| {
        for k in (1..codes.len()).rev() {
            codes.swap(k, random.below(k as u64 + 1) as usize);
        }
        codes
    };
    let step = (1u64 << 60) / CODES as u64;
    let ordered: Vec<_> = (0..CODES as u64).map(|k| code(30, k * step + 7)).collect();
    row("in curve order", &ordered);
    row("in reverse", &ordered.iter().rev().cloned().collect::<Vec<_>>());
    row("at random", &shuffled(ordered));
    // beside each other, the k-th within block k of resolution 5, at resolutions 5 to 30
    let mixed = (0..CODES as u64).map(|k| (5 + k % 26, k)).map(|(r, k)| code(r as u8, (2 * k) << (2 * (r - 5)))).collect();
    row("at random, mixed", &shuffled(mixed));
}
