// Times areas in one run. The union and the intersection of two areas of some 100,000 pairs, in nanoseconds a
// pair of both; built with --cfg s2, they stand beside S2CellUnion's of as many cells. And a report of
// 100,000 triples at resolution 15, an eighth of them repeated, in random order and in that of the curve, in
// nanoseconds a triple, beside the same positions sorted and each kept once by Rust's own: both find each
// position by the library's lookup, and the library's time has its tests and its fold too. Each row is the
// best of many rounds.
mod coordinate_systems;
mod haspbarley;
mod lattice;
mod shared;

use shared::{best, Random};
use std::hint::black_box;

const PAIRS: usize = 100_000;
const TRIPLES: usize = 100_000;
const ROUNDS: usize = 40;
const AREA_RESOLUTION: u8 = 12;
const REPORT_RESOLUTION: u8 = 15;

#[cfg(s2)]
mod s2 {
    extern "C" {
        fn s2_area(which: i32, positions: *const u64, count: usize, level: i32) -> usize;
        fn s2_union() -> usize;
        fn s2_intersection() -> usize;
    }

    pub fn area(which: i32, positions: &[u64], level: u8) -> usize {
        unsafe { s2_area(which, positions.as_ptr(), positions.len(), level as i32) }
    }

    pub fn union() -> usize {
        unsafe { s2_union() }
    }

    pub fn intersection() -> usize {
        unsafe { s2_intersection() }
    }
}

#[cfg(not(s2))]
mod s2 {
    pub fn area(_: i32, _: &[u64], _: u8) -> usize {
        0
    }

    pub fn union() -> usize {
        0
    }

    pub fn intersection() -> usize {
        0
    }
}

// Positions with random steps up to a bound, as many as fold to so many pairs or just above that.
fn scattered(random: &mut Random, step: u64) -> (Vec<u64>, Vec<u64>) {
    let (mut positions, mut pairs, mut next) = (Vec::new(), vec![0; 16 * PAIRS], 0);
    loop {
        for _ in 0..PAIRS / 10 {
            next += 1 + random.below(step);
            positions.push(next);
        }
        let cells = haspbarley::fold(0, AREA_RESOLUTION, &positions, &mut pairs).unwrap();
        if cells >= PAIRS {
            pairs.truncate(2 * cells);
            return (positions, pairs);
        }
    }
}

type Operation = fn(&[u64], &[u64], &mut [u64]) -> Result<usize, u8>;

fn area_row(name: &str, step: u64, a: &[u64], b: &[u64], ours: Operation, theirs: fn() -> usize) {
    let pairs = (a.len() + b.len()) / 2;
    let mut out = vec![0; 2 * (a.len() + b.len())];
    let cells = ours(a, b, &mut out).unwrap();
    assert!(!cfg!(s2) || cells == theirs());
    let times = best(ROUNDS, pairs, &mut [&mut || ours(black_box(a), black_box(b), &mut out).unwrap() as u64, &mut || theirs() as u64]);
    print!("{name:<12} steps to {step}  {pairs:>6} pairs  to {cells:>6}  library {:>6.2} ns", times[0]);
    println!("{}", if cfg!(s2) { format!("   S2 {:>6.2} ns   ratio {:.2}", times[1], times[0] / times[1]) } else { String::new() });
}

fn area_rows(random: &mut Random, step: u64) {
    let (first, a) = scattered(random, step);
    let (second, b) = scattered(random, step);
    let cells = (s2::area(0, &first, AREA_RESOLUTION), s2::area(1, &second, AREA_RESOLUTION));
    assert!(!cfg!(s2) || cells == (a.len() / 2, b.len() / 2));
    area_row("union", step, &a, &b, haspbarley::area_union, s2::union);
    area_row("intersection", step, &a, &b, haspbarley::area_intersection, s2::intersection);
}

fn report_row(name: &str, positions: &[u64]) {
    let triples: Vec<[i32; 3]> = positions
        .iter()
        .map(|&s| {
            let [x, y, z, _] = haspbarley::cell(0, REPORT_RESOLUTION, s).unwrap();
            [x, y, z]
        })
        .collect();
    let numbers: Vec<i32> = triples.iter().flatten().copied().collect();
    let (mut work, mut pairs, mut sorted) = (vec![0; TRIPLES], vec![0; 2 * TRIPLES], Vec::with_capacity(TRIPLES));
    let mut by_sort = || {
        sorted.clear();
        sorted.extend(black_box(&triples).iter().map(|&t| haspbarley::position(0, REPORT_RESOLUTION, t).unwrap()[0]));
        sorted.sort_unstable();
        sorted.dedup();
        sorted.len() as u64
    };
    let distinct = by_sort() as usize;
    let cells = haspbarley::area_report(0, REPORT_RESOLUTION, &numbers, &mut work, &mut pairs).unwrap();
    assert!(work[..distinct].windows(2).all(|two| two[0] < two[1]) && work[distinct..].iter().all(|&s| s == 0));
    let mut found = || triples.iter().fold(0, |sum, &t| sum + haspbarley::position(0, REPORT_RESOLUTION, black_box(t)).unwrap()[0]);
    let mut reported = || haspbarley::area_report(0, REPORT_RESOLUTION, black_box(&numbers), &mut work, &mut pairs).unwrap() as u64;
    let times = best(ROUNDS, TRIPLES, &mut [&mut reported, &mut by_sort, &mut found]);
    print!("report {name:<14} {cells:>6} cells  library {:>6.1} ns   sort and dedup {:>6.1} ns   ratio {:.2}", times[0], times[1], times[0] / times[1]);
    println!("   (finding the positions {:.1} ns)", times[2]);
}

fn main() {
    let mut random = Random(88172645463325252);
    area_rows(&mut random, 3);
    area_rows(&mut random, 8);
    let mut positions: Vec<u64> = Vec::new();
    while positions.len() < TRIPLES {
        let again = positions.len() > 8 && random.below(8) == 0;
        let s = if again { positions[random.below(positions.len() as u64) as usize] } else { random.below(1 << (2 * REPORT_RESOLUTION)) };
        positions.push(s);
    }
    report_row("random order", &positions);
    positions.sort_unstable();
    report_row("curve order", &positions);
}
