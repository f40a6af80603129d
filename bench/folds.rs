// Times folding in one run: the library beside a plain fold, level by level, in Rust, on 65,536 positions
// that fold to one cell, on a random half of twice as many, and on as many that do not fold at all; and a
// drawing without tables beside as many lookups of cells. Each row is the best of many rounds, in
// nanoseconds a position or a cell. Built with --cfg s2, it has S2CellUnion's Normalize on as many cells.
mod coordinate_systems;
mod haspbarley;
mod lattice;
mod shared;

use shared::{best, Random};
use std::hint::black_box;

const COUNT: usize = 65_536;
const ROUNDS: usize = 100;
const RESOLUTION: u8 = 9;

// Four children into their parent on one level after another; then curve order.
fn by_levels(positions: &[u64]) -> Vec<(u8, u64)> {
    let (mut done, mut at) = (Vec::new(), positions.to_vec());
    for level in (1..=RESOLUTION).rev() {
        let mut next = Vec::new();
        let mut k = 0;
        while k < at.len() {
            if at[k] % 4 == 0 && k + 3 < at.len() && at[k + 3] == at[k] + 3 {
                next.push(at[k] / 4);
                k += 4;
            } else {
                done.push((level, at[k]));
                k += 1;
            }
        }
        at = next;
    }
    done.extend(at.iter().map(|&p| (0, p)));
    done.sort_by_key(|&(m, p)| p << (2 * (RESOLUTION - m)));
    done
}

#[cfg(s2)]
fn normalized(positions: &[u64]) -> impl FnMut() -> u64 {
    extern "C" {
        fn s2_prepare(positions: *const u64, count: usize, level: i32);
        fn s2_normalize() -> usize;
    }
    unsafe { s2_prepare(positions.as_ptr(), positions.len(), RESOLUTION as i32) };
    || unsafe { s2_normalize() as u64 }
}

#[cfg(not(s2))]
fn normalized(_: &[u64]) -> impl FnMut() -> u64 {
    || 0
}

fn fold_row(name: &str, positions: &[u64]) {
    let mut pairs = vec![0; 2 * COUNT];
    let cells = haspbarley::fold(0, RESOLUTION, positions, &mut pairs).unwrap();
    let folded: Vec<(u8, u64)> = pairs[..2 * cells].chunks(2).map(|pair| (pair[0] as u8, pair[1])).collect();
    assert_eq!(folded, by_levels(positions));
    let mut s2 = normalized(positions);
    let times = best(
        ROUNDS,
        positions.len(),
        &mut [&mut || haspbarley::fold(0, RESOLUTION, black_box(positions), &mut pairs).unwrap() as u64, &mut || by_levels(black_box(positions)).len() as u64, &mut s2],
    );
    print!("fold {name:<16} {cells:>6} cells  library {:>6.2} ns   by levels {:>6.2} ns   ratio {:.2}", times[0], times[1], times[0] / times[1]);
    println!("{}", if cfg!(s2) { format!("   S2 {:>6.2} ns   ratio {:.2}", times[2], times[0] / times[2]) } else { String::new() });
}

fn draw_row() {
    let mut drawn = || haspbarley::draw(0, black_box(6)).unwrap()[5] as u64;
    let mut looked_up = || (0..4096).fold(0, |sum, s| sum + haspbarley::cell(0, 6, black_box(s)).unwrap()[1] as u64);
    let times = best(ROUNDS, 4096, &mut [&mut drawn, &mut looked_up]);
    println!("draw r 6, a cell  library {:>6.2} ns   hb_cell {:>6.2} ns   ratio {:.2}", times[0], times[1], times[0] / times[1]);
}

fn main() {
    let mut random = Random(88172645463325252);
    fold_row("to one cell", &(0..COUNT as u64).collect::<Vec<_>>());
    let half: Vec<u64> = (0..4u64.pow(RESOLUTION as u32)).filter(|_| random.below(2) == 1).take(COUNT).collect();
    fold_row("random half full", &half);
    fold_row("nothing to fold", &(0..COUNT as u64).map(|k| 4 * k).collect::<Vec<_>>());
    draw_row();
}
