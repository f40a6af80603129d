// Times the mending of lists of 100 MB in one run: the library beside a plain mender in Rust that does the same, on
// lists of sound codes of all resolutions, of one resolution, and with one code in eight at fault. Each row is the
// best of some rounds, in megabytes a second.
mod coordinate_systems;
mod haspbarley;
mod lattice;
mod shared;

use shared::{best, Random};
use std::hint::black_box;

const SIZE: usize = 100_000_000;
const ROUNDS: usize = 5;

// The bytes of a code, with its spare bits as they are asked for.
fn code(o: u8, r: u8, s: u64, spare: u64, list: &mut Vec<u8>) {
    let bytes = (r as usize + 3) / 4;
    let v = (s as u128) << (8 * bytes - 2 * r as usize) | spare as u128;
    list.push(o << 5 | r);
    (0..bytes).rev().for_each(|k| list.push((v >> (8 * k)) as u8));
}

// What the code at the front says: orientation, resolution, position, spare bits and length.
fn read(rest: &[u8]) -> Option<(u8, u8, u64, u64, usize)> {
    let (o, r) = (rest[0] >> 5, rest[0] & 31);
    let used = 1 + (r as usize + 3) / 4;
    if r > 30 || o > 5 || rest.len() < used {
        return None;
    }
    let v = rest[1..used].iter().fold(0u64, |v, &b| v << 8 | b as u64);
    let spare = 8 * (used - 1) - 2 * r as usize;
    Some((o, r, v >> spare, v & ((1 << spare) - 1), used))
}

fn plainly(list: &[u8], out: &mut Vec<u8>) -> u64 {
    let (mut at, mut changes) = (0, 0);
    out.clear();
    while at < list.len() {
        match read(&list[at..]) {
            Some((o, r, s, spare, used)) => {
                let old = matches!(o, 1 | 3 | 4);
                if !old && spare == 0 {
                    out.extend_from_slice(&list[at..at + used]);
                } else {
                    let (forward, place) = if old { ([0, 0, 2, 2, 5, 5][o as usize], (1 << (2 * r)) - 1 - s) } else { (o, s) };
                    code(forward, r, place, 0, out);
                    changes += old as u64 + (spare != 0) as u64;
                }
                at += used;
            }
            None => {
                changes += 1;
                at += 1;
            }
        }
    }
    changes
}

// A list of so many bytes, of codes at the resolutions that are asked for, so many of each eight at fault.
fn list_of(resolution: impl Fn(&mut Random) -> u8, faults: u64) -> Vec<u8> {
    let mut random = Random(0x9e3779b97f4a7c15);
    let mut list = Vec::with_capacity(SIZE + 16);
    while list.len() < SIZE {
        let r = resolution(&mut random);
        let s = random.below(1 << (2 * r));
        match if random.below(8) < faults { random.below(3) } else { 3 } {
            0 => code([1, 3, 4][random.below(3) as usize], r, s, 0, &mut list),
            1 => code(0, r, s, if r % 4 == 0 { 0 } else { 1 }, &mut list),
            2 => list.push(31),
            _ => code([0, 2, 5][random.below(3) as usize], r, s, 0, &mut list),
        }
    }
    list.truncate(SIZE);
    list
}

fn mend_row(name: &str, list: Vec<u8>) {
    let (mut out, mut plain) = (vec![0; list.len()], Vec::with_capacity(list.len()));
    let [written, changes] = haspbarley::mend(&list, &mut out).unwrap();
    assert_eq!(changes, plainly(&list, &mut plain));
    assert!(out[..written as usize] == plain[..]);
    let times = best(
        ROUNDS,
        list.len(),
        &mut [&mut || haspbarley::mend(black_box(&list), &mut out).unwrap()[0], &mut || plainly(black_box(&list), &mut plain)],
    );
    println!("mend {name:<28} {changes:>9} changes  library {:>5.0} MB/s   plain Rust {:>5.0} MB/s   ratio {:.2}", 1e3 / times[0], 1e3 / times[1], times[0] / times[1]);
}

fn main() {
    mend_row("sound, all resolutions", list_of(|random| random.below(31) as u8, 0));
    mend_row("sound, resolution 30", list_of(|_| 30, 0));
    mend_row("sound, resolution 12", list_of(|_| 12, 0));
    mend_row("sound, resolution 0", list_of(|_| 0, 0));
    mend_row("one code in eight at fault", list_of(|random| random.below(31) as u8, 1));
    mend_row("all at fault", list_of(|random| random.below(31) as u8, 8));
}
