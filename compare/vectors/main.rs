// Writes the test of the program `vectors`: lines, and for each the answer to expect, set apart by a
// tab. Corner sums both ways and child steps have the Rust's answers; the position code, which the Rust
// lacks, has those of the requirements' rule, written here bit by bit. Then each refusal by several
// lines.
mod coordinate_systems;
mod lattice;
mod shared;

use lattice::lsystem::{ab_to_triple, curve_child, triple_to_ab, triple_to_curve_node, CurveNode};
use lattice::triple::triple_in_bounds;
use lattice::types::Triple;
use shared::{Random, ORIENTATIONS};

const FAR: i64 = 1 << 34;

fn refused(number: u8, lines: &[&str]) {
    for line in lines {
        println!("{line}\t! {number}");
    }
}

// ---- corner sums

fn corner_sum(x: i32, y: i32, z: i32) -> Option<(i64, i64)> {
    let good = matches!(x as i64 + y as i64 + z as i64, 0 | 1);
    good.then(|| {
        let (a, b) = triple_to_ab(&Triple::new(x, y, z));
        (a as i64, b as i64)
    })
}

// A triple, and the pair that it gives, back.
fn by_triple(x: i32, y: i32, z: i32) {
    match corner_sum(x, y, z) {
        Some((a, b)) => {
            println!("S {x} {y} {z}\t{a} {b}");
            by_pair(a, b);
        }
        None => println!("S {x} {y} {z}\t! 4"),
    }
}

// The Rust's answer, where it does not panic and the triple has that corner sum.
fn by_pair(a: i64, b: i64) {
    let near = (-FAR..=FAR).contains(&a) && (-FAR..=FAR).contains(&b);
    let found = std::panic::catch_unwind(|| ab_to_triple(a as f64, b as f64)).ok();
    match found.filter(|t| near && corner_sum(t.x, t.y, t.z) == Some((a, b))) {
        Some(t) => println!("I {a} {b}\t{} {} {}", t.x, t.y, t.z),
        None => println!("I {a} {b}\t! 6"),
    }
}

fn corners(random: &mut Random) {
    by_pair(20, -16);
    by_pair(14, -4);
    for x in -2..=2 {
        for y in -2..=2 {
            for z in -x - y - 1..=-x - y + 2 {
                by_triple(x, y, z);
            }
        }
    }
    for a in -12..=24 {
        for b in -16..=8 {
            by_pair(a, b);
        }
    }
    // coordinates of every size; every third one is off by a little, and most pairs near by are misses
    for k in 0..300u64 {
        let bits = 2 + k % 30;
        let mut part = || (random.below(1 << bits) as i64 - (1 << (bits - 1))) as i32;
        let (x, y) = (part(), part());
        let z = [0, 1, 2 - 3 * (k as i64 % 2)][k as usize % 3] - x as i64 - y as i64;
        if z != z as i32 as i64 {
            continue;
        }
        by_triple(x, y, z as i32);
        if let Some((a, b)) = corner_sum(x, y, z as i32) {
            by_pair(a + random.below(13) as i64 - 6, b + random.below(13) as i64 - 6);
        }
    }
    const LEAST: i32 = i32::MIN;
    const MOST: i32 = i32::MAX;
    for (x, y, z) in [
        (MOST, LEAST, 1), (MOST, LEAST, 2), (LEAST, MOST, 1), (LEAST, MOST, 2), (1, MOST, LEAST), (2, LEAST, MOST), (MOST, -MOST, 0), (-MOST, MOST, 1),
        (MOST, MOST, MOST), (LEAST, LEAST, LEAST), (MOST, MOST, LEAST), (MOST, 1, LEAST + 2), (LEAST, LEAST, 0), (0, LEAST, LEAST), (MOST, LEAST, 3), (MOST, LEAST, 0),
    ] {
        by_triple(x, y, z);
    }
    // about the greatest size of a pair
    for a in FAR - 9..=FAR + 9 {
        for b in [4, -8, a - 12, -a] {
            by_pair(a, b);
            by_pair(-a, b);
            by_pair(b, a);
        }
    }
    for a in [i64::MIN, i64::MAX, -1 << 53, 1 << 40] {
        by_pair(a, -4);
        by_pair(8, a);
    }
}

// ---- codes

fn bits_of_code(o: u8, r: u8, s: u64) -> String {
    let mut bits = format!("{o:03b}{r:05b}");
    for k in (0..2 * r).rev() {
        bits.push(if s >> k & 1 == 1 { '1' } else { '0' });
    }
    bits
}

fn code(o: u8, r: u8, s: u64) -> Vec<u8> {
    let mut bits = bits_of_code(o, r, s);
    while bits.len() % 8 > 0 {
        bits.push('0');
    }
    (0..bits.len() / 8).map(|k| u8::from_str_radix(&bits[8 * k..8 * k + 8], 2).unwrap()).collect()
}

fn words(bytes: &[u8]) -> String {
    bytes.iter().map(|b| b.to_string()).collect::<Vec<_>>().join(" ")
}

// VU, WU and VW are read as the same place of the curve run forward, and written no more.
fn read_as(o: u8, r: u8, s: u64) -> (u8, u64, u8) {
    let turned = (1 << (2 * r)) - 1 - s;
    match o {
        1 => (0, turned, 1),
        3 => (2, turned, 1),
        4 => (5, turned, 1),
        _ => (o, s, 0),
    }
}

// A code written, read, read with bytes after it, with its spare bits set, where it has any, and cut short.
fn by_position(o: u8, r: u8, s: u64, random: &mut Random) {
    let bytes = code(o, r, s);
    let (forward, place, old) = read_as(o, r, s);
    let read = format!("{forward} {r} {place} {} {old}", bytes.len());
    println!("W {o} {r} {s}\t{}", if old == 1 { "! 28".to_string() } else { words(&bytes) });
    println!("K {}\t{read}", words(&bytes));
    let later: Vec<u8> = (0..random.below(5)).map(|_| random.0 as u8).collect();
    println!("K {}\t{read}", words(&[&bytes[..], &later[..]].concat()));
    let spare = bytes.len() * 8 - bits_of_code(o, r, s).len();
    if spare > 0 {
        let mut spoilt = bytes.clone();
        *spoilt.last_mut().unwrap() |= (1 << spare) - 1;
        println!("K {}\t! 24", words(&[&spoilt[..], &later[..]].concat()));
    }
    let cut = random.below(bytes.len() as u64) as usize;
    if cut > 0 {
        println!("K {}\t! 11", words(&bytes[..cut]));
    }
}

fn codes(random: &mut Random) {
    for r in 0..=30u8 {
        for o in 0..6 {
            let count = 1u64 << (2 * r);
            for s in [0, count - 1, random.below(count)] {
                by_position(o, r, s, random);
            }
            println!("W {o} {r} {count}\t! {}", if read_as(o, r, 0).2 == 1 { 28 } else { 3 });
        }
    }
    refused(1, &["W 0 31 0", "W 1 31 0", "W 6 31 9", "W 255 255 18446744073709551615", "K 31", "K 191", "K 223 0", "K 255 255 255"]);
    refused(2, &["W 6 0 0", "W 6 30 18446744073709551615", "W 255 1 9", "K 192", "K 193 0", "K 224", "K 254 1 2 3 4 5 6 7 8 9"]);
    refused(3, &["W 0 0 1", "W 5 30 18446744073709551615"]);
    refused(11, &["K", "K 1", "K 161", "K 30", "K 30 1 2 3 4 5 6 7"]);
    refused(28, &["W 1 0 1", "W 3 30 18446744073709551615", "W 4 1 4"]);
    // each spare bit alone
    refused(24, &["K 161 193", "K 161 194", "K 161 196", "K 161 200", "K 161 208", "K 161 224", "K 30 0 0 0 0 0 0 0 1", "K 30 0 0 0 0 0 0 0 8 0", "K 33 1"]);
}

// ---- child steps

// The node is the Rust's with the orientation and the resolution of its walk.
fn asked(n: &CurveNode, digit: u8, r: u8, o: usize) -> String {
    format!("N {o} {r} {} {} {:016X} {:016X} {digit}", n.motif, n.flip, n.pos_a.to_bits(), n.pos_b.to_bits())
}

// The Rust's step to resolution r, for nodes small enough that its coordinates do not wrap.
fn by_node(n: &CurveNode, digit: u8, r: u8, o: usize) -> CurveNode {
    assert!(n.pos_a.abs() <= 2f64.powi(32) && n.pos_b.abs() <= 2f64.powi(32));
    let (c, next) = curve_child(n, digit as usize, r as usize, ORIENTATIONS[o]);
    let line = asked(n, digit, r - 1, o);
    let t = c.triple;
    if triple_in_bounds(&t, ((1i64 << r) - 1) as i32) {
        println!("{line}\t{} {} {} {} {o} {r} {} {} {:016X} {:016X}", t.x, t.y, t.z, c.flavor, next.motif, next.flip, next.pos_a.to_bits(), next.pos_b.to_bits());
    } else {
        println!("{line}\t! 5");
    }
    next
}

fn walks(random: &mut Random) {
    for o in 0..6 {
        for walk in 0..5u8 {
            let (_, _, mut node) = triple_to_curve_node(&Triple::new(0, 0, 0), 0, ORIENTATIONS[o]);
            for r in 1..=30u8 {
                // the four walks that keep to one digit, and one that does not
                let digit = if walk < 4 { walk } else { random.below(4) as u8 };
                // another child of the node, and the same frame at another resolution and in another orientation
                if walk == 4 {
                    by_node(&node, (digit + 1) % 4, r, o);
                    by_node(&node, digit, 1 + random.below(r as u64) as u8, o);
                    by_node(&node, digit, r, (o + 1) % 6);
                }
                node = by_node(&node, digit, r, o);
            }
        }
    }
    // nodes that no walk comes to
    for _ in 0..200 {
        let mut place = || 4.0 * (random.below(1 << 12) as f64 - 2048.0);
        let node = CurveNode { pos_a: place(), pos_b: place(), motif: random.below(14) as usize, flip: random.below(2) as u8 };
        by_node(&node, random.below(4) as u8, 1 + random.below(30) as u8, random.below(6) as usize);
    }
}

fn bad_steps() {
    let at = |a: f64, b: f64| CurveNode { motif: 0, flip: 0, pos_a: a, pos_b: b };
    let limit = 2f64.powi(36);
    for o in 0..6 {
        for a in [limit, -limit, 2f64.powi(34)] {
            println!("{}\t! 5", asked(&at(a, 0.0), 0, 29, o));
            println!("{}\t! 5", asked(&at(0.0, a), 3, 29, o));
        }
        for r in [30, 31, 255] {
            println!("{}\t! 7", asked(&at(0.0, 0.0), 0, r, o));
        }
        for digit in [4, 5, 255] {
            println!("{}\t! 8", asked(&at(0.0, 0.0), digit, 0, o));
            println!("{}\t! 8", asked(&at(limit, 0.0), digit, 29, o));
        }
    }
    for o in [6, 7, 255] {
        println!("{}\t! 7", asked(&at(1.0, 0.0), 9, 31, o));
        println!("{}\t! 7", asked(&at(0.0, 0.0), 0, 0, o));
        println!("{}\t! 7", asked(&at(0.0, 0.0), 9, 29, o));
    }
    let bad = [-0.0, 1.0, -2.0, 3.0, 4.5, 0.25, 5e-324, -1e-310, 2f64.powi(36) + 4.0, -limit - 4.0, 2f64.powi(70), f64::MAX, f64::INFINITY, f64::NEG_INFINITY, f64::NAN, -f64::NAN];
    for x in bad {
        println!("{}\t! 7", asked(&at(x, 0.0), 0, 0, 0));
        println!("{}\t! 7", asked(&at(0.0, x), 4, 29, 5));
    }
    for (motif, flip) in [(14, 0), (27, 1), (usize::MAX, 0), (0, 2), (13, 255)] {
        println!("{}\t! 7", asked(&CurveNode { motif, flip, ..at(0.0, 0.0) }, 0, 0, 0));
        println!("{}\t! 7", asked(&CurveNode { motif, flip, ..at(0.0, 0.0) }, 4, 29, 5));
    }
}

fn main() {
    // the panics of pairs off the lattice are answers here
    std::panic::set_hook(Box::new(|_| {}));
    let mut random = Random(0x9E3779B97F4A7C15);
    corners(&mut random);
    codes(&mut random);
    walks(&mut random);
    bad_steps();
    refused(21, &["", "S", "S 1 2", "S 0 0 x", "S 2147483648 0 0", "I 1", "I 1 9223372036854775808", "I -9223372036854775809 0", "I -0 0", "W 0 0", "W 256 0 0", "N", "N 0 0 0 0 0 1 0", "s 0 0 0", "SS 0 0 0", "Z"]);
}
