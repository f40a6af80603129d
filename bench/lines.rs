// Times the program's core, a query line in and its answer line out, beside an equivalent reader in
// Rust over the Rust's own functions, in one run on the same text: P, C and R lines mixed, of all
// resolutions and orientations, and a few that are refused. The two outputs are compared byte by byte.
// Prints the lines a second of each, from its best round, and the ratio.
mod coordinate_systems;
mod haspbarley;
mod lattice;
mod shared;

use coordinate_systems::IJ;
use lattice::curve::round_to_triple;
use lattice::lsystem::s_to_cell;
use lattice::triple::triple_in_bounds;
use lattice::types::Triple;
use shared::{position, Random, ORIENTATIONS};
use std::time::Instant;

const LINES: usize = 1_000_000;
const ROUNDS: usize = 9;
const ROOM: usize = 128;

// ---- the reader in Rust: bytes in, bytes out, nothing allocated for a line

enum Query {
    Position(u8, u8, u64),
    Cell(u8, u8, Triple),
    Point(u8, u8, f64, f64),
}

fn natural(word: &[u8], most: u64) -> Option<u64> {
    if word.is_empty() || word[0] == b'0' && word.len() > 1 {
        return None;
    }
    let mut value = 0u64;
    for &b in word {
        let digit = b.wrapping_sub(b'0');
        if digit > 9 {
            return None;
        }
        value = value.checked_mul(10)?.checked_add(digit as u64)?;
    }
    (value <= most).then_some(value)
}

fn byte(word: &[u8]) -> Option<u8> {
    natural(word, 255).map(|n| n as u8)
}

fn integer(word: &[u8]) -> Option<i32> {
    match word.split_first() {
        Some((b'-', size)) => natural(size, 1 << 31).filter(|&n| n > 0).map(|n| -(n as i64) as i32),
        _ => natural(word, i32::MAX as u64).map(|n| n as i32),
    }
}

// What a byte stands for in hex, 16 where it is no digit: a table, since tests are guessed wrong at
// every other digit of a pattern.
const HEX: [u8; 256] = {
    let mut table = [16; 256];
    let mut k = 0;
    while k < 16 {
        table[b"0123456789ABCDEF"[k] as usize] = k as u8;
        k += 1;
    }
    table
};

fn float(word: &[u8]) -> Option<f64> {
    let word: &[u8; 16] = word.try_into().ok()?;
    let mut bits = 0u64;
    let mut seen = 0;
    for &b in word {
        let digit = HEX[b as usize];
        seen |= digit;
        bits = bits << 4 | digit as u64 & 15;
    }
    (seen < 16).then(|| f64::from_bits(bits))
}

fn read(line: &[u8]) -> Option<Query> {
    if line.len() > 64 {
        return None;
    }
    let mut words = line.split(|&b| b == b' ');
    let letter = words.next()?;
    let (o, r) = (byte(words.next()?)?, byte(words.next()?)?);
    let query = match letter {
        b"P" => Query::Position(o, r, natural(words.next()?, u64::MAX)?),
        b"C" => Query::Cell(o, r, Triple::new(integer(words.next()?)?, integer(words.next()?)?, integer(words.next()?)?)),
        b"R" => Query::Point(o, r, float(words.next()?)?, float(words.next()?)?),
        _ => return None,
    };
    words.next().is_none().then_some(query)
}

fn put_natural(out: &mut Vec<u8>, mut n: u64) {
    let mut digits = [0u8; 20];
    let mut at = 20;
    loop {
        at -= 1;
        digits[at] = b'0' + (n % 10) as u8;
        n /= 10;
        if n == 0 {
            break;
        }
    }
    out.extend_from_slice(&digits[at..]);
}

fn put_integer(out: &mut Vec<u8>, z: i32) {
    if z < 0 {
        out.push(b'-');
    }
    put_natural(out, z.unsigned_abs() as u64);
}

fn put_triple(out: &mut Vec<u8>, t: &Triple) {
    put_integer(out, t.x);
    out.push(b' ');
    put_integer(out, t.y);
    out.push(b' ');
    put_integer(out, t.z);
}

fn put_position(out: &mut Vec<u8>, o: u8, r: u8, t: &Triple) {
    let (s, flavor) = position(o as usize, r, t);
    put_natural(out, s);
    out.push(b' ');
    out.push(b'0' + flavor);
}

fn put_found(out: &mut Vec<u8>, query: Query) -> Result<(), u8> {
    let (Query::Position(o, r, _) | Query::Cell(o, r, _) | Query::Point(o, r, _, _)) = query;
    if r > 30 {
        return Err(1);
    }
    if o > 5 {
        return Err(2);
    }
    match query {
        Query::Position(_, _, s) => {
            if s >= 1 << (2 * r) {
                return Err(3);
            }
            let c = s_to_cell(s, r as usize, ORIENTATIONS[o as usize]);
            put_triple(out, &c.triple);
            out.push(b' ');
            out.push(b'0' + c.flavor);
        }
        Query::Cell(_, _, t) => {
            if !matches!(t.x as i64 + t.y as i64 + t.z as i64, 0 | 1) {
                return Err(4);
            }
            if !triple_in_bounds(&t, ((1i64 << r) - 1) as i32) {
                return Err(5);
            }
            put_position(out, o, r, &t);
        }
        Query::Point(_, _, i, j) => {
            if !(i.abs() <= 2147483648.0 && j.abs() <= 2147483648.0) {
                return Err(9);
            }
            let t = round_to_triple(IJ(i, j), r as usize);
            put_triple(out, &t);
            out.push(b' ');
            put_position(out, o, r, &t);
        }
    }
    Ok(())
}

fn answer(out: &mut Vec<u8>, line: &[u8]) {
    if let Err(number) = read(line).ok_or(21).and_then(|query| put_found(out, query)) {
        out.extend_from_slice(b"! ");
        put_natural(out, number as u64);
    }
}

// ---- the two, over a text of lines

fn by_rust(text: &[u8], out: &mut Vec<u8>) {
    out.clear();
    for line in text.split(|&b| b == b'\n') {
        answer(out, line);
        out.push(b'\n');
    }
}

// Answers how much it wrote.
fn by_library(text: &[u8], out: &mut [u8]) -> usize {
    let mut at = 0;
    for line in text.split(|&b| b == b'\n') {
        at += haspbarley::line(line, &mut out[at..at + ROOM]).unwrap();
        out[at] = b'\n';
        at += 1;
    }
    at
}

// ---- the text

fn put_line(text: &mut Vec<u8>, kind: u64, random: &mut Random) {
    use std::io::Write;
    let (o, r) = (random.below(6) as usize, random.below(31) as u8);
    let s = random.below(1 << (2 * r));
    let mut inside = || (random.next() >> 11) as f64 / (1u64 << 53) as f64 * (1u64 << r) as f64;
    match kind {
        0 => write!(text, "P {o} {r} {s}"),
        1 => {
            let t = s_to_cell(s, r as usize, ORIENTATIONS[o]).triple;
            write!(text, "C {o} {r} {} {} {}", t.x, t.y, t.z)
        }
        _ => write!(text, "R {o} {r} {:016X} {:016X}", inside().to_bits(), inside().to_bits()),
    }
    .unwrap();
}

// Lines of one kind, or of all three; one in 64 has a byte too many.
fn text_of(kind: Option<u64>, random: &mut Random) -> Vec<u8> {
    let mut text = Vec::new();
    for k in 0..LINES {
        if k > 0 {
            text.push(b'\n');
        }
        put_line(&mut text, kind.unwrap_or(random.next() / 7 % 3), random);
        if k % 64 == 63 {
            text.push(b' ');
        }
    }
    text
}

fn main() {
    let mut random = Random(88172645463325252);
    for (name, kind) in [("mixed", None), ("P alone", Some(0)), ("C alone", Some(1)), ("R alone", Some(2))] {
        let text = text_of(kind, &mut random);
        let (mut ours, mut rust) = (vec![0; LINES * ROOM], Vec::with_capacity(LINES * ROOM));
        let (mut a, mut b, mut wrote) = (f64::MAX, f64::MAX, 0);
        for _ in 0..ROUNDS {
            let t = Instant::now();
            wrote = by_library(&text, &mut ours);
            a = a.min(t.elapsed().as_secs_f64());
            let t = Instant::now();
            by_rust(&text, &mut rust);
            b = b.min(t.elapsed().as_secs_f64());
        }
        assert!(ours[..wrote] == rust, "{name}: the two outputs differ");
        let rate = |seconds: f64| LINES as f64 / seconds / 1e6;
        println!("{name:<8} library {:.2} million lines a second   the Rust {:.2}   ratio {:.2}", rate(a), rate(b), rate(a) / rate(b));
    }
}
