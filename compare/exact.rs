// Points by exact fractions, against the same in integers of 1,152 bits, which hold every f64 up to 2^31 in
// size in units of the smallest, 2^-1074. The Rust has no such mode: the arithmetic here is the reference.
use crate::haspbarley;
use crate::shared::{Part, Random};

const WORDS: usize = 18;
const PLACES: usize = 1074;

// A natural number, lowest word first.
type Big = [u64; WORDS];

// The size of x in units of 2^-1074.
fn size(x: f64) -> Big {
    let (exponent, digits) = ((x.to_bits() >> 52 & 0x7ff) as usize, x.to_bits() & ((1 << 52) - 1));
    let (digits, shift) = if exponent == 0 { (digits, 0) } else { (digits | 1 << 52, exponent - 1) };
    let wide = (digits as u128) << (shift % 64);
    let mut big = [0; WORDS];
    big[shift / 64] = wide as u64;
    big[shift / 64 + 1] = (wide >> 64) as u64;
    big
}

// What of a number is below 2^1074, and what is above, in units of that.
fn split(big: Big) -> (Big, i64) {
    let mut low = big;
    low[PLACES / 64] &= (1 << (PLACES % 64)) - 1;
    low[PLACES / 64 + 1..].fill(0);
    let above = big[PLACES / 64] as u128 | (big[PLACES / 64 + 1] as u128) << 64;
    (low, (above >> (PLACES % 64)) as i64)
}

fn plus(a: Big, b: Big, mut carry: u64) -> Big {
    let mut sum = [0; WORDS];
    for k in 0..WORDS {
        let wide = a[k] as u128 + b[k] as u128 + carry as u128;
        (sum[k], carry) = (wide as u64, (wide >> 64) as u64);
    }
    sum
}

// The floor, and how far x is above it.
fn floor(x: f64) -> (i64, Big) {
    let (low, whole) = split(size(x));
    if x >= 0.0 || low == [0; WORDS] {
        return (if x < 0.0 { -whole } else { whole }, low);
    }
    // 2^1074 - low: every bit below it turned, and 1 more
    let turned = split(low.map(|word| !word)).0;
    (-whole - 1, plus(turned, [0; WORDS], 1))
}

fn parity(i: f64, j: f64) -> i64 {
    split(plus(floor(i).1, floor(j).1, 0)).1
}

fn cell(i: f64, j: f64, r: u8) -> [i32; 4] {
    let (m, n, mut p, last) = (floor(i).0, floor(j).0, parity(i, j), (1i64 << r) - 1);
    let moved = m < 0 || n < 0 || m + n + p > last;
    let (mut m, mut n) = (m.max(0), n.max(0));
    if m + n + p > last {
        p = 0;
        let excess = (m + n - last).max(0);
        let off = excess.min(m);
        m -= off;
        n -= excess - off;
    }
    [-n as i32, (m + n + p) as i32, -m as i32, moved as i32]
}

// The library's cell; and where the f64's parity is another than the exact one, it is 1.
fn point(cells: &mut Part, parities: &mut Part, i: f64, j: f64, r: u8) {
    cells.same(format_args!("exact point {i:e} {j:e} {r}"), haspbarley::point_exact(i, j, r), Ok(cell(i, j, r)));
    let rounded = (i - i.floor()) + (j - j.floor()) >= 1.0;
    if rounded as i64 != parity(i, j) {
        parities.same(format_args!("parity {i:e} {j:e}"), rounded, true);
    }
}

// x and the f64 next to it on either side, no farther than 2^31.
fn around(x: f64) -> [f64; 3] {
    let bits = x.to_bits();
    [x, f64::from_bits(bits + 1), f64::from_bits(if bits << 1 == 0 { bits + 2 } else { bits - 1 })].map(|y| y.clamp(-2147483648.0, 2147483648.0))
}

// A number with a random whole part and fraction, of a random count of bits.
fn spread(random: &mut Random) -> f64 {
    let whole = (random.next() >> (33 + random.below(31))) as f64;
    let part = (random.next() >> 11) as f64 / (1u64 << 53) as f64 * 0.5f64.powi(random.below(60) as i32);
    if random.next() % 2 == 0 { whole + part } else { -whole - part }
}

pub fn exact(all: &mut u64, random: &mut Random) {
    let mut edges = Part::new("exact points around edges");
    let mut line = Part::new("exact points around the diagonal");
    let mut parities = Part::new("parities that the two tell apart");
    // every exponent, on both sides of 0 and of 1
    for k in 1..=1105u64 {
        let power = if k <= 52 { f64::from_bits(1 << (k - 1)) } else { f64::from_bits((k - 52) << 52) };
        for i in [power, -power, 1.0 - power, power - 1.0, 1.0 + power].into_iter().flat_map(around) {
            for j in [0.0, -0.0, 0.5, 1.0, i, -i, 1.0 - i].into_iter().flat_map(around) {
                for r in [0, 1, 12, 30] {
                    point(&mut edges, &mut parities, i, j, r);
                }
            }
        }
    }
    edges.done(all);
    for _ in 0..crate::MANY {
        let (i, whole) = (spread(random), spread(random).floor());
        let across = whole - (i - i.floor());
        let j = around(across)[random.below(3) as usize];
        point(&mut line, &mut parities, i, j, random.below(31) as u8);
    }
    line.done(all);
    parities.done(all);
}
