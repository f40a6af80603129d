// Compares the library with the Rust, answer by answer, on the domain of the lattice: every position
// and every triple at resolutions 0 to 7 in six orientations, random ones at 8 to 30, the looks of each
// lookup beside the Rust's own, which are counted for it, nodes along random walks, points of every
// magnitude and on every edge, points by exact fractions against integers that hold them, corner sums
// both ways. Prints a line for each part; the first difference of a part is shown, and the program then
// ends with status 1.
mod coordinate_systems;
mod exact;
mod haspbarley;
mod lattice;
mod looks;
mod shared;

use coordinate_systems::IJ;
use haspbarley::Node;
use lattice::curve::round_to_triple;
use lattice::lsystem::{ab_to_triple, curve_child, s_to_cell, triple_to_ab, triple_to_curve_node, CurveNode};
use lattice::triple::triple_in_bounds;
use lattice::types::Triple;
use looks::Lookups;
use shared::{moved, Part, Random, ORIENTATIONS};

const MANY: u64 = 10_000_000;

fn at(t: &Triple) -> [i32; 3] {
    [t.x, t.y, t.z]
}

fn cell(part: &mut Part, o: usize, r: u8, s: u64) -> Triple {
    let c = s_to_cell(s, r as usize, ORIENTATIONS[o]);
    part.same(format_args!("cell {o} {r} {s}"), haspbarley::cell(o as u8, r, s), Ok([c.triple.x, c.triple.y, c.triple.z, c.flavor as i32]));
    c.triple
}

fn position(part: &mut Part, lookups: &Lookups, o: usize, r: u8, t: &Triple) {
    let (s, flavor) = shared::position(o, r, t);
    let [picks, comparisons] = lookups.count(o, r, t);
    part.same(format_args!("position {o} {r} {t:?}"), haspbarley::position(o as u8, r, at(t)), Ok([s, flavor as u64, picks, comparisons]));
}

fn every(all: &mut u64, lookups: &Lookups) {
    let mut cells = Part::new("every position, r 0 to 7");
    let mut positions = Part::new("every cell, r 0 to 7");
    let mut bounds = Part::new("every triple near by, r 0 to 7");
    for r in 0..=7u8 {
        for o in 0..6 {
            for s in 0..1u64 << (2 * r) {
                let t = cell(&mut cells, o, r, s);
                position(&mut positions, lookups, o, r, &t);
            }
        }
        // in bounds exactly when the Rust says so: refused otherwise
        let last = (1i32 << r) - 1;
        for x in -last - 2..=2 {
            for y in -2..=last + 2 {
                for z in [-x - y - 1, -x - y, -x - y + 1, -x - y + 2] {
                    let t = Triple::new(x, y, z);
                    bounds.same(format_args!("bounds {r} {t:?}"), haspbarley::position(0, r, at(&t)).is_ok(), triple_in_bounds(&t, last));
                }
            }
        }
    }
    cells.done(all);
    positions.done(all);
    bounds.done(all);
}

fn random(all: &mut u64, lookups: &Lookups, random: &mut Random) {
    let mut cells = Part::new("random positions, r 8 to 30");
    let mut positions = Part::new("random cells, r 8 to 30");
    for _ in 0..MANY {
        let (o, r) = (random.below(6) as usize, 8 + random.below(23) as u8);
        let s = random.below(1 << (2 * r));
        let t = cell(&mut cells, o, r, s);
        position(&mut positions, lookups, o, r, &t);
    }
    cells.done(all);
    positions.done(all);
}

// The Rust's node, with what ours knows besides: the orientation and the resolution of its walk.
fn node(o: usize, r: u8, n: &CurveNode) -> Node {
    Node { orientation: o as i32, resolution: r as i32, motif: n.motif as i32, flip: n.flip as i32, a: n.pos_a, b: n.pos_b }
}

fn nodes(all: &mut u64, random: &mut Random) {
    let mut steps = Part::new("child steps along random walks");
    let mut lookups = Part::new("nodes of cells");
    for _ in 0..100_000 {
        let o = random.below(6) as usize;
        let (_, _, mut at_node) = triple_to_curve_node(&Triple::new(0, 0, 0), 0, ORIENTATIONS[o]);
        for r in 1..=30u8 {
            let digit = random.below(4) as u8;
            let (c, next) = curve_child(&at_node, digit as usize, r as usize, ORIENTATIONS[o]);
            steps.same(
                format_args!("child {o} {r} {at_node:?} {digit}"),
                haspbarley::child(node(o, r - 1, &at_node), digit),
                Ok(([c.triple.x, c.triple.y, c.triple.z, c.flavor as i32], node(o, r, &next))),
            );
            if r % 5 == 0 {
                let (_, _, below) = triple_to_curve_node(&c.triple, r as usize, ORIENTATIONS[o]);
                lookups.same(format_args!("node {o} {r} {:?}", c.triple), haspbarley::node(o as u8, r, at(&c.triple)), Ok(node(o, r, &below)));
            }
            at_node = next;
        }
    }
    steps.done(all);
    lookups.done(all);
}

fn point(part: &mut Part, i: f64, j: f64, r: u8) {
    let t = round_to_triple(IJ(i, j), r as usize);
    part.same(format_args!("point {i:e} {j:e} {r}"), haspbarley::point(i, j, r), Ok([t.x, t.y, t.z, moved(i, j, r) as i32]));
}

// A number of any magnitude up to 2^31: random bits, its exponent brought into range.
fn magnitude(random: &mut Random) -> f64 {
    let x = f64::from_bits(random.next());
    if x.is_finite() && x.abs() <= 2147483648.0 {
        return x;
    }
    let exponent = random.below(32) as i32 - random.below(64) as i32;
    let part = (random.next() >> 12) as f64 / (1u64 << 52) as f64;
    if random.next() % 2 == 0 { part * 2f64.powi(exponent) } else { -part * 2f64.powi(exponent) }
}

fn points(all: &mut u64, random: &mut Random) {
    let mut any = Part::new("random points of every magnitude");
    for _ in 0..MANY {
        point(&mut any, magnitude(random), magnitude(random), random.below(31) as u8);
    }
    any.done(all);
    let mut near = Part::new("points inside the wedge");
    for _ in 0..MANY {
        let r = random.below(31) as u8;
        let side = (1u64 << r) as f64;
        let mut inside = || (random.next() >> 11) as f64 / (1u64 << 53) as f64 * side;
        let (i, j) = (inside(), inside());
        point(&mut near, i, j, r);
    }
    near.done(all);
    let mut edges = Part::new("points on edges and just off them");
    let mut special = vec![0.0, -0.0, f64::MIN_POSITIVE, -f64::MIN_POSITIVE, 5e-324, -5e-324, 2147483648.0, -2147483648.0, 1.0 - f64::EPSILON / 2.0];
    for k in 0..31 {
        for x in [2f64.powi(k), 2f64.powi(k) - 1.0, 2f64.powi(k) + 0.5, 2f64.powi(-k)] {
            for y in [x, f64::from_bits(x.to_bits() + 1), f64::from_bits(x.to_bits().max(1) - 1)] {
                special.push(y.min(2147483648.0));
                special.push((-y).max(-2147483648.0));
            }
        }
    }
    for &i in &special {
        for &j in &special {
            for r in [0, 1, 2, 7, 15, 29, 30] {
                point(&mut edges, i, j, r);
            }
        }
    }
    edges.done(all);
}

fn corners(all: &mut u64, random: &mut Random) {
    let mut sums = Part::new("corner sums");
    let mut inverse = Part::new("triples of corner sums");
    for _ in 0..1_000_000 {
        let mut part = || random.below(1 << 31) as i32 - (1 << 30);
        let (x, y) = (part(), part());
        let p = random.below(2) as i64;
        let z = p - x as i64 - y as i64;
        if z != z as i32 as i64 {
            continue;
        }
        let t = Triple::new(x, y, z as i32);
        let (a, b) = triple_to_ab(&t);
        sums.same(format_args!("corner sum {t:?}"), haspbarley::corner_sum(at(&t)), Ok([a as i64, b as i64]));
        inverse.same(format_args!("triple {a} {b}"), haspbarley::triple(a as i64, b as i64), Ok(at(&ab_to_triple(a, b))));
    }
    sums.done(all);
    inverse.done(all);
}

fn main() {
    let mut differed = 0;
    let mut source = Random(0x9E3779B97F4A7C15);
    let lookups = Lookups::new();
    every(&mut differed, &lookups);
    random(&mut differed, &lookups, &mut source);
    nodes(&mut differed, &mut source);
    points(&mut differed, &mut source);
    exact::exact(&mut differed, &mut source);
    corners(&mut differed, &mut source);
    println!("{differed} differences");
    std::process::exit(if differed == 0 { 0 } else { 1 });
}
