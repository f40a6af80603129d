// Compiles the same grammars by the library and by the Rust: A5, and some hundreds of one to eight motifs
// that a seeded search finds. Compares every entry of their tables, their descents with the full drawing
// at 1 to 5 passes and with descents over the Rust's tables at 6 to 30, and the refusal of faulty texts
// with the requirements' tests, written out in rules.rs. Each grammar is then compiled into one table with
// the next, in parts that are apart, and both are descended there. Then shows how the Rust misses the
// drawing where it compiles what the tests 18 and 19 refuse. Prints a line for each part; the first difference of a part
// is shown, and the program then ends with status 1.
mod coordinate_systems;
mod haspbarley;
mod lattice;
mod rules;
mod rust;
mod search;
mod shared;

use lattice::lsystem::tables::CurveTables;
use rules::verdict;
use rust::{descent, rows, Given};
use shared::{Part, Random};

const ROOM: usize = 32 * 41;
// what a table holds before
const KEPT: i32 = -77_777;

// ---- grammars that both take

fn accepted(all: &mut u64, random: &mut Random, texts: &[String]) {
    let mut entries = Part::new("entries of tables");
    let mut behind = Part::new("entries behind them, as they were");
    let mut counts = Part::new("numbers of states");
    let mut room = Part::new("tables with one entry too few");
    let mut drawn = Part::new("cells of drawings, 1 to 5 passes");
    let mut descents = Part::new("random places, 6 to 30 passes");
    for text in texts {
        let given = Given::new(text);
        let rust = given.compile().expect("the search keeps what the Rust compiles");
        let expected = rows(&rust);
        let states = expected.len() / 41;
        let mut table = vec![KEPT; ROOM];
        counts.same(format_args!("{text:?}"), haspbarley::compile(text.as_bytes(), &mut table, 0), Ok(states as u64));
        let short = haspbarley::compile(text.as_bytes(), &mut vec![KEPT; 41 * states - 1], 0);
        room.same(format_args!("{text:?} with no place for the last entry"), short, Err((26, 0)));
        for (k, entry) in table.iter().enumerate() {
            match expected.get(k) {
                Some(e) => entries.same(format_args!("{text:?} state {} number {}", k / 41, k % 41), *entry, *e),
                None => behind.same(format_args!("{text:?} entry {k}"), *entry, KEPT),
            }
        }
        for token in 0..states / 2 {
            for passes in 1..=5u8 {
                let drawing = given.drawing(token, passes as usize);
                assert!(drawing.len() == 1 << (2 * passes));
                for (s, cell) in drawing.iter().enumerate() {
                    let found = haspbarley::descend(&table, 0, states as u64, passes, token as u64, s as u64);
                    drawn.same(format_args!("{text:?} token {token}, {passes} passes, place {s}"), found, Ok(*cell));
                }
            }
            for _ in 0..100 {
                let passes = 6 + random.below(25) as u8;
                let s = random.below(1 << (2 * passes));
                let found = haspbarley::descend(&table, 0, states as u64, passes, token as u64, s);
                descents.same(format_args!("{text:?} token {token}, {passes} passes, place {s}"), found, Ok(descent(&rust, passes as usize, token, s)));
            }
        }
    }
    for part in [counts, entries, behind, room, drawn, descents] {
        part.done(all);
    }
}

// ---- two of them in one table

// A grammar in its part of a table.
struct Placed<'a> {
    text: &'a str,
    given: Given,
    rust: CurveTables,
    rows: Vec<i32>,
    start: usize,
}

impl Placed<'_> {
    fn new(text: &str) -> Placed<'_> {
        let given = Given::new(text);
        let rust = given.compile().expect("the search keeps what the Rust compiles");
        Placed { rows: rows(&rust), text, given, rust, start: 0 }
    }

    fn states(&self) -> u64 {
        self.rows.len() as u64 / 41
    }

    fn compile(&self, table: &mut [i32]) -> Result<u64, (u8, u64)> {
        haspbarley::compile(self.text.as_bytes(), table, self.start as u64)
    }
}

// Every grammar with the next, in either order, with some entries before, between and behind them that
// are nobody's; then parts that start or end past the table.
fn pairs(all: &mut u64, random: &mut Random, texts: &[String]) {
    let mut counts = Part::new("states, two grammars to a table");
    let mut entries = Part::new("entries of those tables");
    let mut drawn = Part::new("their drawings, 1 to 3 passes");
    let mut descents = Part::new("their places, 4 to 30 passes");
    let mut past = Part::new("parts past a table");
    for (k, text) in texts.iter().enumerate() {
        let mut pair = [Placed::new(text), Placed::new(&texts[(k + 1) % texts.len()])];
        let mut expected = Vec::new();
        for placed in &mut pair {
            expected.resize(expected.len() + random.below(50) as usize, KEPT);
            placed.start = expected.len();
            expected.extend(&placed.rows);
        }
        expected.resize(expected.len() + random.below(50) as usize, KEPT);
        let mut table = vec![KEPT; expected.len()];
        if random.below(2) == 0 {
            pair.swap(0, 1);
        }
        for placed in &pair {
            counts.same(format_args!("{:?} from {}", placed.text, placed.start), placed.compile(&mut table), Ok(placed.states()));
        }
        for (i, entry) in table.iter().enumerate() {
            entries.same(format_args!("{:?} and {:?}, entry {i}", pair[0].text, pair[1].text), *entry, expected[i]);
        }
        for placed in &pair {
            let (start, states) = (placed.start as u64, placed.states());
            for token in 0..states / 2 {
                for passes in 1..=3u8 {
                    for (s, cell) in placed.given.drawing(token as usize, passes as usize).iter().enumerate() {
                        let found = haspbarley::descend(&table, start, states, passes, token, s as u64);
                        drawn.same(format_args!("{:?} from {start}, token {token}, {passes} passes, place {s}", placed.text), found, Ok(*cell));
                    }
                }
                for _ in 0..20 {
                    let passes = 4 + random.below(27) as u8;
                    let s = random.below(1 << (2 * passes));
                    let found = haspbarley::descend(&table, start, states, passes, token, s);
                    let cell = descent(&placed.rust, passes as usize, token as usize, s);
                    descents.same(format_args!("{:?} from {start}, token {token}, {passes} passes, place {s}", placed.text), found, Ok(cell));
                }
            }
            let (end, before) = (table.len() as u64, table.clone());
            for start in [end - 41 * states + 1, end, end + 1, end + random.below(1 << 40), u64::MAX - 41 * states, u64::MAX] {
                let found = haspbarley::compile(placed.text.as_bytes(), &mut table, start);
                past.same(format_args!("{:?} compiled from {start} of {end}", placed.text), found, Err((26, 0)));
                past.same(format_args!("{:?} refused from {start} of {end}: the table", placed.text), &table, &before);
                let found = haspbarley::descend(&table, start, states, 31, states, u64::MAX);
                past.same(format_args!("{:?} descended from {start} of {end}", placed.text), found, Err(26));
            }
            // 41 times the third is 25 more than 2^64: where products wrap, it ends within the table
            for states in [(end - start) / 41 + 1, u64::MAX / 41, u64::MAX / 41 + 1, u64::MAX] {
                let found = haspbarley::descend(&table, start, states, 31, states, u64::MAX);
                past.same(format_args!("{states} states from {start} of {end}"), found, Err(26));
            }
        }
    }
    for part in [counts, entries, drawn, descents, past] {
        part.done(all);
    }
}

// ---- texts that one of them refuses

fn refused(all: &mut u64, random: &mut Random, texts: &[String], unsplit: &[String]) {
    let mut clean = Part::new("texts that 20 alone refuses");
    let mut faults = Part::new("texts changed at random");
    let mut seen = [0u64; 21];
    let mut told = |part: &mut Part, text: &[u8]| {
        let mut table = vec![KEPT; ROOM];
        let expected = verdict(text);
        let found = haspbarley::compile(text, &mut table, 0);
        seen[expected.map_or(0, |f| f.0 as usize)] += 1;
        part.same(format_args!("{:?}", String::from_utf8_lossy(text)), found.err(), expected);
        let mut after = Vec::new();
        if expected.is_none() {
            after = rows(&Given::new(std::str::from_utf8(text).unwrap()).compile().unwrap());
        }
        after.resize(ROOM, KEPT);
        part.same(format_args!("{:?}: the table", String::from_utf8_lossy(text)), table, after);
    };
    for text in unsplit {
        told(&mut clean, text.as_bytes());
        clean.same(format_args!("{text:?}: the Rust compiles it"), Given::new(text).compile().is_some(), false);
    }
    for text in texts {
        for _ in 0..60 {
            told(&mut faults, &search::spoiled(random, text));
        }
    }
    clean.done(all);
    faults.done(all);
    let by: Vec<String> = (12..=20).map(|n| format!("{n}: {}", seen[n])).collect();
    println!("  by number {}; not refused: {}", by.join(", "), seen[0]);
}

// Of one number, the texts that the Rust compiles: how many of its tables miss the drawing, and the
// shortest that does.
fn missed(number: u8, texts: &[String]) {
    let (mut compiled, mut misses) = (0, 0);
    let mut shortest: Option<(&String, String)> = None;
    for text in texts {
        let given = Given::new(text);
        let Some(rust) = given.compile() else { continue };
        compiled += 1;
        let Some(miss) = first_miss(&given, &rust) else { continue };
        misses += 1;
        if shortest.as_ref().map_or(true, |(t, _)| (text.len(), text) < (t.len(), t)) {
            shortest = Some((text, miss));
        }
    }
    println!("refused by {number}, compiled by the Rust: {compiled}; its tables miss the drawing: {misses}");
    if let Some((text, miss)) = shortest {
        println!("  {text:?}: {miss}");
    }
}

fn first_miss(given: &Given, rust: &CurveTables) -> Option<String> {
    for passes in 1..=5 {
        for token in 0..rust.child_token.len() / 4 {
            let drawing = given.drawing(token, passes);
            for (s, cell) in drawing.iter().enumerate() {
                let found = descent(rust, passes, token, s as u64);
                if found != *cell {
                    return Some(format!("{}, {passes} passes, place {s}: drawn {cell:?}, the Rust's descent {found:?}", given.token(token)));
                }
            }
        }
    }
    None
}

fn main() {
    std::panic::set_hook(Box::new(|_| {}));
    let mut random = Random(0x9E3779B97F4A7C15);
    let found = search::grammars(&mut random);
    let kept: Vec<String> = found.good.into_iter().filter(|text| Given::new(text).compile().is_some()).collect();
    let by: Vec<String> = (1..=8).map(|n| format!("{n}: {}", kept.iter().filter(|t| t.lines().count() == n).count())).collect();
    println!("{} grammars, by motifs {}", kept.len(), by.join(", "));
    let mut differed = 0;
    accepted(&mut differed, &mut random, &kept);
    refused(&mut differed, &mut random, &kept, &found.unsplit);
    pairs(&mut differed, &mut random, &kept);
    missed(18, &found.turned);
    missed(19, &found.skewed);
    println!("{differed} differences");
    std::process::exit(if differed == 0 { 0 } else { 1 });
}
