// The Rust on a grammar: its tables in the requirements' layout, its descent, and its turtle's drawing.
use crate::lattice::lsystem::axiom_leaf_cell;
use crate::lattice::lsystem::grammar::expand_once;
use crate::lattice::lsystem::tables::{compile_grammar, CurveTables};
use crate::lattice::lsystem::turtle::{host_sum, walk, AB};
use std::collections::HashMap;

pub const A5: &str = "A PQAB E\nB B+++PQ---A +e-\nC P---RMb+++ -e+\nM qQ+++C---b T\nP PpB---B+++ S\nQ PQ---Cb+++ D\nR b+++a---qQ +++D---\n";

// The rules and draws of a text of good shape.
pub struct Given {
    rules: HashMap<char, String>,
    draws: HashMap<char, String>,
}

impl Given {
    pub fn new(text: &str) -> Given {
        let (mut rules, mut draws) = (HashMap::new(), HashMap::new());
        for line in text.lines() {
            let words: Vec<&str> = line.split(' ').collect();
            let name = words[0].chars().next().unwrap();
            rules.insert(name, words[1].to_string());
            draws.insert(name, words[2].to_string());
        }
        Given { rules, draws }
    }

    // None where the Rust panics.
    pub fn compile(&self) -> Option<CurveTables> {
        std::panic::catch_unwind(std::panic::AssertUnwindSafe(|| compile_grammar(&self.rules, &self.draws))).ok()
    }

    pub fn token(&self, k: usize) -> char {
        let mut names: Vec<char> = self.rules.keys().copied().collect();
        names.sort();
        let n = names.len();
        if k < n { names[k] } else { names[k - n].to_ascii_lowercase() }
    }

    // The cells that the turtle draws from a token after some passes: corner sum and flavor.
    pub fn drawing(&self, k: usize, passes: usize) -> Vec<[i64; 3]> {
        let mut word = self.token(k).to_string();
        for _ in 0..passes {
            word = expand_once(&word, &self.rules);
        }
        let mut cells = Vec::new();
        walk(&expand_once(&word, &self.draws), AB::new(0, 0), 0, |letter, from, heading| {
            let sum = host_sum(letter, from, heading);
            let base = "SDET".find(letter.to_ascii_uppercase()).unwrap() as i64;
            cells.push([sum.a as i64, sum.b as i64, base ^ letter.is_ascii_lowercase() as i64 ^ (heading & 1) as i64]);
        });
        cells
    }
}

pub fn descent(t: &CurveTables, passes: usize, token: usize, s: u64) -> [i64; 3] {
    let c = axiom_leaf_cell(t, s, passes, token);
    [c.a as i64, c.b as i64, c.flavor as i64]
}

// The Rust's tables in the requirements' layout.
pub fn rows(t: &CurveTables) -> Vec<i32> {
    let whole = |x: f64| {
        assert!(x == x as i32 as f64);
        x as i32
    };
    let mut out = Vec::new();
    for state in 0..t.child_token.len() / 2 {
        let (m, flip) = (state / 2, state % 2);
        let sign = if flip == 1 { -1.0 } else { 1.0 };
        for c in 4 * m..4 * m + 4 {
            out.push(2 * t.child_token[c] + (flip as i32 ^ t.child_flip[c] as i32));
        }
        for c in 4 * m..4 * m + 4 {
            out.push(whole(sign * t.child_off_a[c]));
            out.push(whole(sign * t.child_off_b[c]));
        }
        out.extend(t.leaf_sum[8 * state..8 * state + 8].iter().map(|x| whole(*x)));
        out.extend(t.leaf_flavor[4 * state..4 * state + 4].iter().map(|x| *x as i32));
        out.extend(t.class_sep[9 * state..9 * state + 9].iter().map(|x| whole(*x)));
        out.extend(t.class_lut[8 * state..8 * state + 8].iter().map(|x| *x as i32));
    }
    out
}
