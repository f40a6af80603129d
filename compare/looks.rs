// How many looks a lookup takes, counted one by one: the Rust's lookup over its own tables, which does
// not count them itself.
use crate::lattice::lsystem::grammar::{draws, rules};
use crate::lattice::lsystem::tables::{compile_grammar, CurveTables, POW2};
use crate::lattice::lsystem::triple_to_ab;
use crate::lattice::types::Triple;

pub struct Lookups(CurveTables);

impl Lookups {
    pub fn new() -> Lookups {
        Lookups(compile_grammar(&rules(), &draws()))
    }

    fn pick(&self, state: usize, a: f64, b: f64, scale: f64) -> usize {
        let bit = |i: usize| {
            let separator = &self.0.class_sep[9 * state + 3 * i..];
            usize::from(separator[0] * a + separator[1] * b + separator[2] * scale >= -1.0)
        };
        self.0.class_lut[8 * state + (bit(0) | bit(1) << 1 | bit(2) << 2)] as usize
    }

    // Picks and comparisons. The corner sum is kept as it is seen from where the state starts.
    pub fn count(&self, o: usize, r: u8, t: &Triple) -> [u64; 2] {
        if r == 0 {
            return [0, 0];
        }
        let moved = if o > 3 { 12.0 * POW2[r as usize] } else { 0.0 };
        let (a, b) = triple_to_ab(t);
        let (mut a, mut b) = (a - moved, b + moved);
        let (mut motif, mut flip, mut picks) = (self.0.motif_idx[&['A', 'C', 'B'][o / 2]], 0, 0);
        for level in (2..=r as usize).rev() {
            let scale = POW2[level - 2];
            let child = 4 * motif + self.pick(2 * motif + flip, a, b, scale);
            picks += 1;
            let sign = if flip == 1 { -3.0 * scale } else { 3.0 * scale };
            a -= self.0.child_off_a[child] * sign;
            b -= self.0.child_off_b[child] * sign;
            flip ^= self.0.child_flip[child] as usize;
            motif = self.0.child_token[child] as usize;
        }
        let leaves = &self.0.leaf_sum[8 * (2 * motif + flip)..];
        let mut comparisons = 1;
        while leaves[2 * comparisons - 2..2 * comparisons] != [a, b] {
            comparisons += 1;
        }
        [picks, comparisons as u64]
    }
}
