// Grammars by a seeded search. Four children stand at heading 0 or 3 and a draw ends at heading 0, so what
// is left to chance is whether nets double (19) and whether children split cleanly (20). Of one motif all
// are tried, and none is good; of two, random ones; of more, walks from grammars side by side or with a
// motif twice, and from A5: a child or a draw changes at a time, and the grammar stays good.
use crate::rules::verdict;
use crate::rust::A5;
use crate::shared::Random;
use std::collections::BTreeSet;

pub struct Found {
    pub good: Vec<String>,
    // refused by 20, by 18 and by 19
    pub unsplit: Vec<String>,
    pub turned: Vec<String>,
    pub skewed: Vec<String>,
}

const NAMES: &[u8] = b"ABCFGHIJKLMNOPQRVWXYZ";
const STROKES: &[u8] = b"EeSsDdTt";
const EACH: usize = 60;

#[derive(Clone)]
struct Child {
    motif: usize,
    lower: bool,
    flip: bool,
}

#[derive(Clone)]
struct Motif {
    children: Vec<Child>,
    stroke: u8,
    heading: i64,
}

type Shape = Vec<Motif>;
type Pair = (i64, i64);

fn sum(motif: &Motif, nets: &[Pair]) -> Pair {
    motif.children.iter().fold((0, 0), |(a, b), c| {
        let (p, q) = nets[c.motif];
        if c.flip { (a - p, b - q) } else { (a + p, b + q) }
    })
}

fn doubles(shape: &Shape) -> bool {
    let step = |m: &Motif| {
        let step = match m.stroke.to_ascii_uppercase() {
            b'E' => (4, 0),
            b'S' => (4, -2),
            b'D' => (0, -2),
            _ => (-4, 0),
        };
        (0..m.heading).fold(step, |(a, b), _| (-b, a + b))
    };
    let drawn: Vec<Pair> = shape.iter().map(step).collect();
    let once: Vec<Pair> = shape.iter().map(|m| sum(m, &drawn)).collect();
    shape.iter().zip(&once).all(|(m, n)| sum(m, &once) == (2 * n.0, 2 * n.1))
}

fn child(random: &mut Random, n: usize) -> Child {
    Child { motif: random.below(n as u64) as usize, lower: random.below(2) == 1, flip: random.below(2) == 1 }
}

fn motif(random: &mut Random, n: usize) -> Motif {
    let children = (0..4).map(|_| child(random, n)).collect();
    Motif { children, stroke: STROKES[random.below(8) as usize], heading: random.below(6) as i64 }
}

// The text of a shape under random letters, its lines in random order and its half turns either way.
fn text(random: &mut Random, shape: &Shape) -> String {
    let mut names = NAMES.to_vec();
    for k in 0..names.len() {
        names.swap(k, k + random.below((NAMES.len() - k) as u64) as usize);
    }
    text_by(&names, shape, || ["+++", "---"][random.below(2) as usize])
}

fn text_by(names: &[u8], shape: &Shape, mut half_turn: impl FnMut() -> &'static str) -> String {
    let mut out = String::new();
    for (name, m) in names.iter().zip(shape) {
        out.push(*name as char);
        out.push(' ');
        let mut flip = false;
        for c in &m.children {
            if c.flip != flip {
                out += half_turn();
            }
            flip = c.flip;
            let letter = names[c.motif] as char;
            out.push(if c.lower { letter.to_ascii_lowercase() } else { letter });
        }
        if flip {
            out += half_turn();
        }
        let (there, back) = if m.heading <= 3 { ("+", "-") } else { ("-", "+") };
        let turns = m.heading.min(6 - m.heading) as usize;
        out += &format!(" {}{}{}\n", there.repeat(turns), m.stroke as char, back.repeat(turns));
    }
    out
}

// One motif, every one: 16 cases of its letters, 16 of its headings, 48 draws.
const SINGLES: usize = 12288;

fn single(k: usize) -> Shape {
    let children = (0..4).map(|d| Child { motif: 0, lower: k >> d & 1 == 1, flip: k >> (4 + d) & 1 == 1 }).collect();
    vec![Motif { children, stroke: STROKES[(k >> 8) % 8], heading: (k >> 11) as i64 }]
}

fn shape_of(text: &str) -> Shape {
    let names: Vec<char> = text.lines().map(|l| l.chars().next().unwrap()).collect();
    let motif = |line: &str| {
        let words: Vec<&str> = line.split(' ').collect();
        let (mut heading, mut children) = (0, Vec::new());
        for b in words[1].chars() {
            match b {
                '+' => heading += 1,
                '-' => heading += 5,
                b => children.push(Child {
                    motif: names.iter().position(|n| *n == b.to_ascii_uppercase()).unwrap(),
                    lower: b.is_ascii_lowercase(),
                    flip: heading % 6 == 3,
                }),
            }
        }
        let at = words[2].find(|b: char| b.is_alphabetic()).unwrap();
        let heading = words[2][..at].bytes().map(|b| if b == b'+' { 1 } else { 5 }).sum::<i64>() % 6;
        Motif { children, stroke: words[2].as_bytes()[at], heading }
    };
    text.lines().map(motif).collect()
}

fn beside(one: &Shape, other: &Shape) -> Shape {
    let mut out = one.clone();
    for m in other {
        let mut m = m.clone();
        m.children.iter_mut().for_each(|c| c.motif += one.len());
        out.push(m);
    }
    out
}

// A motif or its draw replaced, two children swapped, or one or two others in their place.
fn changed(random: &mut Random, shape: &Shape) -> Shape {
    let n = shape.len();
    let mut out = shape.clone();
    let m = random.below(n as u64) as usize;
    match random.below(4) {
        0 => out[m] = motif(random, n),
        1 => {
            let other = out[random.below(n as u64) as usize].clone();
            out[m].stroke = other.stroke;
            out[m].heading = other.heading;
        }
        2 => out[m].children.swap(random.below(4) as usize, random.below(4) as usize),
        _ => {
            for _ in 0..1 + random.below(2) {
                out[m].children[random.below(4) as usize] = child(random, n);
            }
        }
    }
    out
}

struct Kept {
    good: Vec<Shape>,
    texts: BTreeSet<String>,
}

impl Kept {
    fn count(&self, n: usize) -> usize {
        self.good.iter().filter(|s| s.len() == n).count()
    }

    fn keep(&mut self, text: String, shape: Shape, found: &mut Found) {
        if self.count(shape.len()) < EACH && self.texts.insert(text.clone()) {
            self.good.push(shape);
            found.good.push(text);
        }
    }

    // A grammar of n motifs: one that is kept, or one of fewer with a motif twice or with another beside it.
    fn start(&self, random: &mut Random, n: usize) -> Option<Shape> {
        let base = &self.good[random.below(self.good.len() as u64) as usize];
        match n.checked_sub(base.len())? {
            0 => Some(base.clone()),
            1 => {
                let twice = base[random.below(base.len() as u64) as usize].clone();
                Some(base.iter().cloned().chain([twice]).collect())
            }
            more => {
                let other = self.good.iter().filter(|s| s.len() == more).nth(random.below(EACH as u64) as usize)?;
                Some(beside(base, other))
            }
        }
    }
}

// The text of a shape that is good. Some of those that 20 refuses are kept too.
fn good(random: &mut Random, shape: &Shape, found: &mut Found) -> Option<String> {
    if !doubles(shape) {
        return None;
    }
    let text = text(random, shape);
    match verdict(text.as_bytes()) {
        None => Some(text),
        Some((20, _)) => {
            if found.unsplit.len() < 2000 && random.below(20) == 0 {
                found.unsplit.push(text);
            }
            None
        }
        Some(fault) => panic!("{text:?}: {fault:?}"),
    }
}

pub fn grammars(random: &mut Random) -> Found {
    let mut found = Found { good: vec![A5.to_string()], unsplit: Vec::new(), turned: Vec::new(), skewed: Vec::new() };
    let mut kept = Kept { good: vec![shape_of(A5)], texts: BTreeSet::new() };
    for k in 0..SINGLES {
        if let Some(text) = good(random, &single(k), &mut found) {
            kept.keep(text, single(k), &mut found);
        }
        faulty(k, &mut found);
    }
    while kept.count(2) < EACH {
        let shape = (0..2).map(|_| motif(random, 2)).collect();
        if let Some(text) = good(random, &shape, &mut found) {
            kept.keep(text, shape, &mut found);
        }
    }
    for n in 3..=8 {
        while kept.count(n) < EACH {
            let Some(mut shape) = kept.start(random, n) else { continue };
            let mut last = None;
            for _ in 0..500 {
                let next = changed(random, &shape);
                if let Some(text) = good(random, &next, &mut found) {
                    shape = next;
                    last = Some(text);
                }
            }
            if let Some(text) = last {
                kept.keep(text, shape, &mut found);
            }
        }
    }
    found
}

// Of one motif: what 19 refuses, and what 18 does, by other turns at the end of the rule and of the draw.
fn faulty(k: usize, found: &mut Found) {
    let text = text_by(b"A", &single(k), || "+++");
    if verdict(text.as_bytes()).is_some_and(|f| f.0 == 19) {
        found.skewed.push(text.clone());
    }
    let words: Vec<&str> = text.trim_end().split(' ').map(|w| w.trim_end_matches(['+', '-'])).collect();
    for rule in ["", "+++"] {
        for draw in ["", "+", "++", "+++", "--", "-"] {
            let text = format!("A {}{rule} {}{draw}\n", words[1], words[2]);
            if verdict(text.as_bytes()).is_some_and(|f| f.0 == 18) {
                found.turned.push(text);
            }
        }
    }
}

// A text with one to three changes: of a byte, a letter's case, two bytes' places, a line.
pub fn spoiled(random: &mut Random, text: &str) -> Vec<u8> {
    const BYTES: &[u8] = b"+-+-AaBbPpZzEeSsDdTtUu0 \n";
    let mut lines: Vec<Vec<u8>> = text.split_inclusive('\n').map(|l| l.as_bytes().to_vec()).collect();
    for _ in 0..1 + random.below(3) {
        if lines.is_empty() {
            break;
        }
        let k = random.below(lines.len() as u64) as usize;
        if lines[k].is_empty() {
            continue;
        }
        let (i, j) = (random.below(lines[k].len() as u64) as usize, random.below(lines[k].len() as u64) as usize);
        let b = BYTES[random.below(BYTES.len() as u64) as usize];
        match random.below(14) {
            0..=1 => lines[k][i] = b,
            2 => {
                lines[k].remove(i);
            }
            3 => lines[k].insert(i, b),
            4..=6 => {
                let i = 2 + i;
                if i < lines[k].len() && lines[k][i].is_ascii_alphabetic() {
                    lines[k][i] ^= 32;
                }
            }
            7..=9 => {
                if lines[k][i].is_ascii_alphabetic() && lines[k][j].is_ascii_alphabetic() && i > 1 && j > 1 {
                    lines[k].swap(i, j);
                }
            }
            10 => {
                let other = lines[random.below(lines.len() as u64) as usize].clone();
                lines[k] = other;
            }
            11 => {
                let other = lines[k].clone();
                lines.push(other);
            }
            12 => {
                lines.remove(k);
            }
            _ => {
                // a turn at the end of the rule or of the draw
                let at = if b == b'+' { lines[k].len() - 1 } else { lines[k].iter().rposition(|b| *b == b' ').unwrap_or(0) };
                lines[k].insert(at, b'+');
            }
        }
    }
    lines.concat()
}
