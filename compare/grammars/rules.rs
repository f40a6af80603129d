// The requirements' tests of a grammar text, written out from their words: the number of the first that
// fails and the line at fault, or None.
struct Line<'a> {
    name: u8,
    rule: &'a [u8],
    draw: &'a [u8],
}

type Pair = (i64, i64);

pub fn verdict(text: &[u8]) -> Option<(u8, u64)> {
    if text.is_empty() {
        return Some((12, 0));
    }
    let rows: Vec<&[u8]> = text.split_inclusive(|b| *b == b'\n').collect();
    let mut lines = Vec::new();
    for (k, row) in rows.iter().enumerate() {
        match line_of(row) {
            Some(line) if k < 8 => lines.push(line),
            _ => return Some((12, k as u64 + 1)),
        }
    }
    let tests: [(u8, &dyn Fn(usize, &Line) -> bool); 8] = [
        (13, &|k, l| !l.name.is_ascii_uppercase() || b"ESUDT".contains(&l.name) || lines[..k].iter().any(|m| m.name == l.name)),
        (14, &|_, l| l.rule.iter().any(|b| !turn(*b) && !named(&lines, *b))),
        (15, &|_, l| l.rule.iter().filter(|b| !turn(**b)).count() != 4),
        (16, &|_, l| [headings(l.rule), headings(&reverse(l.rule))].concat().iter().any(|h| h % 3 != 0)),
        (17, &|_, l| {
            let strokes: Vec<u8> = l.draw.iter().copied().filter(|b| !turn(*b)).collect();
            strokes.len() != 1 || !b"EeSsDdTt".contains(&strokes[0])
        }),
        (18, &|_, l| turning(l.rule) != 0 || turning(l.draw) != 0),
        (19, &|_, l| {
            let (once, twice) = (net(&lines, l.name, 1), net(&lines, l.name, 2));
            twice != (2 * once.0, 2 * once.1)
        }),
        (20, &|_, l| [l.name, l.name + 32].iter().any(|token| [1, -1].iter().any(|sign| !splits(polygons(&lines, *token, *sign))))),
    ];
    for (number, bad) in tests {
        if let Some(k) = (0..lines.len()).find(|k| bad(*k, &lines[*k])) {
            return Some((number, k as u64 + 1));
        }
    }
    None
}

fn line_of(row: &[u8]) -> Option<Line> {
    let words: Vec<&[u8]> = row.strip_suffix(b"\n")?.split(|b| *b == b' ').collect();
    let &[name, rule, draw] = words.as_slice() else { return None };
    let good = name.len() == 1 && (1..=24).contains(&rule.len()) && (1..=12).contains(&draw.len());
    good.then(|| Line { name: name[0], rule, draw })
}

fn turn(b: u8) -> bool {
    b == b'+' || b == b'-'
}

fn named(lines: &[Line], b: u8) -> bool {
    lines.iter().any(|l| l.name == b.to_ascii_uppercase())
}

fn reverse(word: &[u8]) -> Vec<u8> {
    let mirrored = |b: &u8| match *b {
        b'+' => b'-',
        b'-' => b'+',
        b => b ^ 32,
    };
    word.iter().rev().map(mirrored).collect()
}

fn turning(word: &[u8]) -> i64 {
    word.iter().map(|b| match *b { b'+' => 1, b'-' => 5, _ => 0 }).sum::<i64>() % 6
}

// The heading before each letter.
fn headings(word: &[u8]) -> Vec<i64> {
    (0..word.len()).filter(|k| !turn(word[*k])).map(|k| turning(&word[..k])).collect()
}

fn expanded(lines: &[Line], word: &[u8], field: &dyn Fn(&Line) -> Vec<u8>) -> Vec<u8> {
    let mut out = Vec::new();
    for b in word {
        match lines.iter().find(|l| l.name == b.to_ascii_uppercase()) {
            Some(l) if b.is_ascii_uppercase() => out.extend(field(l)),
            Some(l) => out.extend(reverse(&field(l))),
            None => out.push(*b),
        }
    }
    out
}

fn draws(lines: &[Line], token: u8, passes: usize) -> Vec<u8> {
    let mut word = vec![token];
    for _ in 0..passes {
        word = expanded(lines, &word, &|l| l.rule.to_vec());
    }
    expanded(lines, &word, &|l| l.draw.to_vec())
}

fn rotated(p: Pair, heading: i64) -> Pair {
    (0..heading).fold(p, |(a, b), _| (-b, a + b))
}

fn plus(p: Pair, q: Pair) -> Pair {
    (p.0 + q.0, p.1 + q.1)
}

// A letter's step, and the corners of the cell that it hosts.
fn stroke(b: u8) -> (Pair, [Pair; 3]) {
    match b {
        b'E' => ((4, 0), [(0, 0), (4, 0), (4, -4)]),
        b'e' => ((4, 0), [(0, 0), (4, 0), (0, 4)]),
        b'S' => ((4, -2), [(0, 0), (4, 0), (4, -4)]),
        b's' => ((4, -2), [(4, -2), (0, 2), (0, -2)]),
        b'D' => ((0, -2), [(0, 2), (0, -2), (4, -2)]),
        b'd' => ((0, -2), [(0, 0), (0, -4), (-4, 0)]),
        b'T' => ((-4, 0), [(0, -4), (-4, 0), (-4, -4)]),
        _ => ((-4, 0), [(-4, 4), (0, 0), (0, 4)]),
    }
}

// Where a walk over draws ends, and the corners of its cells.
fn walked(word: &[u8]) -> (Pair, Vec<Pair>) {
    let (mut at, mut corners) = ((0, 0), Vec::new());
    for k in (0..word.len()).filter(|k| !turn(word[*k])) {
        let heading = turning(&word[..k]);
        let (step, three) = stroke(word[k]);
        corners.extend(three.iter().map(|c| plus(at, rotated(*c, heading))));
        at = plus(at, rotated(step, heading));
    }
    (at, corners)
}

fn net(lines: &[Line], token: u8, passes: usize) -> Pair {
    walked(&draws(lines, token, passes)).0
}

// ---- 20: by hulls, each wrapped from its least corner, counterclockwise

fn side(o: Pair, p: Pair, q: Pair) -> i64 {
    (p.0 - o.0) * (q.1 - o.1) - (p.1 - o.1) * (q.0 - o.0)
}

fn hull(points: &[Pair]) -> Vec<Pair> {
    let least = *points.iter().min().unwrap();
    let mut out = vec![least];
    loop {
        let o = out[out.len() - 1];
        let size = |p: Pair| (p.0 - o.0).abs() + (p.1 - o.1).abs();
        let mut best = *points.iter().find(|p| **p != o).unwrap();
        for p in points.iter().filter(|p| **p != o) {
            let s = side(o, best, *p);
            if s < 0 || (s == 0 && size(*p) > size(best)) {
                best = *p;
            }
        }
        if best == least {
            return out;
        }
        out.push(best);
    }
}

// The footprints of a token's children, three times as large, in the frame of a sign.
fn polygons(lines: &[Line], token: u8, sign: i64) -> Vec<Vec<Pair>> {
    let rule = expanded(lines, &[token], &|l| l.rule.to_vec());
    let letters = rule.iter().copied().filter(|b| !turn(*b));
    let (mut at, mut out) = ((0, 0), Vec::new());
    for (child, heading) in letters.zip(headings(&rule)) {
        let turned = if heading == 3 { -1 } else { 1 };
        let (net, corners) = walked(&draws(lines, child, 1));
        let placed = |p: &Pair| (3 * sign * (at.0 + turned * p.0), 3 * sign * (at.1 + turned * p.1));
        out.push(hull(&corners).iter().map(placed).collect());
        at = plus(at, (turned * net.0, turned * net.1));
    }
    out
}

// Some edge has every polygon on one side or the other and neither side empty; so on for both sides.
fn splits(set: Vec<Vec<Pair>>) -> bool {
    if set.len() == 1 {
        return true;
    }
    for polygon in &set {
        for k in 0..polygon.len() {
            let (p, q) = (polygon[k], polygon[(k + 1) % polygon.len()]);
            // the requirements' line has its greater values to the right of the edge
            let right = |g: &Vec<Pair>| g.iter().all(|c| side(p, q, *c) <= 0);
            let left = |g: &Vec<Pair>| g.iter().all(|c| side(p, q, *c) >= 0);
            let (over, under): (Vec<_>, Vec<_>) = set.iter().cloned().partition(right);
            if !over.is_empty() && !under.is_empty() && under.iter().all(left) {
                return splits(over) && splits(under);
            }
        }
    }
    false
}
