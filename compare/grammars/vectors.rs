// Writes the grammars of the test of the program `vectors`: lines, and for each the answer to expect, set
// apart by a tab. Tables are the Rust's, cells those of the full drawing or, at more passes, of a descent
// over the Rust's tables; refusals are by rules.rs. A table with entries changed is followed here.
mod coordinate_systems;
mod lattice;
mod rules;
mod rust;
mod search;
mod shared;

use rules::verdict;
use rust::{descent, rows, Given, A5};
use shared::Random;

// The entries of the program's table.
const ROOM: u64 = 2048;

fn word(text: &str) -> String {
    text.replace(' ', "_").replace('\n', "/")
}

fn numbers(values: &[i32]) -> String {
    values.iter().map(|v| v.to_string()).collect::<Vec<_>>().join(" ")
}

// Every state, from the table's beginning and from an entry at random, and places at random: the drawing up
// to 5 passes, the Rust's descent after that. Then from the last entry that has the room, and past it.
fn good(random: &mut Random, text: &str) {
    let given = Given::new(text);
    let rust = given.compile().unwrap();
    let table = rows(&rust);
    let states = table.len() / 41;
    let last = ROOM - table.len() as u64;
    for k in 0..states {
        let at = [0, random.below(last + 1)][k % 2];
        println!("G {at} {k} {}\t{states} {}", word(text), numbers(&table[41 * k..41 * k + 41]));
    }
    println!("G {last} {} {}\t{states} {}", states - 1, word(text), numbers(&table[41 * states - 41..]));
    for at in [last + 1, ROOM, ROOM + 1, u64::MAX - 41 * states as u64 + 1, u64::MAX] {
        println!("G {at} 0 {}\t! 26", word(text));
    }
    for k in 0..40u8 {
        let passes = 1 + (k % 30);
        let token = random.below(states as u64 / 2) as usize;
        let s = random.below(1 << (2 * passes));
        let [a, b, flavor] = if passes <= 5 { given.drawing(token, passes as usize)[s as usize] } else { descent(&rust, passes as usize, token, s) };
        let at = random.below(last + 1) * (k as u64 % 2);
        println!("D {at} {at} {states} {passes} {token} {s} {}\t{a} {b} {flavor}", word(text));
    }
}

// A text that is refused, by a number if it is given here.
fn bad(number: Option<u8>, text: &str) {
    let (n, line) = verdict(text.as_bytes()).unwrap();
    assert!(number.map_or(true, |m| m == n), "{text:?}: {n}");
    println!("G 0 0 {}\t! {n} {line}", word(text));
    println!("D {} {} 4 31 0 0 {}\t! {n} {line}", u64::MAX, u64::MAX, word(text));
}

// What following a part of a table gives, if it can be read.
fn followed(table: &[i32], start: u64, states: u64, passes: u8, token: u64, s: u64) -> Result<[i64; 3], u8> {
    if start as u128 + 41 * states as u128 > table.len() as u128 {
        return Err(26);
    }
    let table = &table[start as usize..];
    if passes == 0 || passes > 30 {
        return Err(1);
    }
    let readable = |part: &[i32]| {
        part[..4].iter().all(|c| *c >= 0 && (*c as u64) < states)
            && part[4..20].iter().all(|v| (-4096..=4096).contains(v))
            && part[20..24].iter().all(|f| (0..=3).contains(f))
    };
    let count = states % 4 == 0 && (4..=32).contains(&states);
    if !count || token >= states / 2 || !table.chunks(41).take(states as usize).all(readable) {
        return Err(22);
    }
    if s >> (2 * passes) > 0 {
        return Err(3);
    }
    let (mut a, mut b, mut state) = (0, 0, 2 * token as usize);
    for level in (2..=passes).rev() {
        let digit = (s >> (2 * (level - 1))) as usize & 3;
        let part = &table[41 * state..];
        a += (part[4 + 2 * digit] as i64) << (level - 2);
        b += (part[5 + 2 * digit] as i64) << (level - 2);
        state = part[digit] as usize;
    }
    let (part, digit) = (&table[41 * state..], s as usize & 3);
    Ok([3 * a + part[12 + 2 * digit] as i64, 3 * b + part[13 + 2 * digit] as i64, part[20 + digit] as i64])
}

// A descent over a text's table, from an entry on, with some entries changed.
fn changed_at(text: &str, at: u64, start: u64, [states, passes, token, s]: [u64; 4], changes: &[(usize, i32)]) {
    let mut table = vec![0; at as usize];
    table.extend(rows(&Given::new(text).compile().unwrap()));
    let mut line = format!("D {at} {start} {states} {passes} {token} {s} {}", word(text));
    for (place, value) in changes {
        table[*place] = *value;
        line += &format!(" {place} {value}");
    }
    match followed(&table, start, states, passes as u8, token, s) {
        Ok([a, b, flavor]) => println!("{line}\t{a} {b} {flavor}"),
        Err(n) => println!("{line}\t! {n}"),
    }
}

// The same from the table's beginning.
fn changed(text: &str, asked: [u64; 4], changes: &[(usize, i32)]) {
    changed_at(text, 0, 0, asked, changes);
}

fn tables(random: &mut Random, text: &str) {
    let states = 4 * text.lines().count();
    let count = states as u64;
    // each kind of entry at its limits and past them, in the first state and in the last
    let cases = [(0, vec![-1, 0, states as i32 - 1, states as i32, i32::MIN, i32::MAX]), (4, vec![-4097, -4096, 4096, 4097, i32::MIN, i32::MAX]), (19, vec![-4097, -4096, 4096, 4097, i32::MIN, i32::MAX]), (20, vec![-1, 0, 3, 4, i32::MIN, i32::MAX]), (24, vec![i32::MIN, i32::MAX]), (40, vec![-1, 9])];
    for (j, values) in cases {
        for value in values {
            for k in [0, states - 1] {
                changed(text, [count, 3, 0, random.below(64)], &[(41 * k + j, value)]);
                changed(text, [count, 30, 1, random.below(1 << 60)], &[(41 * k + j, value)]);
            }
        }
    }
    // state counts, tokens, places and passes that are not good, alone and together
    for n in [0, 1, 2, 3, 4, 5, count - 4, count - 1, count + 1, count + 4, 33, 36, 1 << 32, u64::MAX, u64::MAX - 3] {
        changed(text, [n, 2, 0, 5], &[]);
    }
    for token in [count / 2 - 1, count / 2, count, 1 << 63, u64::MAX] {
        changed(text, [count, 2, token, 5], &[]);
        changed(text, [count, 2, token, 16], &[]);
    }
    for passes in [0, 1, 2, 29, 30, 31, 32, 255] {
        for s in [0, 1 << 58, 1 << 60, u64::MAX] {
            changed(text, [count, passes, 0, s], &[]);
            changed(text, [count + 4, passes, 0, s], &[]);
        }
    }
    // parts that start where the text's table does, beside it, behind it and past all numbers, with as many
    // states as there are, fewer and more, and entries changed before the part and in it
    for at in [0, 1, 41, 333] {
        for start in [0, at, at + 1, at + 41, at + 41 * (count - 4), at + 41 * count, at + 41 * count + 1, 1 << 32, u64::MAX - 41 * count, u64::MAX] {
            for n in [0, 4, count - 4, count, count + 1, 32, u64::MAX / 41, u64::MAX / 41 + 1, u64::MAX] {
                changed_at(text, at, start, [n, 2, 0, 5], &[]);
            }
            changed_at(text, at, start, [count, 31, count, u64::MAX], &[]);
        }
        for place in (0..at as usize).step_by(20) {
            changed_at(text, at, at, [count, 2, 0, place as u64 % 16], &[(place, i32::MIN)]);
        }
        changed_at(text, at, at, [count, 2, 0, 5], &[(at as usize, -1)]);
    }
    // tables that no compiler wrote, all of them readable
    for _ in 0..40 {
        let mut changes = Vec::new();
        for _ in 0..1 + random.below(40) {
            let (k, j) = (random.below(count) as usize, random.below(24) as usize);
            let value = match j {
                0..=3 => random.below(count) as i32,
                4..=19 => random.below(8193) as i32 - 4096,
                _ => random.below(4) as i32,
            };
            changes.push((41 * k + j, value));
        }
        let passes = 1 + random.below(30);
        changed(text, [count, passes, random.below(count / 2), random.below(1 << (2 * passes))], &changes);
    }
}

fn main() {
    std::panic::set_hook(Box::new(|_| {}));
    let mut random = Random(0x9E3779B97F4A7C15);
    let found = search::grammars(&mut random).good;
    // A5, and two of each number of motifs
    let mut texts = vec![A5];
    for n in 2..=8 {
        texts.extend(found[1..].iter().filter(|t| t.lines().count() == n).step_by(30).take(2).map(|t| t.as_str()));
    }
    for text in &texts {
        good(&mut random, text);
    }
    let line = "A PQAB E\n";
    for text in ["", "\n", "A", "A \n", "A  E\n", "A AAAA E", " AAAA E\n", "A AAAA E \n", "AB AAAA E\n", "A AAAA  E\n", "A AAAA\n", "A AAAA E\n\n", "A AAAAAAAAAAAAAAAAAAAAAAAAA E\n", "A AAAA +++++++++++++\n", "A PQAB E\nB"] {
        bad(Some(12), text);
    }
    bad(Some(12), &line.repeat(9));
    bad(Some(12), &line.repeat(12));
    bad(Some(12), &(line.repeat(8) + "A"));
    bad(Some(13), &line.repeat(2));
    bad(Some(13), &line.repeat(8));
    for name in ["a", "E", "S", "U", "D", "T", "+", "1", "@", "["] {
        bad(Some(13), &format!("{name} AAAA E\n"));
        bad(Some(13), &format!("A XXXX U\n{name} AAAA E\n"));
    }
    for rule in ["AAAB", "AAbA", "AAAE", "A*AAA", "AA!A", "aa{a"] {
        bad(Some(14), &format!("A {rule} E\n"));
        bad(Some(14), &format!("C cccc E\nA {rule} U\n"));
    }
    for rule in ["A", "AAA", "AAAAA", "++++", "A+++A---A", "aaaaaaaaaaaaaaaaaaaaaaaa"] {
        bad(Some(15), &format!("A {rule} E\n"));
    }
    for rule in ["A+AAA", "+AAAA", "A++AA-A", "AAAA+", "AAAA--", "AA----AA"] {
        bad(Some(16), &format!("A {rule} E\n"));
    }
    for draw in ["+", "+-", "U", "u", "A", "EE", "E+e", "X", "+F-"] {
        bad(Some(17), &format!("A AAAA {draw}\n"));
    }
    for text in ["A AAAA +T\n", "A +++AAAA E\n", "A AAAA+++ E\n", "A A+++AAA E\n", "A AAAA E---\n", "A A+++A---AA E\nB BBBB +E\n"] {
        bad(Some(18), text);
    }
    for text in ["A AAAA E\n", "A +++AAAA--- D\n", "A A+++AAA--- E\n", "A A+++A---AA E\nB BBBB E\n"] {
        bad(Some(19), text);
    }
    bad(Some(20), "A A+++A---AA E\n");
    // texts changed at random, some of each number
    let mut left = [0, 0, 0, 0, 0, 0, 0, 0, 0, 0, 0, 0, 20, 20, 20, 20, 20, 20, 20, 20, 20];
    while left.iter().sum::<i32>() > 0 {
        let text = texts[random.below(texts.len() as u64) as usize];
        let text = search::spoiled(&mut random, text);
        if let Some((n, _)) = verdict(&text) {
            if left[n as usize] > 0 {
                left[n as usize] -= 1;
                bad(Some(n), std::str::from_utf8(&text).unwrap());
            }
        }
    }
    tables(&mut random, A5);
    tables(&mut random, texts[1]);
    for line in ["G", "G 0", "G x 0 A_AAAA_E/", "G 0 x A_AAAA_E/", "G 0 256 A_AAAA_E/", "G 0 0", "D", "D 0", "D x 0 4 1 0 0 A_AAAA_E/"] {
        // a missing text is the empty text
        let empty = line == "G 0 0" || line == "D 0";
        println!("{line}\t! {}", if empty { "12 0" } else { "21" });
    }
    for line in ["D 0 x 28 1 0 0", "D 0 0 x 1 0 0", "D 0 0 28 256 0 0", "D 0 0 28 1 -1 0", "D 0 0 28 1 0 18446744073709551616"] {
        println!("{line} {}\t! 21", word(A5));
    }
}
