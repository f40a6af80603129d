//! Calls each function of the library on the worked examples of the requirements. A line is a call and
//! what it gives: the values, or `!` and the number of the refusal.

mod ffi {
    extern "C" {
        pub fn hb_cell(orientation: u8, resolution: u8, s: u64, out: *mut i32, out_len: usize) -> u8;
        pub fn hb_position(orientation: u8, resolution: u8, x: i32, y: i32, z: i32, out: *mut u64, out_len: usize) -> u8;
        pub fn hb_draw(orientation: u8, resolution: u8, out: *mut i32, out_len: usize) -> u8;
        pub fn hb_node(
            orientation: u8,
            resolution: u8,
            x: i32,
            y: i32,
            z: i32,
            numbers: *mut i32,
            numbers_len: usize,
            places: *mut f64,
            places_len: usize,
        ) -> u8;
        pub fn hb_child(
            orientation: u8,
            resolution: u8,
            motif: i32,
            flip: i32,
            a: f64,
            b: f64,
            digit: u8,
            numbers: *mut i32,
            numbers_len: usize,
            places: *mut f64,
            places_len: usize,
        ) -> u8;
        pub fn hb_line(
            line: *const u8,
            line_len: usize,
            text: *mut u8,
            text_len: usize,
            out: *mut u64,
            out_len: usize,
        ) -> u8;
        pub fn hb_point(i: f64, j: f64, resolution: u8, out: *mut i32, out_len: usize) -> u8;
        pub fn hb_point_exact(i: f64, j: f64, resolution: u8, out: *mut i32, out_len: usize) -> u8;
        pub fn hb_corner_sum(x: i32, y: i32, z: i32, out: *mut i64, out_len: usize) -> u8;
        pub fn hb_triple(a: i64, b: i64, out: *mut i32, out_len: usize) -> u8;
        pub fn hb_code_write(
            orientation: u8,
            resolution: u8,
            s: u64,
            bytes: *mut u8,
            bytes_len: usize,
            out: *mut u64,
            out_len: usize,
        ) -> u8;
        pub fn hb_fold(
            orientation: u8,
            resolution: u8,
            positions: *const u64,
            positions_len: usize,
            pairs: *mut u64,
            pairs_len: usize,
            count: *mut u64,
            count_len: usize,
        ) -> u8;
        pub fn hb_unfold(
            orientation: u8,
            resolution: u8,
            pairs: *const u64,
            pairs_len: usize,
            positions: *mut u64,
            positions_len: usize,
            count: *mut u64,
            count_len: usize,
        ) -> u8;
        pub fn hb_area_union(
            a: *const u64,
            a_len: usize,
            b: *const u64,
            b_len: usize,
            pairs: *mut u64,
            pairs_len: usize,
            count: *mut u64,
            count_len: usize,
        ) -> u8;
        pub fn hb_area_intersection(
            a: *const u64,
            a_len: usize,
            b: *const u64,
            b_len: usize,
            pairs: *mut u64,
            pairs_len: usize,
            count: *mut u64,
            count_len: usize,
        ) -> u8;
        pub fn hb_area_difference(
            a: *const u64,
            a_len: usize,
            b: *const u64,
            b_len: usize,
            pairs: *mut u64,
            pairs_len: usize,
            count: *mut u64,
            count_len: usize,
        ) -> u8;
        pub fn hb_area_contains(
            a: *const u64,
            a_len: usize,
            resolution: u8,
            s: u64,
            out: *mut u64,
            out_len: usize,
        ) -> u8;
        pub fn hb_area_size(a: *const u64, a_len: usize, resolution: u8, out: *mut u64, out_len: usize) -> u8;
        pub fn hb_area_report(
            orientation: u8,
            resolution: u8,
            triples: *const i32,
            triples_len: usize,
            work: *mut u64,
            work_len: usize,
            pairs: *mut u64,
            pairs_len: usize,
            count: *mut u64,
            count_len: usize,
        ) -> u8;
        pub fn hb_code_read(bytes: *const u8, bytes_len: usize, out: *mut u64, out_len: usize) -> u8;
        pub fn hb_mend(
            list: *const u8,
            list_len: usize,
            out: *mut u8,
            out_len: usize,
            counts: *mut u64,
            counts_len: usize,
        ) -> u8;
        pub fn hb_mend_step(
            rest: *const u8,
            rest_len: usize,
            out: *mut u8,
            out_len: usize,
            counts: *mut u64,
            counts_len: usize,
        ) -> u8;
        pub fn hb_check(list: *const u8, list_len: usize, out: *mut u64, out_len: usize) -> u8;
        pub fn hb_wkt_write(
            resolution: u8,
            x: i32,
            y: i32,
            z: i32,
            text: *mut u8,
            text_len: usize,
            out: *mut u64,
            out_len: usize,
        ) -> u8;
        pub fn hb_wkt_read(resolution: u8, text: *const u8, text_len: usize, out: *mut i32, out_len: usize) -> u8;
        pub fn hb_descend(
            table: *const i32,
            table_len: usize,
            start: u64,
            states: u64,
            passes: u8,
            token: u64,
            s: u64,
            out: *mut i64,
            out_len: usize,
        ) -> u8;
        pub fn hb_compile(
            text: *const u8,
            text_len: usize,
            table: *mut i32,
            table_len: usize,
            start: u64,
            out: *mut u64,
            out_len: usize,
        ) -> u16;
    }
}

/// The library as Rust has it: a slice is what it says it is, so each call is safe.
mod haspbarley {
    use super::ffi;

    pub fn cell(orientation: u8, resolution: u8, s: u64, out: &mut [i32]) -> u8 {
        unsafe { ffi::hb_cell(orientation, resolution, s, out.as_mut_ptr(), out.len()) }
    }

    pub fn position(orientation: u8, resolution: u8, [x, y, z]: [i32; 3], out: &mut [u64]) -> u8 {
        unsafe { ffi::hb_position(orientation, resolution, x, y, z, out.as_mut_ptr(), out.len()) }
    }

    pub fn draw(orientation: u8, resolution: u8, out: &mut [i32]) -> u8 {
        unsafe { ffi::hb_draw(orientation, resolution, out.as_mut_ptr(), out.len()) }
    }

    pub fn node(orientation: u8, resolution: u8, [x, y, z]: [i32; 3], numbers: &mut [i32], places: &mut [f64]) -> u8 {
        let (n, p) = (numbers.len(), places.len());
        unsafe { ffi::hb_node(orientation, resolution, x, y, z, numbers.as_mut_ptr(), n, places.as_mut_ptr(), p) }
    }

    pub fn child(
        [orientation, resolution, motif, flip]: [i32; 4],
        [a, b]: [f64; 2],
        digit: u8,
        numbers: &mut [i32],
        places: &mut [f64],
    ) -> u8 {
        let (n, p) = (numbers.len(), places.len());
        let (numbers, places) = (numbers.as_mut_ptr(), places.as_mut_ptr());
        unsafe { ffi::hb_child(orientation as u8, resolution as u8, motif, flip, a, b, digit, numbers, n, places, p) }
    }

    pub fn line(line: &[u8], text: &mut [u8], out: &mut [u64]) -> u8 {
        unsafe { ffi::hb_line(line.as_ptr(), line.len(), text.as_mut_ptr(), text.len(), out.as_mut_ptr(), out.len()) }
    }

    pub fn point(i: f64, j: f64, resolution: u8, out: &mut [i32]) -> u8 {
        unsafe { ffi::hb_point(i, j, resolution, out.as_mut_ptr(), out.len()) }
    }

    pub fn point_exact(i: f64, j: f64, resolution: u8, out: &mut [i32]) -> u8 {
        unsafe { ffi::hb_point_exact(i, j, resolution, out.as_mut_ptr(), out.len()) }
    }

    pub fn corner_sum(x: i32, y: i32, z: i32, out: &mut [i64]) -> u8 {
        unsafe { ffi::hb_corner_sum(x, y, z, out.as_mut_ptr(), out.len()) }
    }

    pub fn triple(a: i64, b: i64, out: &mut [i32]) -> u8 {
        unsafe { ffi::hb_triple(a, b, out.as_mut_ptr(), out.len()) }
    }

    pub fn code_write(orientation: u8, resolution: u8, s: u64, bytes: &mut [u8], out: &mut [u64]) -> u8 {
        unsafe {
            ffi::hb_code_write(orientation, resolution, s, bytes.as_mut_ptr(), bytes.len(), out.as_mut_ptr(), out.len())
        }
    }

    pub fn fold(orientation: u8, resolution: u8, positions: &[u64], pairs: &mut [u64], count: &mut [u64]) -> u8 {
        let (from, n) = (positions.as_ptr(), positions.len());
        unsafe { ffi::hb_fold(orientation, resolution, from, n, pairs.as_mut_ptr(), pairs.len(), count.as_mut_ptr(), count.len()) }
    }

    pub fn unfold(orientation: u8, resolution: u8, pairs: &[u64], positions: &mut [u64], count: &mut [u64]) -> u8 {
        let (to, n) = (positions.as_mut_ptr(), positions.len());
        unsafe { ffi::hb_unfold(orientation, resolution, pairs.as_ptr(), pairs.len(), to, n, count.as_mut_ptr(), count.len()) }
    }

    pub fn area_union(a: &[u64], b: &[u64], pairs: &mut [u64], count: &mut [u64]) -> u8 {
        let (to, n) = (pairs.as_mut_ptr(), pairs.len());
        unsafe { ffi::hb_area_union(a.as_ptr(), a.len(), b.as_ptr(), b.len(), to, n, count.as_mut_ptr(), count.len()) }
    }

    pub fn area_intersection(a: &[u64], b: &[u64], pairs: &mut [u64], count: &mut [u64]) -> u8 {
        let (to, n) = (pairs.as_mut_ptr(), pairs.len());
        unsafe { ffi::hb_area_intersection(a.as_ptr(), a.len(), b.as_ptr(), b.len(), to, n, count.as_mut_ptr(), count.len()) }
    }

    pub fn area_difference(a: &[u64], b: &[u64], pairs: &mut [u64], count: &mut [u64]) -> u8 {
        let (to, n) = (pairs.as_mut_ptr(), pairs.len());
        unsafe { ffi::hb_area_difference(a.as_ptr(), a.len(), b.as_ptr(), b.len(), to, n, count.as_mut_ptr(), count.len()) }
    }

    pub fn area_contains(a: &[u64], resolution: u8, s: u64, out: &mut [u64]) -> u8 {
        unsafe { ffi::hb_area_contains(a.as_ptr(), a.len(), resolution, s, out.as_mut_ptr(), out.len()) }
    }

    pub fn area_size(a: &[u64], resolution: u8, out: &mut [u64]) -> u8 {
        unsafe { ffi::hb_area_size(a.as_ptr(), a.len(), resolution, out.as_mut_ptr(), out.len()) }
    }

    pub fn area_report(
        orientation: u8,
        resolution: u8,
        triples: &[i32],
        work: &mut [u64],
        pairs: &mut [u64],
        count: &mut [u64],
    ) -> u8 {
        let (from, free, to) = (triples.as_ptr(), work.as_mut_ptr(), pairs.as_mut_ptr());
        let (triples, work, pairs) = (triples.len(), work.len(), pairs.len());
        unsafe {
            ffi::hb_area_report(orientation, resolution, from, triples, free, work, to, pairs, count.as_mut_ptr(), count.len())
        }
    }

    pub fn code_read(bytes: &[u8], out: &mut [u64]) -> u8 {
        unsafe { ffi::hb_code_read(bytes.as_ptr(), bytes.len(), out.as_mut_ptr(), out.len()) }
    }

    pub fn mend(list: &[u8], out: &mut [u8], counts: &mut [u64]) -> u8 {
        unsafe {
            ffi::hb_mend(list.as_ptr(), list.len(), out.as_mut_ptr(), out.len(), counts.as_mut_ptr(), counts.len())
        }
    }

    pub fn mend_step(rest: &[u8], out: &mut [u8], counts: &mut [u64]) -> u8 {
        unsafe {
            ffi::hb_mend_step(rest.as_ptr(), rest.len(), out.as_mut_ptr(), out.len(), counts.as_mut_ptr(), counts.len())
        }
    }

    pub fn check(list: &[u8], out: &mut [u64]) -> u8 {
        unsafe { ffi::hb_check(list.as_ptr(), list.len(), out.as_mut_ptr(), out.len()) }
    }

    pub fn wkt_write(resolution: u8, [x, y, z]: [i32; 3], text: &mut [u8], out: &mut [u64]) -> u8 {
        unsafe { ffi::hb_wkt_write(resolution, x, y, z, text.as_mut_ptr(), text.len(), out.as_mut_ptr(), out.len()) }
    }

    pub fn wkt_read(resolution: u8, text: &[u8], out: &mut [i32]) -> u8 {
        unsafe { ffi::hb_wkt_read(resolution, text.as_ptr(), text.len(), out.as_mut_ptr(), out.len()) }
    }

    pub fn compile(text: &[u8], table: &mut [i32], start: u64, out: &mut [u64]) -> u16 {
        let (n, room) = (table.len(), out.len());
        unsafe { ffi::hb_compile(text.as_ptr(), text.len(), table.as_mut_ptr(), n, start, out.as_mut_ptr(), room) }
    }

    /// So many states of a table, from an entry on.
    #[derive(Clone, Copy)]
    pub struct Part {
        pub start: u64,
        pub states: u64,
    }

    pub fn descend(table: &[i32], part: Part, passes: u8, token: u64, s: u64, out: &mut [i64]) -> u8 {
        let (n, room, Part { start, states }) = (table.len(), out.len(), part);
        unsafe { ffi::hb_descend(table.as_ptr(), n, start, states, passes, token, s, out.as_mut_ptr(), room) }
    }
}

use haspbarley::Part;

fn gives<T: ToString>(status: u8, values: &[T]) -> String {
    match status {
        0 => values.iter().map(T::to_string).collect::<Vec<_>>().join(" "),
        refusal => format!("! {refusal}"),
    }
}

fn cell(orientation: u8, resolution: u8, s: u64) {
    let mut out = [0; 4];
    let status = haspbarley::cell(orientation, resolution, s, &mut out);
    println!("cell {orientation} {resolution} {s}: {}", gives(status, &out));
}

fn position(orientation: u8, resolution: u8, [x, y, z]: [i32; 3]) {
    let mut out = [0; 4];
    let status = haspbarley::position(orientation, resolution, [x, y, z], &mut out);
    println!("position {orientation} {resolution} {x} {y} {z}: {}", gives(status, &out));
}

/// The curve drawn from its rules, an entry behind its last cell, and whether each cell is that of its
/// position.
fn draw(orientation: u8, resolution: u8) {
    let cells = 1 << (2 * resolution);
    let mut out = vec![7; 4 * cells + 1];
    let status = haspbarley::draw(orientation, resolution, &mut out);
    print!("draw {orientation} {resolution}: {}", gives(status, &out[..8.min(4 * cells)]));
    if status == 0 {
        let same = out.chunks_exact(4).zip(0..).all(|(drawn, s)| {
            let mut named = [0; 4];
            haspbarley::cell(orientation, resolution, s, &mut named) == 0 && drawn == named
        });
        print!(" .., behind {}, its positions' cells: {}", out[4 * cells], if same { "yes" } else { "no" });
    }
    println!();
}

/// Down the curve of UV by digits, from the node of its axiom; then the node of the cell that is
/// reached, which is the same.
fn walk(digits: &[u8]) {
    let (mut numbers, mut places) = ([0; 8], [0.0; 2]);
    for (k, &digit) in digits.iter().enumerate() {
        let node = [numbers[4], numbers[5], numbers[6], numbers[7]];
        let status = haspbarley::child(node, places, digit, &mut numbers, &mut places);
        println!("child {digit} at {}: {}", k + 1, gives(status, &numbers[..4]));
    }
    let (mut node, mut at) = ([0; 4], [0.0; 2]);
    let cell = [numbers[0], numbers[1], numbers[2]];
    let status = haspbarley::node(0, digits.len() as u8, cell, &mut node, &mut at);
    println!("node of that cell: {}", gives(status, &node));
    let same = node == numbers[4..] && at == places;
    println!("the walk's own: {}", if same { "yes" } else { "no" });
}

/// One step from a node of the wedge itself, or of numbers that are no node's.
fn child(node: [i32; 4]) {
    let (mut numbers, mut places) = ([0; 8], [0.0; 2]);
    let status = haspbarley::child(node, [0.0; 2], 0, &mut numbers, &mut places);
    let [orientation, resolution, motif, flip] = node;
    println!("child of {orientation} {resolution} {motif} {flip}: {}", gives(status, &numbers));
}

fn line(query: &str) {
    let (mut text, mut length) = ([0; 107], [0]);
    let status = haspbarley::line(query.as_bytes(), &mut text, &mut length);
    println!("line {query}: {status}, {}", String::from_utf8_lossy(&text[..length[0] as usize]));
}

fn point(i: f64, j: f64, resolution: u8) {
    let mut out = [0; 4];
    let status = haspbarley::point(i, j, resolution, &mut out);
    println!("point {i} {j} {resolution}: {}", gives(status, &out));
}

fn point_exact(i: f64, j: f64, resolution: u8) {
    let mut out = [0; 4];
    let status = haspbarley::point_exact(i, j, resolution, &mut out);
    println!("exact point {i} {j} {resolution}: {}", gives(status, &out));
}

// 2^-60 left of the edge: the fractions' sum is rounded to 1, and is below it.
fn left_of_edge() {
    let (mut out, i) = ([0; 4], -(0.5f64.powi(60)));
    let status = haspbarley::point(i, 0.0, 1, &mut out);
    println!("left of the edge: {}", gives(status, &out));
    let status = haspbarley::point_exact(i, 0.0, 1, &mut out);
    println!("exactly: {}", gives(status, &out));
}

fn corner_sum(x: i32, y: i32, z: i32) {
    let mut out = [0; 2];
    let status = haspbarley::corner_sum(x, y, z, &mut out);
    println!("corner sum {x} {y} {z}: {}", gives(status, &out));
}

fn triple(a: i64, b: i64) {
    let mut out = [0; 3];
    let status = haspbarley::triple(a, b, &mut out);
    println!("triple {a} {b}: {}", gives(status, &out));
}

/// The code of a position, and what it says when it is read back.
fn code(orientation: u8, resolution: u8, s: u64) {
    let (mut bytes, mut count, mut out) = ([0; 9], [0], [0; 5]);
    let status = haspbarley::code_write(orientation, resolution, s, &mut bytes, &mut count);
    let code = &bytes[..count[0] as usize];
    let written: Vec<String> = code.iter().map(|b| format!("{b:02X}")).collect();
    print!("code {orientation} {resolution} {s}: {}", gives(status, &written));
    if status == 0 {
        let status = haspbarley::code_read(code, &mut out);
        print!(" reads {}", gives(status, &out));
    }
    println!();
}

/// An old code, of s 6 in VU at resolution 2: it is read as s 9 in UV, which names the same cell.
fn old_code() {
    let mut out = [0; 5];
    let status = haspbarley::code_read(&[0x22, 0x60], &mut out);
    println!("old code 22 60: {status}, reads {}", gives(status, &out));
    cell(1, 2, 6);
    cell(0, 2, 9);
}

/// A list of a sound code, one with a spare bit set, an old one, a byte that begins none, one with both faults,
/// and one cut short. Each step's offset, numbers and bytes; then the whole at once.
fn mend() {
    let list = [0x02, 0x60, 0xA1, 0xC1, 0x22, 0x60, 0xFF, 0x81, 0xC1, 0xBE];
    let bytes = |out: &[u8]| out.iter().map(|b| format!(" {b:02X}")).collect::<String>();
    let (mut out, mut counts) = ([0; 10], [0; 3]);
    let mut at = 0;
    while at < list.len() {
        let status = haspbarley::mend_step(&list[at..], &mut out, &mut counts);
        let [taken, written, change] = counts;
        println!("mend at {at}: {status}, {taken} {written} {change}{}", bytes(&out[..written as usize]));
        at += taken as usize;
    }
    let status = haspbarley::mend(&list, &mut out, &mut counts);
    println!("mended: {status}, {} bytes, {} changes:{}", counts[0], counts[1], bytes(&out[..counts[0] as usize]));
    counts[0] = 7;
    let status = haspbarley::mend(&list, &mut out[..9], &mut counts);
    println!("mended into one byte less: ! {status}, count left {}", counts[0]);
}

/// The verdict on a treated list.
fn check(name: &str, list: &[u8]) {
    const FAULTS: [&str; 5] = ["good", "unsound", "marked", "orientation", "overlap"];
    let mut verdict = [0; 2];
    match haspbarley::check(list, &mut verdict) {
        0 => println!("check {name}: {} {}", FAULTS[verdict[0] as usize], verdict[1]),
        status => println!("check {name}: ! {status}"),
    }
}

/// Lists of UV at resolutions 1 and 2 that are good, and with each fault; and one of more codes than are
/// checked, beside each other at resolution 5.
fn checks() {
    check("none", &[]);
    check("three apart", &[0x01, 0x00, 0x02, 0x80, 0x01, 0x40]);
    check("a cell in one before it", &[0x01, 0x40, 0x01, 0x00, 0x02, 0x70]);
    check("a cell around one before it", &[0x02, 0x70, 0x01, 0x00, 0x01, 0x40]);
    check("another orientation", &[0x01, 0x00, 0x41, 0x00]);
    check("an old code", &[0x01, 0x00, 0x61, 0xC0]);
    check("a spare bit", &[0x21, 0x41]);
    let many: Vec<u8> = (0..=512u32).flat_map(|k| [0x05, (k >> 2) as u8, (k << 6) as u8]).collect();
    check("512 codes", &many[..3 * 512]);
    check("512 codes and a byte", &many[..3 * 512 + 1]);
}

/// A list of positions at resolution 3 folded, and unfolded again.
fn fold(name: &str, positions: &[u64]) {
    let (mut pairs, mut back, mut count) = ([0; 128], [0; 64], [0]);
    let status = haspbarley::fold(0, 3, positions, &mut pairs, &mut count);
    if status != 0 {
        println!("fold {name}: ! {status}");
        return;
    }
    let pairs = &pairs[..2 * count[0] as usize];
    let cells: String = pairs.chunks(2).map(|pair| format!(" {}/{}", pair[0], pair[1])).collect();
    let status = haspbarley::unfold(0, 3, pairs, &mut back, &mut count);
    let same = back[..count[0] as usize] == *positions;
    println!("fold {name}:{cells}; unfolded: {status}, the list: {}", if same { "yes" } else { "no" });
}

fn folds() {
    let all: Vec<u64> = (0..64).collect();
    fold("all 64", &all);
    fold("the first 21", &all[..21]);
    fold("none", &[]);
    fold("two alike", &[4, 4]);
    fold("one too high", &[5, 4, 64]);
    let (mut left, mut count) = ([7; 4], [7]);
    let status = haspbarley::unfold(0, 1, &[0, 0, 1, 2], &mut left, &mut count);
    println!("unfold a cell inside another: ! {status}, left {}, count left {}", left[0], count[0]);
}

/// An area's pairs, as they are shown.
fn shown(area: &[u64]) -> String {
    area.chunks(2).map(|pair| format!(" {}/{}", pair[0], pair[1])).collect()
}

/// The triples of positions at resolution 3, as a module has them.
fn triples_of(positions: &[u64]) -> Vec<i32> {
    let mut named = [0; 4];
    let mut triple = |&s: &u64| {
        haspbarley::cell(0, 3, s, &mut named);
        [named[0], named[1], named[2]]
    };
    positions.iter().flat_map(|s| triple(s)).collect()
}

type Operation = fn(&[u64], &[u64], &mut [u64], &mut [u64]) -> u8;

/// What an operation makes of two areas.
fn made(operation: Operation, a: &[u64], b: &[u64]) -> Vec<u64> {
    let (mut pairs, mut count) = ([0; 4 * 64], [0]);
    operation(a, b, &mut pairs, &mut count);
    pairs[..2 * count[0] as usize].to_vec()
}

/// What modules have reported: as an area, and cell by cell.
struct Total {
    area: Vec<u64>,
    seen: [bool; 64],
}

impl Total {
    /// A module's report of cells, in whatever order they come, united with the total; how many cells the
    /// total has then, by its size and counted one by one; and whether uniting the report again changes it.
    fn report(&mut self, name: &str, positions: &[u64]) {
        let (mut work, mut pairs, mut count, mut size) = ([0; 64], [0; 128], [0], [0]);
        let status = haspbarley::area_report(0, 3, &triples_of(positions), &mut work, &mut pairs, &mut count);
        let area = &pairs[..2 * count[0] as usize];
        self.area = made(haspbarley::area_union, &self.area, area);
        let same = made(haspbarley::area_union, &self.area, area) == self.area;
        haspbarley::area_size(&self.area, 3, &mut size);
        positions.iter().for_each(|&s| self.seen[s as usize] = true);
        let distinct = self.seen.iter().filter(|&&seen| seen).count();
        print!("report {name}: {status},{}; the total has {} cells of {distinct}", shown(area), size[0]);
        println!(", united again the same: {}", if same { "yes" } else { "no" });
    }
}

/// Three modules report, the second of them twice, in pieces and out of order.
fn reports() {
    let mut total = Total { area: Vec::new(), seen: [false; 64] };
    total.report("of the first", &[3, 1, 0, 2, 7, 6, 5, 4, 9, 9, 3]);
    total.report("of the second, a piece", &[23, 22, 8]);
    total.report("of the second, the rest", &[20, 9, 10, 21, 11]);
    total.report("of the third", &[63, 15, 13, 14, 12, 63]);
    total.report("of the second, again", &[8, 9, 10, 11, 20, 21, 22, 23]);
    total.report("of nothing", &[]);
    let total = total.area;
    let part = made(haspbarley::area_intersection, &total, &[2, 5, 1, 3]);
    print!("the total:{}; in 2/5 or 1/3:{}", shown(&total), shown(&part));
    let part = made(haspbarley::area_difference, &total, &[3, 0, 1, 3]);
    let mut flags = [0; 2];
    haspbarley::area_contains(&part, 2, 5, &mut flags[..1]);
    haspbarley::area_contains(&part, 1, 0, &mut flags[1..]);
    println!("; without 3/0 and 1/3:{}; has all of 2/5: {}, of 1/0: {}", shown(&part), flags[0], flags[1]);

    let (mut triples, mut work, mut pairs, mut count) = (triples_of(&[1, 0]), [7; 2], [0; 4], [7]);
    triples.push(0);
    let status = haspbarley::area_report(0, 3, &triples, &mut work, &mut pairs, &mut count);
    println!("report two triples and a number: ! {status}");
    let triples = &triples[..6];
    let status = haspbarley::area_report(0, 3, triples, &mut work, &mut pairs[..3], &mut count);
    println!("report two triples into three places: ! {status}, left {} {} {}", gives(0, &work), pairs[0], count[0]);
    let status = haspbarley::area_report(0, 3, triples, &mut work, &mut pairs, &mut []);
    println!("report them with no place for the count: ! {status}, left {} {}", gives(0, &work), pairs[0]);
    let status = haspbarley::area_report(0, 3, triples, &mut work, &mut pairs, &mut count);
    println!("report them: {status}, {} cells, work {}", count[0], gives(0, &work));
}

/// The polygon of a cell, and the cell that it is read back as.
fn polygon(resolution: u8, [x, y, z]: [i32; 3]) {
    let (mut text, mut length, mut out) = ([0; 106], [0], [0; 3]);
    let status = haspbarley::wkt_write(resolution, [x, y, z], &mut text, &mut length);
    let text = &text[..length[0] as usize];
    print!("polygon {resolution} {x} {y} {z}: {}", gives(status, &[String::from_utf8_lossy(text)]));
    if status == 0 {
        let status = haspbarley::wkt_read(resolution, text, &mut out);
        print!(" reads {}", gives(status, &out));
    }
    println!();
}

fn read_polygon(resolution: u8, text: &str) {
    let mut out = [0; 3];
    let status = haspbarley::wkt_read(resolution, text.as_bytes(), &mut out);
    println!("read {resolution} {text}: {}", gives(status, &out));
}

/// A table of one motif that no compiler wrote: each of its four states has itself for its children.
fn by_hand() -> [i32; 4 * 41] {
    let places = [[0, 0], [4, 0], [4, -4], [8, -4]];
    let mut table = [0; 4 * 41];
    for (state, part) in table.chunks_mut(41).enumerate() {
        for (digit, place) in places.iter().enumerate() {
            part[digit] = state as i32;
            part[4 + 2 * digit..6 + 2 * digit].copy_from_slice(place);
            part[12 + 2 * digit..14 + 2 * digit].copy_from_slice(place);
            part[20 + digit] = digit as i32;
        }
    }
    table
}

fn descend(table: &[i32], start: u64, states: u64, passes: u8, token: u64, s: u64) {
    let mut out = [0; 3];
    let status = haspbarley::descend(table, Part { start, states }, passes, token, s, &mut out);
    println!("descend {start} {states} {passes} {token} {s}: {}", gives(status, &out));
}

/// A grammar's text compiled, and the cell at a place of what its first motif draws.
fn compile(name: &str, text: &str, passes: u8, s: u64) {
    let (mut table, mut states, mut out) = ([0; 32 * 41], [7], [0; 3]);
    let status = haspbarley::compile(text.as_bytes(), &mut table, 0, &mut states);
    if status != 0 {
        println!("compile {name}: ! {} at line {}, left {}", status & 0xFF, status >> 8, states[0]);
        return;
    }
    let status = haspbarley::descend(&table, Part { start: 0, states: states[0] }, passes, 0, s, &mut out);
    println!("compile {name}: {} states, place {s}: {status}, {}", states[0], gives(0, &out));
}

const A5: &str = "A PQAB E\nB B+++PQ---A +e-\nC P---RMb+++ -e+\nM qQ+++C---b T\n\
                  P PpB---B+++ S\nQ PQ---Cb+++ D\nR b+++a---qQ +++D---\n";

/// A partner's grammar behind ours in one table, and the cell at place 3 of what the first motif of each
/// draws with two passes. One entry further on, the partner's last state would end past the table.
fn share(theirs: &str) {
    let (behind, mut table, mut states, mut out) = (28 * 41, [0; 36 * 41], [0], [0; 3]);
    haspbarley::compile(theirs.as_bytes(), &mut table, behind, &mut states);
    let partner = Part { start: behind, states: states[0] };
    haspbarley::descend(&table, partner, 2, 0, 3, &mut out);
    println!("share, theirs: {} states, {}", states[0], gives(0, &out));
    haspbarley::compile(A5.as_bytes(), &mut table, 0, &mut states);
    haspbarley::descend(&table, Part { start: 0, states: states[0] }, 2, 0, 3, &mut out);
    println!("share, ours: {} states, {}", states[0], gives(0, &out));
    haspbarley::descend(&table, partner, 2, 0, 3, &mut out);
    println!("share, theirs again: {}", gives(0, &out));
    let status = haspbarley::compile(theirs.as_bytes(), &mut table, behind + 1, &mut states);
    println!("share, one entry further on: ! {}", status & 0xFF);
    let status = haspbarley::compile(theirs.as_bytes(), &mut table, behind, &mut []);
    println!("share, with no place for the number: ! {}", status & 0xFF);
}

/// A refused call leaves what it was lent as it was.
fn refused() {
    let mut out = [7; 4];
    let status = haspbarley::cell(0, 1, 2, &mut out[..3]);
    println!("cell 0 1 2 into three places: ! {status}, left {}", gives(0, &out));

    let mut drawing = [7; 16];
    let status = haspbarley::draw(0, 1, &mut drawing[..15]);
    println!("draw 0 1 into fifteen places: ! {status}, left {}", drawing[0]);

    let (mut bytes, mut count) = ([7; 2], [7]);
    let status = haspbarley::code_write(0, 2, 6, &mut bytes, &mut []);
    println!("code 0 2 6 with no place for the count: ! {status}, left {}", gives(0, &bytes));
    let status = haspbarley::code_write(0, 2, 6, &mut bytes[..1], &mut count);
    println!("code 0 2 6 into one byte: ! {status}, left {}, count left {}", bytes[0], count[0]);
    let mut read = [7; 5];
    let status = haspbarley::code_read(&[], &mut read);
    println!("read no byte: ! {status}, left {}", read[0]);
    let status = haspbarley::code_read(&[0xA1, 0xC1], &mut read);
    println!("read A1 C1, with a spare bit set: ! {status}, left {}", read[0]);
}

fn main() {
    for orientation in [0, 2, 5] {
        for s in 0..4 {
            cell(orientation, 1, s);
        }
    }
    cell(0, 2, 3);
    cell(0, 2, 5);
    cell(0, 30, (1 << 60) - 1);
    cell(0, 30, 1 << 60);
    cell(0, 31, 0);
    cell(6, 1, 0);
    draw(0, 1);
    draw(4, 6);
    draw(6, 0);
    draw(6, 1);
    position(2, 0, [0, 0, 0]);
    position(0, 2, [-1, 2, 0]);
    position(1, 2, [0, 3, -3]);
    position(0, 1, [0, 2, -2]);
    position(0, 1, [1, 1, 1]);
    walk(&[1, 2]);
    child([0, 0, 0, 0]);
    child([0, 0, -1, 0]);
    child([0, 0, 0, -1]);
    child([0, 0, 14, 0]);
    child([6, 0, 0, 0]);
    child([0, 30, 0, 0]);
    line("P 0 1 2");
    line("P 0 1 4");
    line("p 0 1 4");
    triple(20, -16);
    triple(14, -4);
    corner_sum(-1, 1, 0);
    corner_sum(1, 1, 1);
    point(2.0, 3.0, 1);
    point(-0.25, 0.5, 1);
    point(4294967296.0, 0.0, 1);
    left_of_edge();
    point_exact(0.5, 0.5, 1);
    point_exact(0.5, 0.5, 31);
    code(0, 2, 6);
    code(5, 1, 3);
    code(5, 1, 4);
    code(4, 1, 3);
    old_code();
    mend();
    checks();
    folds();
    reports();
    polygon(0, [0, 0, 0]);
    polygon(1, [0, 1, 0]);
    polygon(30, [-1073741823, 1073741823, 0]);
    polygon(1, [0, 2, -2]);
    read_polygon(1, "POLYGON ((0 0, 4 -4, 4 0, 0 0)) ");
    read_polygon(1, "POLYGON ((4 -4, 4 0, 0 0, 4 -4))");
    let table = by_hand();
    descend(&table, 0, 4, 1, 0, 3);
    descend(&table, 0, 4, 2, 1, 6);
    descend(&table, 0, 4, 30, 0, (1 << 60) - 1);
    descend(&table, 0, 4, 2, 0, 16);
    descend(&table, 0, 4, 2, 2, 16);
    descend(&table, 0, 4, 0, 2, 16);
    descend(&table, 1, 4, 0, 2, 16);
    descend(&table, u64::MAX, 4, 0, 2, 16);
    descend(&table, 0, u64::MAX, 0, 2, 16);
    compile("A5", A5, 2, 3);
    compile("a motif that does not split", "A A+++A---AA E\n", 1, 0);
    compile("a motif listed twice", "A AAAA E\nA AAAA E\n", 1, 0);
    compile("nothing", "", 1, 0);
    share("C cc+++A---A ++t--\nA +++cccc+++ ++e--\n");
    refused();
}
