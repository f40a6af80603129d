// The library's functions for Rust: each answers its values, or the refusal's number.
extern "C" {
    fn hb_cell(o: u8, r: u8, s: u64, out: *mut i32, len: usize) -> u8;
    fn hb_position(o: u8, r: u8, x: i32, y: i32, z: i32, out: *mut u64, len: usize) -> u8;
    fn hb_draw(o: u8, r: u8, out: *mut i32, len: usize) -> u8;
    fn hb_fold(o: u8, r: u8, positions: *const u64, positions_len: usize, pairs: *mut u64, pairs_len: usize, count: *mut u64, len: usize) -> u8;
    fn hb_area_union(a: *const u64, a_len: usize, b: *const u64, b_len: usize, pairs: *mut u64, pairs_len: usize, count: *mut u64, len: usize) -> u8;
    fn hb_area_intersection(a: *const u64, a_len: usize, b: *const u64, b_len: usize, pairs: *mut u64, pairs_len: usize, count: *mut u64, len: usize) -> u8;
    fn hb_area_report(o: u8, r: u8, triples: *const i32, triples_len: usize, work: *mut u64, work_len: usize, pairs: *mut u64, pairs_len: usize, count: *mut u64, len: usize) -> u8;
    fn hb_mend(list: *const u8, list_len: usize, out: *mut u8, out_len: usize, counts: *mut u64, len: usize) -> u8;
    fn hb_check(list: *const u8, list_len: usize, out: *mut u64, len: usize) -> u8;
    fn hb_point(i: f64, j: f64, r: u8, out: *mut i32, len: usize) -> u8;
    fn hb_point_exact(i: f64, j: f64, r: u8, out: *mut i32, len: usize) -> u8;
    fn hb_corner_sum(x: i32, y: i32, z: i32, out: *mut i64, len: usize) -> u8;
    fn hb_triple(a: i64, b: i64, out: *mut i32, len: usize) -> u8;
    fn hb_child(o: u8, r: u8, motif: i32, flip: i32, a: f64, b: f64, digit: u8, out_i: *mut i32, len_i: usize, out_f: *mut f64, len_f: usize) -> u8;
    fn hb_node(o: u8, r: u8, x: i32, y: i32, z: i32, out_i: *mut i32, len_i: usize, out_f: *mut f64, len_f: usize) -> u8;
    fn hb_line(line: *const u8, line_len: usize, text: *mut u8, text_len: usize, out: *mut u64, len: usize) -> u8;
    fn hb_descend(table: *const i32, table_len: usize, start: u64, states: u64, passes: u8, token: u64, s: u64, out: *mut i64, len: usize) -> u8;
    fn hb_compile(text: *const u8, text_len: usize, table: *mut i32, table_len: usize, start: u64, out: *mut u64, len: usize) -> u16;
}

fn told<T>(status: u8, values: T) -> Result<T, u8> {
    if status == 0 { Ok(values) } else { Err(status) }
}

// x y z flavor
pub fn cell(o: u8, r: u8, s: u64) -> Result<[i32; 4], u8> {
    let mut out = [0; 4];
    told(unsafe { hb_cell(o, r, s, out.as_mut_ptr(), 4) }, out)
}

// x y z flavor of each cell, in order
pub fn draw(o: u8, r: u8) -> Result<Vec<i32>, u8> {
    let mut out = vec![0; 4 << (2 * r.min(6))];
    told(unsafe { hb_draw(o, r, out.as_mut_ptr(), out.len()) }, out)
}

// How many cells a list of positions folds to; their resolutions and positions are written to `pairs`.
pub fn fold(o: u8, r: u8, positions: &[u64], pairs: &mut [u64]) -> Result<usize, u8> {
    let mut count = [0; 1];
    let status = unsafe { hb_fold(o, r, positions.as_ptr(), positions.len(), pairs.as_mut_ptr(), pairs.len(), count.as_mut_ptr(), 1) };
    told(status, count[0] as usize)
}

// How many cells the union of two areas has; they are written to `pairs`.
pub fn area_union(a: &[u64], b: &[u64], pairs: &mut [u64]) -> Result<usize, u8> {
    let mut count = [0; 1];
    let status = unsafe { hb_area_union(a.as_ptr(), a.len(), b.as_ptr(), b.len(), pairs.as_mut_ptr(), pairs.len(), count.as_mut_ptr(), 1) };
    told(status, count[0] as usize)
}

// And their intersection.
pub fn area_intersection(a: &[u64], b: &[u64], pairs: &mut [u64]) -> Result<usize, u8> {
    let mut count = [0; 1];
    let status = unsafe { hb_area_intersection(a.as_ptr(), a.len(), b.as_ptr(), b.len(), pairs.as_mut_ptr(), pairs.len(), count.as_mut_ptr(), 1) };
    told(status, count[0] as usize)
}

// How many cells the triples of a report are, folded; they are written to `pairs`, and their positions to `work`.
pub fn area_report(o: u8, r: u8, triples: &[i32], work: &mut [u64], pairs: &mut [u64]) -> Result<usize, u8> {
    let mut count = [0; 1];
    let (from, free, to) = (triples.as_ptr(), work.as_mut_ptr(), pairs.as_mut_ptr());
    let status = unsafe { hb_area_report(o, r, from, triples.len(), free, work.len(), to, pairs.len(), count.as_mut_ptr(), 1) };
    told(status, count[0] as usize)
}

// How many bytes a list is mended to, and how many changes are told; the bytes are written to `out`.
pub fn mend(list: &[u8], out: &mut [u8]) -> Result<[u64; 2], u8> {
    let mut counts = [0; 2];
    let status = unsafe { hb_mend(list.as_ptr(), list.len(), out.as_mut_ptr(), out.len(), counts.as_mut_ptr(), 2) };
    told(status, counts)
}

// fault number of a treated list
pub fn check(list: &[u8]) -> Result<[u64; 2], u8> {
    let mut out = [0; 2];
    told(unsafe { hb_check(list.as_ptr(), list.len(), out.as_mut_ptr(), 2) }, out)
}

// s flavor picks comparisons
pub fn position(o: u8, r: u8, t: [i32; 3]) -> Result<[u64; 4], u8> {
    let mut out = [0; 4];
    told(unsafe { hb_position(o, r, t[0], t[1], t[2], out.as_mut_ptr(), 4) }, out)
}

// x y z moved
pub fn point(i: f64, j: f64, r: u8) -> Result<[i32; 4], u8> {
    let mut out = [0; 4];
    told(unsafe { hb_point(i, j, r, out.as_mut_ptr(), 4) }, out)
}

// x y z moved
pub fn point_exact(i: f64, j: f64, r: u8) -> Result<[i32; 4], u8> {
    let mut out = [0; 4];
    told(unsafe { hb_point_exact(i, j, r, out.as_mut_ptr(), 4) }, out)
}

// a b
pub fn corner_sum(t: [i32; 3]) -> Result<[i64; 2], u8> {
    let mut out = [0; 2];
    told(unsafe { hb_corner_sum(t[0], t[1], t[2], out.as_mut_ptr(), 2) }, out)
}

// x y z
pub fn triple(a: i64, b: i64) -> Result<[i32; 3], u8> {
    let mut out = [0; 3];
    told(unsafe { hb_triple(a, b, out.as_mut_ptr(), 3) }, out)
}

#[derive(Clone, Copy, Debug, PartialEq)]
pub struct Node {
    pub orientation: i32,
    pub resolution: i32,
    pub motif: i32,
    pub flip: i32,
    pub a: f64,
    pub b: f64,
}

// x y z flavor, and the node below
pub fn child(n: Node, digit: u8) -> Result<([i32; 4], Node), u8> {
    let (mut i, mut f) = ([0i32; 8], [0f64; 2]);
    let status = unsafe { hb_child(n.orientation as u8, n.resolution as u8, n.motif, n.flip, n.a, n.b, digit, i.as_mut_ptr(), 8, f.as_mut_ptr(), 2) };
    told(status, ([i[0], i[1], i[2], i[3]], Node { orientation: i[4], resolution: i[5], motif: i[6], flip: i[7], a: f[0], b: f[1] }))
}

pub fn node(o: u8, r: u8, t: [i32; 3]) -> Result<Node, u8> {
    let (mut i, mut f) = ([0i32; 4], [0f64; 2]);
    let status = unsafe { hb_node(o, r, t[0], t[1], t[2], i.as_mut_ptr(), 4, f.as_mut_ptr(), 2) };
    told(status, Node { orientation: i[0], resolution: i[1], motif: i[2], flip: i[3], a: f[0], b: f[1] })
}

// The length of a line's answer, which is written to `text`.
pub fn line(line: &[u8], text: &mut [u8]) -> Result<usize, u8> {
    let mut out = [0; 1];
    let status = unsafe { hb_line(line.as_ptr(), line.len(), text.as_mut_ptr(), text.len(), out.as_mut_ptr(), 1) };
    told(status, out[0] as usize)
}

// a b flavor, in the part of a table that has so many states from an entry on
pub fn descend(table: &[i32], start: u64, states: u64, passes: u8, token: u64, s: u64) -> Result<[i64; 3], u8> {
    let mut out = [0; 3];
    told(unsafe { hb_descend(table.as_ptr(), table.len(), start, states, passes, token, s, out.as_mut_ptr(), 3) }, out)
}

// The number of states, the table written from an entry on; or the refusal's number, and with it the line at fault.
pub fn compile(text: &[u8], table: &mut [i32], start: u64) -> Result<u64, (u8, u64)> {
    let mut out = [0];
    match unsafe { hb_compile(text.as_ptr(), text.len(), table.as_mut_ptr(), table.len(), start, out.as_mut_ptr(), 1) } {
        0 => Ok(out[0]),
        status => Err((status as u8, (status >> 8) as u64)),
    }
}
