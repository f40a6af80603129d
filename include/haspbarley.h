/* Haspbarley: the lattice walk of A5, as a static library.
 *
 * Every function takes every input. It returns HB_OK and writes its values at the front of the arrays
 * that it is lent, in the order in which they are listed, or it returns the number of a refusal and
 * leaves the arrays as they were. Elements behind the values are never touched. Refusals are tested in
 * the order in which a function lists them, too short an array (HB_ROOM) always last.
 *
 * An array is passed as a pointer and its length in elements. The pointer must be good for that many
 * elements and aligned for them; where the length is 0 it is not used, and may be NULL. An array that
 * is written must not overlap another of the same call. No function keeps a pointer, allocates, or has
 * any state: calls may be made from any thread. Of the C library only memcpy and memset are used.
 *
 * hb_point and hb_line compute in double and need the default floating-point environment: rounding to
 * nearest, no flush to zero. In another rounding mode a point can fall into another cell. The other
 * functions compute in whole numbers, and what is double there is exact in every mode. A call may raise
 * floating-point flags, and none may be set to trap.
 *
 * A call takes at most 16 KB of stack for hb_compile, 9 KB for hb_check, 6 KB for hb_area_report, 4 KB
 * for hb_draw, 2 KB for hb_line, and 512 bytes for any other.
 *
 * orientation  0 to 5: UV, VU, UW, WU, VW, WV
 * resolution   0 to 30
 * s            a position, below 4^resolution
 * x, y, z      a cell's triple
 * flavor       0 to 3
 */
#ifndef HASPBARLEY_H
#define HASPBARLEY_H

#include <stddef.h>
#include <stdint.h>

#define HB_VERSION "0.2.0"
#define HB_VERSION_MAJOR 0
#define HB_VERSION_MINOR 2
#define HB_VERSION_PATCH 0
/* to compare: 0.2.0 is 200 */
#define HB_VERSION_NUMBER (HB_VERSION_MAJOR * 10000 + HB_VERSION_MINOR * 100 + HB_VERSION_PATCH)

#define HB_CODE_BYTES 9        /* the longest code of a position */
#define HB_LIST_CODES 512      /* the most codes of a treated list */
#define HB_WKT_BYTES 106       /* the longest polygon of a cell */
#define HB_LINE_BYTES 64       /* the longest line that is a query */
#define HB_ANSWER_BYTES 107    /* room for the answer to any line */
#define HB_STATE_NUMBERS 41    /* a table's numbers for each state */
#define HB_TABLE_NUMBERS 1312  /* room for the table of any text: 32 states */
#define HB_DRAWING_NUMBERS 16384 /* room for any drawing: 4096 cells */

#ifdef __cplusplus
extern "C" {
#endif

enum {
    HB_OK = 0,
    HB_RESOLUTION = 1,  /* resolution or passes above 30, or 0 where a function says so */
    HB_ORIENTATION = 2, /* orientation above 5 */
    HB_POSITION = 3,    /* s at or above 4^resolution */
    HB_SUM = 4,         /* x + y + z neither 0 nor 1 */
    HB_BOUNDS = 5,      /* a cell out of bounds */
    HB_PAIR = 6,        /* a corner sum beyond 2^34 in size, or that no triple of three int32_t has */
    HB_NODE = 7,        /* a node that is not good */
    HB_DIGIT = 8,       /* digit above 3 */
    HB_POINT = 9,       /* a coordinate that is NaN, infinite or beyond 2^31 in size */
    HB_ROOM = 10,       /* an array shorter than what is to be written to it */
    HB_CODE = 11,       /* a code that is empty or cut short */

    /* a grammar's text, by the line at fault */
    HB_SHAPE = 12,      /* a line of another shape, no line, or more than eight */
    HB_MOTIF = 13,      /* a motif letter not uppercase, one of E S U D T, or repeated */
    HB_RULE = 14,       /* a rule byte that is neither a turn nor a listed motif's letter */
    HB_CHILDREN = 15,   /* a rule without exactly four children */
    HB_HEADING = 16,    /* a child at a heading other than 0 or 3, in the rule or its reverse */
    HB_DRAW = 17,       /* a draw that is not turns and exactly one of E e S s D d T t */
    HB_TURNS = 18,      /* a rule or draw that does not end at heading 0 */
    HB_NET = 19,        /* a net after two passes that is not twice the net after one */
    HB_SPLIT = 20,      /* children that no lines tell apart */

    HB_LINE = 21,       /* a line that is no query; only in the answer of hb_line */
    HB_TABLE = 22,      /* a state count, a token or an entry of a table that is not good */
    HB_PASSES = 23,     /* resolution 0 or above 6 in a drawing */
    HB_SPARE = 24,      /* a code whose spare bits are not zero */
    HB_ORDER = 25,      /* positions or cells out of order */
    HB_PART = 26,       /* a part of a table that starts or ends past it */
    HB_POLYGON = 27,    /* text that is no cell's polygon, or not in its spelling */
    HB_RETIRED = 28,    /* a code to be written for VU, WU or VW */
    HB_LONG = 29        /* bytes after 512 good codes of a treated list */
};

/* The cell that the position s names.
 * Values: x y z flavor (4). Refusals: 1, 2, 3, 10. */
uint8_t hb_cell(uint8_t orientation, uint8_t resolution, uint64_t s, int32_t *out, size_t out_len);

/* The position that names a cell, and how many looks its lookup takes where it is done look by look over
 * A5's table: classifier picks, one for each level above the last, and leaf comparisons. At resolution 0
 * both are 0, and together they are at most resolution + 3.
 * Values: s flavor picks comparisons (4). Refusals: 1, 2, 4, 5, 10. */
uint8_t hb_position(uint8_t orientation, uint8_t resolution, int32_t x, int32_t y, int32_t z, uint64_t *out,
                    size_t out_len);

/* Draws the curve from A5's rules alone, with 1 to 6 passes, and reads no table: the cells that the
 * positions 0, 1, 2, .. name, in that order.
 * Values: x y z flavor of each of the 4^resolution cells (4 * 4^resolution, at most HB_DRAWING_NUMBERS).
 * Refusals: 23, 2, 10. */
uint8_t hb_draw(uint8_t orientation, uint8_t resolution, int32_t *out, size_t out_len);

/* The node below a cell, from which child steps go on. It knows its orientation and its resolution.
 * Values: orientation resolution motif flip (4) to numbers, and the node's two positions (2) to places;
 * both or, on a refusal, neither. Refusals: 1, 2, 4, 5, 10. */
uint8_t hb_node(uint8_t orientation, uint8_t resolution, int32_t x, int32_t y, int32_t z, int32_t *numbers,
                size_t numbers_len, double *places, size_t places_len);

/* The child step from a node at its own resolution and in its own orientation, by a digit of the curve:
 * to a cell one resolution down, and the node below it. A node is good whose orientation is 0 to 5, its
 * resolution 0 to 29, its motif 0 to 13, its flip 0 or 1, and each position a whole multiple of 4, at
 * most 2^36 in size, and not negative zero. At resolution 0 the motif is 0 for UV and VU, 2 for UW and
 * WU, 1 for VW and WV, with flip 0 at 0.0 0.0. What comes out as a node goes in as it is.
 * Values: x y z flavor of the cell, then orientation resolution motif flip of the node (8) to numbers,
 * and the node's two positions (2) to places; both or, on a refusal, neither.
 * Refusals: 7, 8, 5, 10. */
uint8_t hb_child(uint8_t orientation, uint8_t resolution, int32_t motif, int32_t flip, double a, double b,
                 uint8_t digit, int32_t *numbers, size_t numbers_len, double *places, size_t places_len);

/* The triple of the cell that the point (i, j) falls in, brought into bounds.
 * Values: x y z moved (4); moved is 1 where the point lay out of bounds, else 0.
 * Refusals: 1, 9, 10. */
uint8_t hb_point(double i, double j, uint8_t resolution, int32_t *out, size_t out_len);

/* The same by exact fractions. hb_point rounds the fractions of i and j and their sum, and just left of
 * an edge has 1 for a fraction below it; here none is rounded, and a point that is not moved lies in the
 * cell's triangle. Where the two tell another parity, hb_point has 1 and this has 0.
 * Values: x y z moved (4), moved as the exact parity has it.
 * Refusals: 1, 9, 10. */
uint8_t hb_point_exact(double i, double j, uint8_t resolution, int32_t *out, size_t out_len);

/* The corner sum of a triple's cell, at whatever resolution.
 * Values: a b (2). Refusals: 4, 10. */
uint8_t hb_corner_sum(int32_t x, int32_t y, int32_t z, int64_t *out, size_t out_len);

/* The triple whose cell has the corner sum (a, b).
 * Values: x y z (3). Refusals: 6, 10. */
uint8_t hb_triple(int64_t a, int64_t b, int32_t *out, size_t out_len);

/* Writes the code of a position, 1 + ceil(resolution / 4) bytes, at most HB_CODE_BYTES.
 * Codes are written for UV, UW and WV alone.
 * Values: the code to bytes, and the count of its bytes (1) to out; both or, on a refusal, neither.
 * Refusals: 1, 2, 28, 3, 10. */
uint8_t hb_code_write(uint8_t orientation, uint8_t resolution, uint64_t s, uint8_t *bytes, size_t bytes_len,
                      uint64_t *out, size_t out_len);

/* Reads the code at the front of some bytes. Later bytes are not looked at.
 * Values: orientation resolution s count old (5), count being how many bytes the code takes. An old code,
 * of VU, WU or VW, has old 1, and names its cell on the curve run forward: UV, UW or WV and
 * 4^resolution - 1 - s in the place of its own orientation and s. For any other code old is 0.
 * Refusals: 11 where there is no byte, 1, 2, 11 where the code is cut short, 24 where a spare bit is set, 10. */
uint8_t hb_code_read(const uint8_t *bytes, size_t bytes_len, uint64_t *out, size_t out_len);

/* Writes the polygon of a cell as WKT, `POLYGON ((a b, a b, a b, a b))`, in whole units of the lattice,
 * the first corner repeated: at most HB_WKT_BYTES.
 * Values: the text to text, and its length (1) to out; both or, on a refusal, neither.
 * Refusals: 1, 4, 5, 10. */
uint8_t hb_wkt_write(uint8_t resolution, int32_t x, int32_t y, int32_t z, uint8_t *text, size_t text_len, uint64_t *out,
                     size_t out_len);

/* Reads the cell whose polygon a text is, in exactly that spelling: no other space, no leading zero, no
 * other first corner, nothing behind the last bracket.
 * Values: x y z (3). Refusals: 1, 27, 5, 10. */
uint8_t hb_wkt_read(uint8_t resolution, const uint8_t *text, size_t text_len, int32_t *out, size_t out_len);

/* The fewest whole cells that cover a strictly ascending list of positions: four children become their
 * parent wherever all four are there, again and again up to resolution 0.
 * Values: resolution and position of each cell, in curve order, to pairs (twice as many values as cells,
 * never more than twice as many as positions), and how many cells (1) to count; both or, on a refusal,
 * neither. Refusals: 1, 2, 3 where any position is at or above 4^r, 25 where the list does not ascend, 10. */
uint8_t hb_fold(uint8_t orientation, uint8_t resolution, const uint64_t *positions, size_t positions_len,
                uint64_t *pairs, size_t pairs_len, uint64_t *count, size_t count_len);

/* The positions at a resolution that cells cover: what hb_fold folded, back. Any numbers may stand in
 * pairs.
 * Values: the positions, ascending, to positions, and how many (1) to count; both or, on a refusal,
 * neither. Refusals: 1 (also where a cell is finer than the resolution), 2, 3 where a cell's position is
 * at or above 4^ its own resolution, 25 where a number lacks its partner or a cell does not begin after
 * the end of the one before it, 10. */
uint8_t hb_unfold(uint8_t orientation, uint8_t resolution, const uint64_t *pairs, size_t pairs_len,
                  uint64_t *positions, size_t positions_len, uint64_t *count, size_t count_len);

/* An area is a list of pairs, a resolution and a position each, of cells in curve order none of which lies
 * in another, all of one orientation. Cells may touch, and need not be folded. Any numbers may stand in
 * an area that is handed in: the functions on areas refuse by 1 a resolution above 30, by 3 a position
 * at or above 4^ its resolution, by 25 a number without its partner or a cell that does not begin
 * after the end of the one before it; each of these is looked for in all areas of the call before the next.
 *
 * What one of two areas covers: the union, which counts no ground twice.
 * Values: the pairs, folded, to pairs (never more than in a and b together), and how many cells (1) to
 * count; both or, on a refusal, neither. Refusals: 1, 3, 25, 10. */
uint8_t hb_area_union(const uint64_t *a, size_t a_len, const uint64_t *b, size_t b_len, uint64_t *pairs,
                      size_t pairs_len, uint64_t *count, size_t count_len);

/* What both of two areas cover. Values and refusals as hb_area_union's. */
uint8_t hb_area_intersection(const uint64_t *a, size_t a_len, const uint64_t *b, size_t b_len, uint64_t *pairs,
                             size_t pairs_len, uint64_t *count, size_t count_len);

/* What the first of two areas covers and the second does not. Values and refusals as hb_area_union's, but
 * that there can be more pairs than in a and b together. */
uint8_t hb_area_difference(const uint64_t *a, size_t a_len, const uint64_t *b, size_t b_len, uint64_t *pairs,
                           size_t pairs_len, uint64_t *count, size_t count_len);

/* Whether an area covers all of a cell.
 * Values: 0 or 1 (1). Refusals: 1, 3, 25, 10; of the cell as of a pair. */
uint8_t hb_area_contains(const uint64_t *a, size_t a_len, uint8_t resolution, uint64_t s, uint64_t *out,
                         size_t out_len);

/* How many cells of a resolution an area covers.
 * Values: their number (1). Refusals: 1 (also where a pair is finer than the resolution), 3, 25, 10. */
uint8_t hb_area_size(const uint64_t *a, size_t a_len, uint8_t resolution, uint64_t *out, size_t out_len);

/* The area that a module reports: the cells of triples, x y z each, in any order and repeated or not. It is
 * handed work, one number for each triple; afterwards that holds the positions, ascending and each once,
 * then zeros. pairs has to have room for two numbers a triple even where they fold to fewer: how many it
 * takes is known only once work is written over, and a refused call changes nothing.
 * Values: the pairs, folded, to pairs, and how many cells (1) to count; these and work are written or, on
 * a refusal, none. Refusals: 1, 2, 4 where any triple's sum is neither 0 nor 1, 5 where any is out of
 * bounds, 25 where numbers are left that are no triple, 10 (work, pairs, count). */
uint8_t hb_area_report(uint8_t orientation, uint8_t resolution, const int32_t *triples, size_t triples_len,
                       uint64_t *work, size_t work_len, uint64_t *pairs, size_t pairs_len, uint64_t *count,
                       size_t count_len);

/* Mends a list of codes that stand one after another: sound codes are copied, spare bits are cleared, old
 * codes are turned forward, and a byte where no code can be read is dropped.
 * Values: the mended list to out, and its length and the number of changes (2) to counts; both or, on a
 * refusal, neither. Bytes of out past the mended list stay as they were.
 * Refusals: 10, where out is shorter than the list or counts than its values. */
uint8_t hb_mend(const uint8_t *list, size_t list_len, uint8_t *out, size_t out_len, uint64_t *counts, size_t counts_len);

/* The first step of mending what is left of a list: go on behind the bytes taken and those written.
 * Values: what is written for the code or byte at the front to out, at most HB_CODE_BYTES; bytes taken,
 * bytes written and the change (3) to counts: 0 for a sound code, 1 where spare bits were cleared, 2 where
 * an old code was turned, 3 where both, spare first, 4 where a byte was dropped. Of nothing: 0 0 0.
 * Refusals: 10, where out is shorter than what is written or counts than its values. */
uint8_t hb_mend_step(const uint8_t *rest, size_t rest_len, uint8_t *out, size_t out_len, uint64_t *counts, size_t counts_len);

/* Checks a partner's treated list: up to HB_LIST_CODES codes, one after another, at mixed resolutions. It is
 * good where every code is sound, unmarked and of the first code's orientation, and no cell equals or
 * contains another. Else the first code that breaks this, taken together with those before it, is named.
 * Values: fault number (2). Of a good list, also of the empty one, the fault is 0 and the number is how
 * many codes it has; else the number is the code's, from 0, and the fault is the earliest of 1 where
 * hb_code_read refuses it, 2 where it is old, 3 where it is of another orientation than the first, and 4
 * where its cell equals one before it, contains it or lies in it.
 * Refusals: 29 where the first HB_LIST_CODES codes are good and bytes remain after them, 10. */
uint8_t hb_check(const uint8_t *list, size_t list_len, uint64_t *out, size_t out_len);

/* The answer to one query line, of at most HB_LINE_BYTES without LF, as the program wedge prints it,
 * without LF: at most HB_ANSWER_BYTES. A line that is refused has an answer too, '!' and the number.
 * Values: the answer to text, and its length (1) to out; both or, on a refusal, neither. Refusals: 10. */
uint8_t hb_line(const uint8_t *line, size_t line_len, uint8_t *text, size_t text_len, uint64_t *out, size_t out_len);

/* The cell at place s, below 4^passes, of what a part of a table gives from a token after 1 to 30
 * passes. The part begins at entry start of the table and has HB_STATE_NUMBERS for each of its states,
 * in state order: 4 child states, 4 offset pairs, 4 leaf sums (pairs), 4 flavors, and 17 that a descent
 * does not look at, nor at anything outside the part; where start, or start + HB_STATE_NUMBERS * states,
 * is past the table, that is 26. The part may be anyone's: states has to be a multiple of 4 from 4 to
 * 32, token below half of it, and in every state each child state below states, each flavor 0 to 3, each
 * offset and leaf sum at most 4096 in size; all else is 22.
 * Values: a b flavor (3), the cell's corner sum and flavor. Refusals: 26, 1 (also at 0 passes), 22, 3, 10. */
uint8_t hb_descend(const int32_t *table, size_t table_len, uint64_t start, uint64_t states, uint8_t passes,
                   uint64_t token, uint64_t s, int64_t *out, size_t out_len);

/* Compiles a grammar's text: one to eight lines, each a motif letter, its rule and its draw, set apart
 * by single spaces and ended by LF. HB_TABLE_NUMBERS entries from start on are room for every text, and
 * HB_STATE_NUMBERS for each state are what is written: grammars that share a table keep theirs where
 * their parts do not overlap.
 * Values: each state's numbers to table, in state order, from entry start on, and the number of states
 * (1) to out; both or, on a refusal, neither. What it returns has the refusal's number in the low byte
 * and, of 12 to 20, the number of the line at fault in the high byte, from 1, or 0 of the empty text.
 * Refusals: 12 to 20, 26 (start, or the last state's end, past the table), 10 (out). */
uint16_t hb_compile(const uint8_t *text, size_t text_len, int32_t *table, size_t table_len, uint64_t start,
                    uint64_t *out, size_t out_len);

/* The parts of what hb_compile returns. */
#define HB_REFUSAL(status) ((status) & 0xFF)
#define HB_FAULT_LINE(status) ((status) >> 8)

#ifdef __cplusplus
}
#endif

#endif
