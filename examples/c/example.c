/* Calls each function of the library on the worked examples of the requirements. A line is a call and
 * what it gives: the values, or `!` and the number of the refusal. */
#include <inttypes.h>
#include <stdio.h>
#include <string.h>

#include "haspbarley.h"

static void show_i32(uint8_t status, const int32_t *values, size_t count)
{
    if (status != HB_OK) {
        printf(" ! %d\n", status);
        return;
    }
    for (size_t k = 0; k < count; k++)
        printf(" %" PRId32, values[k]);
    printf("\n");
}

static void cell(uint8_t orientation, uint8_t resolution, uint64_t s)
{
    int32_t out[4] = {0};
    printf("cell %d %d %" PRIu64 ":", orientation, resolution, s);
    show_i32(hb_cell(orientation, resolution, s, out, 4), out, 4);
}

static void position(uint8_t orientation, uint8_t resolution, int32_t x, int32_t y, int32_t z)
{
    uint64_t out[4] = {0};
    printf("position %d %d %" PRId32 " %" PRId32 " %" PRId32 ":", orientation, resolution, x, y, z);
    uint8_t status = hb_position(orientation, resolution, x, y, z, out, 4);
    if (status != HB_OK)
        printf(" ! %d\n", status);
    else
        printf(" %" PRIu64 " %" PRIu64 " %" PRIu64 " %" PRIu64 "\n", out[0], out[1], out[2], out[3]);
}

/* The curve drawn from its rules, an entry behind its last cell, and whether each cell is that of its
 * position. */
static void draw(uint8_t orientation, uint8_t resolution)
{
    static int32_t out[HB_DRAWING_NUMBERS + 1];
    size_t cells = (size_t)1 << 2 * resolution;
    int same = 1;
    printf("draw %d %d:", orientation, resolution);
    out[4 * cells] = 7;
    uint8_t status = hb_draw(orientation, resolution, out, 4 * cells + 1);
    if (status != HB_OK) {
        printf(" ! %d\n", status);
        return;
    }
    for (size_t s = 0; s < cells; s++) {
        int32_t named[4] = {0};
        hb_cell(orientation, resolution, s, named, 4);
        same = same && memcmp(named, out + 4 * s, sizeof named) == 0;
    }
    for (size_t k = 0; k < 8; k++)
        printf(" %" PRId32, out[k]);
    printf(" .., behind %" PRId32 ", its positions' cells: %s\n", out[4 * cells], same ? "yes" : "no");
}

/* Down the curve of UV by digits, from the node of its axiom; then the node of the cell that is
 * reached, which is the same. */
static void walk(const uint8_t *digits, uint8_t count)
{
    int32_t numbers[8] = {0};
    double places[2] = {0.0, 0.0};
    for (uint8_t k = 0; k < count; k++) {
        uint8_t status = hb_child((uint8_t)numbers[4], (uint8_t)numbers[5], numbers[6], numbers[7], places[0],
                                  places[1], digits[k], numbers, 8, places, 2);
        printf("child %d at %d:", digits[k], k + 1);
        show_i32(status, numbers, 4);
    }
    int32_t node[4] = {0};
    double at[2] = {0.0, 0.0};
    printf("node of that cell:");
    show_i32(hb_node(0, count, numbers[0], numbers[1], numbers[2], node, 4, at, 2), node, 4);
    int same = memcmp(node, numbers + 4, sizeof node) == 0 && at[0] == places[0] && at[1] == places[1];
    printf("the walk's own: %s\n", same ? "yes" : "no");
}

/* One step from a node of the wedge itself, or of numbers that are no node's. */
static void child(uint8_t orientation, uint8_t resolution, int32_t motif, int32_t flip)
{
    int32_t numbers[8] = {0};
    double places[2] = {0.0, 0.0};
    printf("child of %d %d %" PRId32 " %" PRId32 ":", orientation, resolution, motif, flip);
    show_i32(hb_child(orientation, resolution, motif, flip, 0.0, 0.0, 0, numbers, 8, places, 2), numbers, 8);
}

static void line(const char *query)
{
    uint8_t text[HB_ANSWER_BYTES];
    uint64_t length[1] = {0};
    uint8_t status = hb_line((const uint8_t *)query, strlen(query), text, sizeof text, length, 1);
    printf("line %s: %d, %.*s\n", query, status, (int)length[0], (const char *)text);
}

static void point(double i, double j, uint8_t resolution)
{
    int32_t out[4] = {0};
    printf("point %.10g %.10g %d:", i, j, resolution);
    show_i32(hb_point(i, j, resolution, out, 4), out, 4);
}

static void point_exact(double i, double j, uint8_t resolution)
{
    int32_t out[4] = {0};
    printf("exact point %.10g %.10g %d:", i, j, resolution);
    show_i32(hb_point_exact(i, j, resolution, out, 4), out, 4);
}

/* 2^-60 left of the edge: the fractions' sum is rounded to 1, and is below it. */
static void left_of_edge(void)
{
    int32_t out[4] = {0};
    printf("left of the edge:");
    show_i32(hb_point(-0x1p-60, 0.0, 1, out, 4), out, 4);
    printf("exactly:");
    show_i32(hb_point_exact(-0x1p-60, 0.0, 1, out, 4), out, 4);
}

static void corner_sum(int32_t x, int32_t y, int32_t z)
{
    int64_t out[2] = {0};
    printf("corner sum %" PRId32 " %" PRId32 " %" PRId32 ":", x, y, z);
    uint8_t status = hb_corner_sum(x, y, z, out, 2);
    if (status != HB_OK)
        printf(" ! %d\n", status);
    else
        printf(" %" PRId64 " %" PRId64 "\n", out[0], out[1]);
}

static void triple(int64_t a, int64_t b)
{
    int32_t out[3] = {0};
    printf("triple %" PRId64 " %" PRId64 ":", a, b);
    show_i32(hb_triple(a, b, out, 3), out, 3);
}

/* The code of a position, and what it says when it is read back. */
static void code(uint8_t orientation, uint8_t resolution, uint64_t s)
{
    uint8_t bytes[HB_CODE_BYTES];
    uint64_t count[1];
    uint64_t out[5];
    printf("code %d %d %" PRIu64 ":", orientation, resolution, s);
    uint8_t status = hb_code_write(orientation, resolution, s, bytes, HB_CODE_BYTES, count, 1);
    if (status != HB_OK) {
        printf(" ! %d\n", status);
        return;
    }
    for (uint64_t k = 0; k < count[0]; k++)
        printf(" %02X", bytes[k]);
    status = hb_code_read(bytes, (size_t)count[0], out, 5);
    if (status != HB_OK)
        printf(" ! %d\n", status);
    else
        printf(" reads %" PRIu64 " %" PRIu64 " %" PRIu64 " %" PRIu64 " %" PRIu64 "\n", out[0], out[1], out[2], out[3], out[4]);
}

/* An old code, of s 6 in VU at resolution 2: it is read as s 9 in UV, which names the same cell. */
static void old_code(void)
{
    uint64_t out[5];
    uint8_t status = hb_code_read((const uint8_t[]){0x22, 0x60}, 2, out, 5);
    printf("old code 22 60: %d, reads %" PRIu64 " %" PRIu64 " %" PRIu64 " %" PRIu64 " %" PRIu64 "\n", status, out[0], out[1], out[2], out[3], out[4]);
    cell(1, 2, 6);
    cell(0, 2, 9);
}

/* A list of a sound code, one with a spare bit set, an old one, a byte that begins none, one with both faults,
 * and one cut short. Each step's offset, numbers and bytes; then the whole at once. */
static void mend(void)
{
    static const uint8_t list[] = {0x02, 0x60, 0xA1, 0xC1, 0x22, 0x60, 0xFF, 0x81, 0xC1, 0xBE};
    uint8_t out[sizeof list];
    uint64_t counts[3];
    for (size_t at = 0; at < sizeof list; at += (size_t)counts[0]) {
        uint8_t status = hb_mend_step(list + at, sizeof list - at, out, HB_CODE_BYTES, counts, 3);
        printf("mend at %zu: %d, %" PRIu64 " %" PRIu64 " %" PRIu64, at, status, counts[0], counts[1], counts[2]);
        for (uint64_t k = 0; k < counts[1]; k++)
            printf(" %02X", out[k]);
        printf("\n");
    }
    uint8_t status = hb_mend(list, sizeof list, out, sizeof out, counts, 2);
    printf("mended: %d, %" PRIu64 " bytes, %" PRIu64 " changes:", status, counts[0], counts[1]);
    for (uint64_t k = 0; k < counts[0]; k++)
        printf(" %02X", out[k]);
    printf("\n");
    counts[0] = 7;
    status = hb_mend(list, sizeof list, out, sizeof out - 1, counts, 2);
    printf("mended into one byte less: ! %d, count left %" PRIu64 "\n", status, counts[0]);
}

/* The verdict on a treated list. */
static void check(const char *name, const uint8_t *list, size_t length)
{
    static const char *const FAULTS[] = {"good", "unsound", "marked", "orientation", "overlap"};
    uint64_t verdict[2];
    uint8_t status = hb_check(list, length, verdict, 2);
    if (status == HB_OK)
        printf("check %s: %s %" PRIu64 "\n", name, FAULTS[verdict[0]], verdict[1]);
    else
        printf("check %s: ! %d\n", name, status);
}

/* Lists of UV at resolutions 1 and 2 that are good, and with each fault; and one of more codes than are
 * checked, beside each other at resolution 5. */
static void checks(void)
{
    uint8_t many[3 * (HB_LIST_CODES + 1)];
    check("none", NULL, 0);
    check("three apart", (const uint8_t[]){0x01, 0x00, 0x02, 0x80, 0x01, 0x40}, 6);
    check("a cell in one before it", (const uint8_t[]){0x01, 0x40, 0x01, 0x00, 0x02, 0x70}, 6);
    check("a cell around one before it", (const uint8_t[]){0x02, 0x70, 0x01, 0x00, 0x01, 0x40}, 6);
    check("another orientation", (const uint8_t[]){0x01, 0x00, 0x41, 0x00}, 4);
    check("an old code", (const uint8_t[]){0x01, 0x00, 0x61, 0xC0}, 4);
    check("a spare bit", (const uint8_t[]){0x21, 0x41}, 2);
    for (unsigned k = 0; k <= HB_LIST_CODES; k++) {
        many[3 * k] = 0x05;
        many[3 * k + 1] = (uint8_t)(k >> 2);
        many[3 * k + 2] = (uint8_t)(k << 6);
    }
    check("512 codes", many, 3 * HB_LIST_CODES);
    check("512 codes and a byte", many, 3 * HB_LIST_CODES + 1);
}

/* The polygon of a cell, and the cell that it is read back as. */
static void polygon(uint8_t resolution, int32_t x, int32_t y, int32_t z)
{
    uint8_t text[HB_WKT_BYTES];
    uint64_t length[1];
    int32_t out[3] = {0};
    printf("polygon %d %d %d %d:", resolution, x, y, z);
    uint8_t status = hb_wkt_write(resolution, x, y, z, text, HB_WKT_BYTES, length, 1);
    if (status != HB_OK) {
        printf(" ! %d\n", status);
        return;
    }
    printf(" %.*s reads", (int)length[0], (const char *)text);
    show_i32(hb_wkt_read(resolution, text, (size_t)length[0], out, 3), out, 3);
}

static void read_polygon(uint8_t resolution, const char *text)
{
    int32_t out[3] = {0};
    printf("read %d %s:", resolution, text);
    show_i32(hb_wkt_read(resolution, (const uint8_t *)text, strlen(text), out, 3), out, 3);
}

/* A table of one motif that no compiler wrote: each of its four states has itself for its children. */
static int32_t by_hand[4 * HB_STATE_NUMBERS];

static void write_by_hand(void)
{
    static const int32_t places[8] = {0, 0, 4, 0, 4, -4, 8, -4};
    for (int32_t state = 0; state < 4; state++)
        for (int32_t digit = 0; digit < 4; digit++) {
            int32_t *part = by_hand + HB_STATE_NUMBERS * state;
            part[digit] = state;
            part[4 + 2 * digit] = part[12 + 2 * digit] = places[2 * digit];
            part[5 + 2 * digit] = part[13 + 2 * digit] = places[2 * digit + 1];
            part[20 + digit] = digit;
        }
}

static void descend(uint64_t start, uint64_t states, uint8_t passes, uint64_t token, uint64_t s)
{
    int64_t out[3] = {0};
    printf("descend %" PRIu64 " %" PRIu64 " %d %" PRIu64 " %" PRIu64 ":", start, states, passes, token, s);
    uint8_t status = hb_descend(by_hand, 4 * HB_STATE_NUMBERS, start, states, passes, token, s, out, 3);
    if (status != HB_OK)
        printf(" ! %d\n", status);
    else
        printf(" %" PRId64 " %" PRId64 " %" PRId64 "\n", out[0], out[1], out[2]);
}

/* A grammar's text compiled, and the cell at a place of what its first motif draws. */
static void compile(const char *name, const char *text, uint8_t passes, uint64_t s)
{
    static int32_t table[HB_TABLE_NUMBERS];
    uint64_t states[1] = {7};
    int64_t out[3] = {0};
    printf("compile %s:", name);
    uint16_t status = hb_compile((const uint8_t *)text, strlen(text), table, HB_TABLE_NUMBERS, 0, states, 1);
    if (status != HB_OK) {
        printf(" ! %d at line %d, left %" PRIu64 "\n", HB_REFUSAL(status), HB_FAULT_LINE(status), states[0]);
        return;
    }
    status = hb_descend(table, HB_TABLE_NUMBERS, 0, states[0], passes, 0, s, out, 3);
    printf(" %" PRIu64 " states, place %" PRIu64 ": %d, %" PRId64 " %" PRId64 " %" PRId64 "\n", states[0], s, status, out[0], out[1], out[2]);
}

#define A5                                                                   \
    "A PQAB E\nB B+++PQ---A +e-\nC P---RMb+++ -e+\nM qQ+++C---b T\n"         \
    "P PpB---B+++ S\nQ PQ---Cb+++ D\nR b+++a---qQ +++D---\n"

/* A partner's grammar behind ours in one table, and the cell at place 3 of what the first motif of each
 * draws with two passes. One entry further on, the partner's last state would end past the table. */
static void share(const char *theirs)
{
    enum { START = 28 * HB_STATE_NUMBERS, LENGTH = 36 * HB_STATE_NUMBERS };
    static int32_t table[LENGTH];
    uint64_t states[1] = {0};
    int64_t out[3] = {0};
    hb_compile((const uint8_t *)theirs, strlen(theirs), table, LENGTH, START, states, 1);
    hb_descend(table, LENGTH, START, states[0], 2, 0, 3, out, 3);
    printf("share, theirs: %" PRIu64 " states, %" PRId64 " %" PRId64 " %" PRId64 "\n", states[0], out[0], out[1], out[2]);
    hb_compile((const uint8_t *)A5, strlen(A5), table, LENGTH, 0, states, 1);
    hb_descend(table, LENGTH, 0, states[0], 2, 0, 3, out, 3);
    printf("share, ours: %" PRIu64 " states, %" PRId64 " %" PRId64 " %" PRId64 "\n", states[0], out[0], out[1], out[2]);
    hb_descend(table, LENGTH, START, 8, 2, 0, 3, out, 3);
    printf("share, theirs again: %" PRId64 " %" PRId64 " %" PRId64 "\n", out[0], out[1], out[2]);
    uint16_t status = hb_compile((const uint8_t *)theirs, strlen(theirs), table, LENGTH, START + 1, states, 1);
    printf("share, one entry further on: ! %d\n", HB_REFUSAL(status));
    status = hb_compile((const uint8_t *)theirs, strlen(theirs), table, LENGTH, START, NULL, 0);
    printf("share, with no place for the number: ! %d\n", HB_REFUSAL(status));
}

/* A list of positions at resolution 3 folded, and unfolded again. */
static void fold(const char *name, const uint64_t *positions, size_t length)
{
    uint64_t pairs[2 * 64], back[64], count[1] = {0};
    uint8_t status = hb_fold(0, 3, positions, length, pairs, 128, count, 1);
    if (status != HB_OK) {
        printf("fold %s: ! %d\n", name, status);
        return;
    }
    size_t cells = (size_t)count[0];
    printf("fold %s:", name);
    for (size_t k = 0; k < cells; k++)
        printf(" %" PRIu64 "/%" PRIu64, pairs[2 * k], pairs[2 * k + 1]);
    status = hb_unfold(0, 3, pairs, 2 * cells, back, 64, count, 1);
    int same = count[0] == length && memcmp(back, positions, length * sizeof *back) == 0;
    printf("; unfolded: %d, the list: %s\n", status, same ? "yes" : "no");
}

static void folds(void)
{
    uint64_t all[64];
    for (uint64_t s = 0; s < 64; s++)
        all[s] = s;
    fold("all 64", all, 64);
    fold("the first 21", all, 21);
    fold("none", all, 0);
    fold("two alike", (const uint64_t[]){4, 4}, 2);
    fold("one too high", (const uint64_t[]){5, 4, 64}, 3);
    uint64_t left[4] = {7, 7, 7, 7}, count[1] = {7};
    uint8_t status = hb_unfold(0, 1, (const uint64_t[]){0, 0, 1, 2}, 4, left, 4, count, 1);
    printf("unfold a cell inside another: ! %d, left %" PRIu64 ", count left %" PRIu64 "\n", status, left[0], count[0]);
}

/* Cells of resolution 3, as modules report them. */
enum { CELLS = 64 };

struct area {
    uint64_t pairs[4 * CELLS];
    size_t length;
};

static void show_area(const struct area *area)
{
    for (size_t k = 0; k < area->length; k += 2)
        printf(" %" PRIu64 "/%" PRIu64, area->pairs[k], area->pairs[k + 1]);
}

/* The triples of positions, as a module has them. */
static void triples_of(const uint64_t *positions, size_t length, int32_t *triples)
{
    int32_t named[4];
    for (size_t k = 0; k < length; k++) {
        hb_cell(0, 3, positions[k], named, 4);
        memcpy(triples + 3 * k, named, 3 * sizeof *named);
    }
}

/* A module's report of cells, in whatever order they come, united with the total; how many cells the total
 * has then, by its size and counted one by one; and whether uniting the report again changes it. */
static void report(const char *name, const uint64_t *positions, size_t length, struct area *total)
{
    static int seen[CELLS];
    int32_t triples[3 * CELLS];
    uint64_t work[CELLS], count[1], size[1], distinct = 0;
    struct area area, again;
    triples_of(positions, length, triples);
    uint8_t status = hb_area_report(0, 3, triples, 3 * length, work, CELLS, area.pairs, 2 * CELLS, count, 1);
    area.length = 2 * (size_t)count[0];
    printf("report %s: %d,", name, status);
    show_area(&area);
    hb_area_union(total->pairs, total->length, area.pairs, area.length, again.pairs, 4 * CELLS, count, 1);
    again.length = 2 * (size_t)count[0];
    *total = again;
    hb_area_union(total->pairs, total->length, area.pairs, area.length, again.pairs, 4 * CELLS, count, 1);
    again.length = 2 * (size_t)count[0];
    int same = again.length == total->length && memcmp(again.pairs, total->pairs, total->length * sizeof *total->pairs) == 0;
    hb_area_size(total->pairs, total->length, 3, size, 1);
    for (size_t k = 0; k < length; k++)
        seen[positions[k]] = 1;
    for (size_t s = 0; s < CELLS; s++)
        distinct += (uint64_t)seen[s];
    printf("; the total has %" PRIu64 " cells of %" PRIu64 ", united again the same: %s\n", size[0], distinct, same ? "yes" : "no");
}

/* Three modules report, the second of them twice, in pieces and out of order. */
static void reports(void)
{
    struct area total = {{0}, 0}, none = {{0}, 0}, part;
    uint64_t count[1], flag[1];
    report("of the first", (const uint64_t[]){3, 1, 0, 2, 7, 6, 5, 4, 9, 9, 3}, 11, &total);
    report("of the second, a piece", (const uint64_t[]){23, 22, 8}, 3, &total);
    report("of the second, the rest", (const uint64_t[]){20, 9, 10, 21, 11}, 5, &total);
    report("of the third", (const uint64_t[]){63, 15, 13, 14, 12, 63}, 6, &total);
    report("of the second, again", (const uint64_t[]){8, 9, 10, 11, 20, 21, 22, 23}, 8, &total);
    report("of nothing", NULL, 0, &total);
    printf("the total:");
    show_area(&total);
    hb_area_intersection(total.pairs, total.length, (const uint64_t[]){2, 5, 1, 3}, 4, part.pairs, 4 * CELLS, count, 1);
    part.length = 2 * (size_t)count[0];
    printf("; in 2/5 or 1/3:");
    show_area(&part);
    hb_area_difference(total.pairs, total.length, (const uint64_t[]){3, 0, 1, 3}, 4, part.pairs, 4 * CELLS, count, 1);
    part.length = 2 * (size_t)count[0];
    printf("; without 3/0 and 1/3:");
    show_area(&part);
    hb_area_contains(part.pairs, part.length, 2, 5, flag, 1);
    printf("; has all of 2/5: %" PRIu64, flag[0]);
    hb_area_contains(part.pairs, part.length, 1, 0, flag, 1);
    printf(", of 1/0: %" PRIu64 "\n", flag[0]);

    int32_t triples[7] = {0};
    uint64_t work[2] = {7, 7};
    triples_of((const uint64_t[]){1, 0}, 2, triples);
    count[0] = 7;
    uint8_t status = hb_area_report(0, 3, triples, 7, work, 2, none.pairs, 4, count, 1);
    printf("report two triples and a number: ! %d\n", status);
    status = hb_area_report(0, 3, triples, 6, work, 2, none.pairs, 3, count, 1);
    printf("report two triples into three places: ! %d, left %" PRIu64 " %" PRIu64 " %" PRIu64 " %" PRIu64 "\n", status, work[0], work[1], none.pairs[0], count[0]);
    status = hb_area_report(0, 3, triples, 6, work, 2, none.pairs, 4, NULL, 0);
    printf("report them with no place for the count: ! %d, left %" PRIu64 " %" PRIu64 " %" PRIu64 "\n", status, work[0], work[1], none.pairs[0]);
    status = hb_area_report(0, 3, triples, 6, work, 2, none.pairs, 4, count, 1);
    printf("report them: %d, %" PRIu64 " cells, work %" PRIu64 " %" PRIu64 "\n", status, count[0], work[0], work[1]);
}

/* A refused call leaves what it was lent as it was. Where a length is 0 there need be no array. */
static void refused(void)
{
    int32_t out[4] = {7, 7, 7, 7};
    uint8_t status = hb_cell(0, 1, 2, out, 3);
    printf("cell 0 1 2 into three places: ! %d, left %d %d %d %d\n", status, out[0], out[1], out[2], out[3]);

    int32_t drawing[16] = {7};
    status = hb_draw(0, 1, drawing, 15);
    printf("draw 0 1 into fifteen places: ! %d, left %d\n", status, drawing[0]);

    uint8_t bytes[2] = {7, 7};
    uint64_t count[1] = {7};
    status = hb_code_write(0, 2, 6, bytes, 2, NULL, 0);
    printf("code 0 2 6 with no place for the count: ! %d, left %d %d\n", status, bytes[0], bytes[1]);
    status = hb_code_write(0, 2, 6, bytes, 1, count, 1);
    printf("code 0 2 6 into one byte: ! %d, left %d, count left %" PRIu64 "\n", status, bytes[0], count[0]);
    uint64_t read[5] = {7, 7, 7, 7, 7};
    status = hb_code_read(NULL, 0, read, 5);
    printf("read no byte: ! %d, left %" PRIu64 "\n", status, read[0]);
    status = hb_code_read((const uint8_t[]){0xA1, 0xC1}, 2, read, 5);
    printf("read A1 C1, with a spare bit set: ! %d, left %" PRIu64 "\n", status, read[0]);
}

int main(void)
{
    for (uint64_t s = 0; s < 4; s++)
        cell(0, 1, s);
    for (uint64_t s = 0; s < 4; s++)
        cell(2, 1, s);
    for (uint64_t s = 0; s < 4; s++)
        cell(5, 1, s);
    cell(0, 2, 3);
    cell(0, 2, 5);
    cell(0, 30, (UINT64_C(1) << 60) - 1);
    cell(0, 30, UINT64_C(1) << 60);
    cell(0, 31, 0);
    cell(6, 1, 0);
    draw(0, 1);
    draw(4, 6);
    draw(6, 0);
    draw(6, 1);
    position(2, 0, 0, 0, 0);
    position(0, 2, -1, 2, 0);
    position(1, 2, 0, 3, -3);
    position(0, 1, 0, 2, -2);
    position(0, 1, 1, 1, 1);
    walk((const uint8_t[]){1, 2}, 2);
    child(0, 0, 0, 0);
    child(0, 0, -1, 0);
    child(0, 0, 0, -1);
    child(0, 0, 14, 0);
    child(6, 0, 0, 0);
    child(0, 30, 0, 0);
    line("P 0 1 2");
    line("P 0 1 4");
    line("p 0 1 4");
    triple(20, -16);
    triple(14, -4);
    corner_sum(-1, 1, 0);
    corner_sum(1, 1, 1);
    point(2.0, 3.0, 1);
    point(-0.25, 0.5, 1);
    point(4294967296.0, 0.0, 1);
    left_of_edge();
    point_exact(0.5, 0.5, 1);
    point_exact(0.5, 0.5, 31);
    code(0, 2, 6);
    code(5, 1, 3);
    code(5, 1, 4);
    code(4, 1, 3);
    old_code();
    mend();
    checks();
    folds();
    reports();
    polygon(0, 0, 0, 0);
    polygon(1, 0, 1, 0);
    polygon(30, -1073741823, 1073741823, 0);
    polygon(1, 0, 2, -2);
    read_polygon(1, "POLYGON ((0 0, 4 -4, 4 0, 0 0)) ");
    read_polygon(1, "POLYGON ((4 -4, 4 0, 0 0, 4 -4))");
    write_by_hand();
    descend(0, 4, 1, 0, 3);
    descend(0, 4, 2, 1, 6);
    descend(0, 4, 30, 0, (UINT64_C(1) << 60) - 1);
    descend(0, 4, 2, 0, 16);
    descend(0, 4, 2, 2, 16);
    descend(0, 4, 0, 2, 16);
    descend(1, 4, 0, 2, 16);
    descend(UINT64_MAX, 4, 0, 2, 16);
    descend(0, UINT64_MAX, 0, 2, 16);
    compile("A5", A5, 2, 3);
    compile("a motif that does not split", "A A+++A---AA E\n", 1, 0);
    compile("a motif listed twice", "A AAAA E\nA AAAA E\n", 1, 0);
    compile("nothing", "", 1, 0);
    share("C cc+++A---A ++t--\nA +++cccc+++ ++e--\n");
    refused();
    return 0;
}
