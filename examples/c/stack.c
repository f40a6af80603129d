/* How much stack a call takes, against what the header says. A thread runs on memory of ours: it is
 * painted below the call, and where the paint is gone afterwards the call has been. */
#define _POSIX_C_SOURCE 200112L
#include <pthread.h>
#include <stdio.h>
#include <stdlib.h>
#include <string.h>

#include "haspbarley.h"

enum { STACK = 1 << 18, NEAR = 512, PAINT = 0xA5 };

static const uint64_t LAST = (UINT64_C(1) << 60) - 1;
static const char A5[] = "A PQAB E\nB B+++PQ---A +e-\nC P---RMb+++ -e+\nM qQ+++C---b T\n"
                         "P PpB---B+++ S\nQ PQ---Cb+++ D\nR b+++a---qQ +++D---\n";

static int32_t numbers[8], table[HB_TABLE_NUMBERS], drawing[HB_DRAWING_NUMBERS];
static int64_t sums[3];
static uint64_t out[5];
static uint64_t run[64] = {0, 1, 2, 3, 4, 5, 6, 7, 8, 9, 10, 11, 12, 13, 14, 15};
static const uint64_t WHOLE[2] = {0, 0}, DEEP[2] = {30, (UINT64_C(1) << 60) - 1};
static uint64_t made[192];
static double places[2];
static uint8_t bytes[HB_CODE_BYTES], text[HB_ANSWER_BYTES], polygon[HB_WKT_BYTES];

static void cell(void) { hb_cell(5, 30, LAST, numbers, 6); }
static void position(void) { hb_position(5, 30, 0, 1073741823, -1073741823, out, 4); }
static void draw(void) { hb_draw(4, 6, drawing, HB_DRAWING_NUMBERS); }
static void node(void) { hb_node(5, 30, 0, 1073741823, -1073741823, numbers, 6, places, 2); }
static void child(void) { hb_child(5, 0, 1, 0, 0.0, 0.0, 2, numbers, 8, places, 2); }
static void point(void) { hb_point(-0.25, 1e9, 30, numbers, 6); }
static void point_exact(void) { hb_point_exact(-0.25, 1e9, 30, numbers, 6); }
static void corner_sum(void) { hb_corner_sum(-1, 1, 0, sums, 3); }
static void triple(void) { hb_triple(20, -16, numbers, 6); }
static void code_write(void) { hb_code_write(5, 30, LAST, bytes, HB_CODE_BYTES, out, 4); }
static void code_read(void) { hb_code_read(bytes, HB_CODE_BYTES, out, 5); }
static void fold(void) { hb_fold(5, 30, run, 16, run + 16, 32, out, 4); }
static void unfold(void) { hb_unfold(5, 30, run + 48, 2, run, 64, out, 4); }
static void area_union(void) { hb_area_union(WHOLE, 2, DEEP, 2, made, 192, out, 4); }
static void area_intersection(void) { hb_area_intersection(WHOLE, 2, DEEP, 2, made, 192, out, 4); }
static void area_difference(void) { hb_area_difference(WHOLE, 2, DEEP, 2, made, 192, out, 4); }
static void area_contains(void) { hb_area_contains(WHOLE, 2, 30, LAST, out, 4); }
static void area_size(void) { hb_area_size(WHOLE, 2, 30, out, 4); }
static void mend(void) { hb_mend(bytes, HB_CODE_BYTES, text, HB_ANSWER_BYTES, out, 2); }
static void mend_step(void) { hb_mend_step(bytes, HB_CODE_BYTES, text, HB_ANSWER_BYTES, out, 3); }
static void check(void) { hb_check(bytes, HB_CODE_BYTES, out, 2); }
static void wkt_write(void) { hb_wkt_write(30, -1073741823, 1073741823, 0, polygon, HB_WKT_BYTES, out, 4); }
static void wkt_read(void) { hb_wkt_read(30, polygon, HB_WKT_BYTES, numbers, 6); }
static void descend(void) { hb_descend(table, HB_TABLE_NUMBERS, 0, 28, 30, 13, LAST, sums, 3); }
static void compile(void) { hb_compile((const uint8_t *)A5, sizeof A5 - 1, table, HB_TABLE_NUMBERS, 0, out, 4); }

/* Positions that differ in their lowest bits alone, more of them than are put in order without parting them:
 * `values` of them, the greatest first, in steps, over and over. */
static void report_of(int count, int values, int step)
{
    static uint64_t work[128], area[2 * 128];
    static int32_t cells[3 * 128 + 1];
    for (int k = 0; k < count; k++)
        hb_cell(5, 30, (uint64_t)((values - 1 - k % values) * step % values), cells + 3 * k, 4);
    hb_area_report(5, 30, cells, 3 * (size_t)count, work, (size_t)count, area, 2 * (size_t)count, out, 4);
}

/* Two by turns: parted down to the last bit, at the greatest depth there is. */
static void area_report(void) { report_of(65, 2, 1); }

/* 64, each twice: parted down to the last six bits, where the library goes on with 64 at a time, in many orders. */
static void area_report_mixed(void)
{
    for (int step = 1; step < 64; step += 2)
        report_of(128, 64, step);
}

static void line(void)
{
    static const char query[] = "R 0 30 41CFFFFFFF800000 0000000000000000";
    hb_line((const uint8_t *)query, sizeof query - 1, text, HB_ANSWER_BYTES, out, 4);
}

static const struct {
    const char *name;
    void (*call)(void);
    size_t most;
} CALLS[] = {
    {"hb_compile", compile, 16384},
    {"hb_line", line, 2048},
    {"hb_draw", draw, 4096},
    {"hb_cell", cell, 512},
    {"hb_position", position, 512},
    {"hb_node", node, 512},
    {"hb_child", child, 512},
    {"hb_point", point, 512},
    {"hb_point_exact", point_exact, 512},
    {"hb_corner_sum", corner_sum, 512},
    {"hb_triple", triple, 512},
    {"hb_code_write", code_write, 512},
    {"hb_code_read", code_read, 512},
    {"hb_fold", fold, 512},
    {"hb_unfold", unfold, 512},
    {"hb_area_union", area_union, 512},
    {"hb_area_intersection", area_intersection, 512},
    {"hb_area_difference", area_difference, 512},
    {"hb_area_contains", area_contains, 512},
    {"hb_area_size", area_size, 512},
    {"hb_area_report", area_report, 6144},
    {"hb_area_report, mixed", area_report_mixed, 6144},
    {"hb_mend", mend, 512},
    {"hb_mend_step", mend_step, 512},
    {"hb_check", check, 9216},
    {"hb_wkt_write", wkt_write, 512},
    {"hb_wkt_read", wkt_read, 512},
    {"hb_descend", descend, 512},
};

static unsigned char *stack;
static void (*call)(void);
static size_t used;

static void *measured(void *nothing)
{
    unsigned char mark;
    size_t here = (size_t)((uintptr_t)&mark - (uintptr_t)stack);
    size_t deepest = 0;
    call(); /* so that the linker has bound what it calls */
    memset(stack, PAINT, here - NEAR);
    call();
    while (deepest < here - NEAR && stack[deepest] == PAINT)
        deepest++;
    used = here - deepest;
    return nothing;
}

int main(void)
{
    int within = 1;
    void *memory;
    if (posix_memalign(&memory, 4096, STACK) != 0)
        return 2;
    stack = memory;
    for (size_t k = 0; k < sizeof CALLS / sizeof CALLS[0]; k++) {
        pthread_attr_t attributes;
        pthread_t thread;
        call = CALLS[k].call;
        pthread_attr_init(&attributes);
        if (pthread_attr_setstack(&attributes, stack, STACK) != 0 || pthread_create(&thread, &attributes, measured, NULL) != 0)
            return 2;
        pthread_join(thread, NULL);
        pthread_attr_destroy(&attributes);
        printf("%s: %s%zu bytes of stack\n", CALLS[k].name, used > NEAR ? "" : "at most ", used);
        within = within && used <= CALLS[k].most;
    }
    free(memory);
    return within ? 0 : 1;
}
