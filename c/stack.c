/* The deepest stack of each call: every call is made on a painted stack of its own, over shapes at the edges of what is allowed, and the
 * lowest byte that lost its paint counts. Prints a line for each call: its name and how many bytes. tools/check-stack holds the header to it.
 */
#define _XOPEN_SOURCE 700
#include "shelf.h"

#include <stdio.h>
#include <stdlib.h>
#include <string.h>
#include <ucontext.h>

enum { DEPTH = 1 << 16, WORDS = DEPTH / 8, PAINT = 0xA7, N = SHELF_MAX_DATA + SHELF_MAX_PARITY };

static uint64_t stack[WORDS];
static ucontext_t back, there;
static uint8_t stripe[N * SHELF_MAX_COLUMN], parity[SHELF_MAX_PARITY * SHELF_MAX_COLUMN], record[SHELF_RECORD_BYTES];
static uint16_t lost[SHELF_RECORD_LOST];
static uint64_t numbers[SHELF_RECORD_NUMBERS], length, k, r, t, l, stripes, f;
static uint8_t pairs[2 * SHELF_MAX_PARITY];
static size_t pairs_len;
static struct shelf_span spans[SHELF_MAX_SPANS];
static uint32_t column, place;
static volatile uint64_t answer;

static void nothing(void) { answer = 0; }
static void encode(void) { answer = shelf_encode(k, r, t, l, stripe, k * l, stripe + k * l, r * l); }
static void check(void) { answer = shelf_check(k, r, t, l, stripe, k * l, stripe + k * l, r * l, &column, &place); }
static void mend(void) { answer = shelf_mend(k, r, t, l, stripe, (k + r) * l, pairs, pairs_len); }
static void refusal(void) { answer = shelf_plan_refusal(k, r, t, l, stripes, f); }
static void columns(void) { answer = shelf_plan_columns_read(k, r, t, l, stripes, f); }
static void bytes(void) { answer = shelf_plan_bytes_read(k, r, t, l, stripes, f); }
static void columns_written(void) { answer = shelf_plan_columns_written(k, r, t, l, stripes, f); }
static void columns_sum(void) { answer = shelf_plan_columns_sum(k, r, t, l, stripes, f); }
static void bytes_written(void) { answer = shelf_plan_bytes_written(k, r, t, l, stripes, f); }
static void bytes_sum(void) { answer = shelf_plan_bytes_sum(k, r, t, l, stripes, f); }
static void plan(void) { answer = shelf_plan_spans(k, r, t, l, stripes, f, spans, SHELF_MAX_SPANS); }
static void fold(void) { answer = shelf_fold(k, r, t, l, stripes, f, stripe, shelf_plan_bytes_read(k, r, t, l, stripes, f), parity, f * l); }
static void read_record(void) { answer = shelf_read_record(record, length, stripe, SHELF_RECORD_BYTES, lost, SHELF_RECORD_LOST, numbers, SHELF_RECORD_NUMBERS); }
static void write_record(void) { answer = shelf_write_record(k, r, t, l, stripe, (k + r) * l, lost, pairs_len / 2, record, sizeof record, &length); }

/* How many bytes of the painted stack a call touches, in whole words. */
static size_t depth(void (*call)(void))
{
    uint64_t paint;
    size_t untouched = 0;
    memset(&paint, PAINT, sizeof paint);
    memset(stack, PAINT, sizeof stack);
    getcontext(&there);
    there.uc_stack.ss_sp = stack;
    there.uc_stack.ss_size = sizeof stack;
    there.uc_link = &back;
    makecontext(&there, call, 0);
    if (swapcontext(&back, &there) != 0)
        exit(2);
    while (untouched < WORDS && stack[untouched] == paint)
        untouched++;
    return 8 * (WORDS - untouched);
}

static const struct { const char *name; void (*call)(void); int folds; } calls[] = {
    {"shelf_encode", encode, 0}, {"shelf_mend", mend, 0}, {"shelf_check", check, 0}, {"shelf_plan_refusal", refusal, 1},
    {"shelf_plan_columns_read", columns, 1}, {"shelf_plan_columns_written", columns_written, 1}, {"shelf_plan_columns_sum", columns_sum, 1},
    {"shelf_plan_bytes_read", bytes, 1}, {"shelf_plan_bytes_written", bytes_written, 1}, {"shelf_plan_bytes_sum", bytes_sum, 1},
    {"shelf_plan_spans", plan, 1}, {"shelf_fold", fold, 1},
    {"shelf_write_record", write_record, 0}, {"shelf_read_record", read_record, 0},
};
enum { CALLS = sizeof calls / sizeof *calls };

int main(void)
{
    static const uint64_t widths[] = {1, 2, 3, 12, 85, 127, 239, 255}, lengths[] = {1, 6, 60, 64, 66, 192, 510, 516, 1542, 4092, 4095, 4096};
    static const uint64_t marks[][2] = {{1, 0}, {2, 0}, {3, 0}, {1, 2}, {1, 3}, {2, 3}, {4, 0}, {9, 0}, {16, 0}};
    size_t deepest[CALLS] = {0}, accepted[CALLS] = {0}, base = depth(nothing);
    for (size_t w = 0; w < sizeof widths / sizeof *widths; w++)
        for (size_t m = 0; m < sizeof marks / sizeof *marks; m++)
            for (size_t n = 0; n < sizeof lengths / sizeof *lengths; n++)
                for (int c = 0; c < CALLS; c++)
                    for (uint64_t turn = 0; turn <= (calls[c].folds ? 5 : 3); turn++) {
                        k = widths[w], r = marks[m][0], t = marks[m][1], l = lengths[n];
                        stripes = turn < 3 ? 2 : (r > 3 ? 255 - r : 255) / k, f = r > 3 ? r : 1 + turn % 3;
                        if (calls[c].call == encode || turn == 0)
                            for (size_t i = 0; i < k * l; i++)
                                stripe[i] = (uint8_t)(i * 7 + i / 251);
                        if (!calls[c].folds)
                            shelf_encode(k, r, t, l, stripe, k * l, stripe + k * l, r * l);
                        pairs_len = 2 * (turn < 3 && turn < r ? turn : r); /* the first columns are lost, or none */
                        for (size_t i = 0; i < pairs_len / 2; i++)
                            lost[i] = (uint16_t)(pairs[2 * i] = (uint8_t)i);
                        size_t d = depth(calls[c].call) - base;
                        accepted[c] += answer == 0;
                        deepest[c] = d > deepest[c] ? d : deepest[c];
                    }
    for (int c = 0; c < CALLS; c++)
        printf("%s %u %u\n", calls[c].name, (unsigned)deepest[c], (unsigned)accepted[c]);
    return 0;
}
