/* A month closed in halves: of four stripes of 4 columns two are folded in the middle of the month and two at its end, and later the two
 * half-wide stripes into one of 16. It is compared, byte for byte, with a fold of all four at once.
 *
 * Then a disk repeats an old block, and nobody checks: where both sittings read parity it shows as it does at once; where one of them reads
 * the data, it is sealed in. So check each stripe before its first sitting.
 * Exit: 0 all went as told; 1 not so.
 */
#include "shelf.h"

#include <stdio.h>
#include <stdlib.h>
#include <string.h>

enum { K = 4, L = 4096, STRIPES = 4, HALVES = 2, IN_HALF = STRIPES / HALVES, HALF_K = IN_HALF * K, WIDE_K = STRIPES * K, MOST_PARITY = 3 };

/* What the disks hold, stripe after stripe. */
static uint8_t month[STRIPES * (K + MOST_PARITY) * L], halves[HALVES * (HALF_K + MOST_PARITY) * L];
static uint8_t wide[(WIDE_K + MOST_PARITY) * L], once[(WIDE_K + MOST_PARITY) * L]; /* by two sittings, and at once */

/* Ends the program where something is not as told. */
static void expect(int holds, const char *what)
{
    if (!holds) {
        printf("NOT SO: %s\n", what);
        exit(1);
    }
}

/* The month is written: the data columns of each stripe, then its parity. */
static void write_month(uint64_t r, uint64_t t)
{
    uint32_t x = 1;
    for (int s = 0; s < STRIPES; s++) {
        uint8_t *stripe = month + s * (K + r) * L;
        for (int i = 0; i < K * L; i++) {
            x = x * 1664525u + 1013904223u;
            stripe[i] = (uint8_t)(x >> 24);
        }
        expect(shelf_encode(K, r, t, L, stripe, K * L, stripe + K * L, r * L) == SHELF_OK, "a stripe is encoded");
    }
}

/* 0 for a codeword, or SHELF_DISAGREES. */
static uint32_t check(uint64_t k, uint64_t r, uint64_t t, const uint8_t *stripe)
{
    uint32_t column, place;
    return shelf_check(k, r, t, L, stripe, k * L, stripe + k * L, r * L, &column, &place);
}

/* How many of the narrow stripes are no codewords. */
static int stale_stripes(uint64_t r, uint64_t t)
{
    int stale = 0;
    for (int s = 0; s < STRIPES; s++)
        stale += check(K, r, t, month + s * (K + r) * L) != SHELF_OK;
    return stale;
}

/* Folds the stripes from `from` on into one at `to`; how many columns are read. The data columns stay on their disks; of the bytes only those
 * of the plan are read. */
static unsigned fold(uint64_t k, uint64_t r, uint64_t t, uint64_t stripes, uint64_t f, const uint8_t *from, uint8_t *to)
{
    static struct shelf_span spans[SHELF_MAX_SPANS]; /* room for any plan */
    static uint8_t bytes[STRIPES * (K + MOST_PARITY) * L];
    size_t at = 0;
    uint64_t columns = shelf_plan_columns_read(k, r, t, L, stripes, f);
    expect(shelf_plan_spans(k, r, t, L, stripes, f, spans, SHELF_MAX_SPANS) == SHELF_OK, "the fold has a plan");
    expect(shelf_plan_bytes_read(k, r, t, L, stripes, f) <= sizeof bytes, "the plan's bytes have room");
    for (uint64_t i = 0; i < columns; i++) {
        const uint8_t *column = from + (spans[i].stripe * (k + r) + spans[i].position) * L;
        memcpy(bytes + at, column + spans[i].first, spans[i].length); /* here a daemon reads a disk */
        at += spans[i].length;
    }
    for (uint64_t s = 0; s < stripes; s++)
        memcpy(to + s * k * L, from + s * (k + r) * L, k * L); /* a daemon only renames them */
    expect(shelf_fold(k, r, t, L, stripes, f, bytes, at, to + stripes * k * L, f * L) == SHELF_OK, "the fold is done");
    return (unsigned)columns;
}

/* Closes the month in two sittings, to f1 parity columns and then to f2, and at once to f2. */
static void close_month(uint64_t r, uint64_t t, uint64_t f1, uint64_t f2)
{
    unsigned first = 0, second;
    for (int h = 0; h < HALVES; h++) /* weeks lie between the two halves */
        first += fold(K, r, t, IN_HALF, f1, month + h * IN_HALF * (K + r) * L, halves + h * (HALF_K + f1) * L);
    second = fold(HALF_K, f1, 0, HALVES, f2, halves, wide);
    printf("  first sitting: to %u + %u, %u columns read; second: to %u + %u, %u columns\n",
           HALF_K, (unsigned)f1, first, WIDE_K, (unsigned)f2, second);
    printf("  at once: to %u + %u, %u columns read\n", WIDE_K, (unsigned)f2, fold(K, r, t, STRIPES, f2, month, once));
}

static int same(uint64_t f) { return memcmp(wide, once, (WIDE_K + f) * L) == 0; }

static void a_good_month(const char *of, uint64_t r, uint64_t t)
{
    printf("A good month, %s\n", of);
    write_month(r, t);
    expect(stale_stripes(r, t) == 0, "each stripe is a codeword");
    close_month(r, t, 2, 2);
    expect(same(2) && check(WIDE_K, 2, 0, wide) == SHELF_OK, "the same bytes, a codeword");
    printf("  the same bytes, and a codeword\n");
}

/* The disk of data column 2 of stripe 1 missed the last write and repeats an old block. */
static void go_stale(void)
{
    write_month(2, 0);
    memset(month + (1 * (K + 2) + 2) * L, 0x11, L);
}

static void a_stale_block_shown(void)
{
    printf("A disk repeats an old block, and nobody checks\n");
    go_stale();
    close_month(2, 0, 2, 2);
    expect(same(2) && check(WIDE_K, 2, 0, wide) == SHELF_DISAGREES, "the same bytes, no codeword");
    printf("  the same bytes, and no codeword: the disagreement was carried on both ways\n");
}

/* With f1 above r the first sitting reads the data and no parity; with f1 below f2 the second one does. */
static void a_stale_block_sealed(uint64_t f1)
{
    printf("The same, by way of %u + %u\n", HALF_K, (unsigned)f1);
    go_stale();
    expect(stale_stripes(2, 0) == 1, "the check before the fold finds it");
    close_month(2, 0, f1, 2);
    expect(!same(2) && check(WIDE_K, 2, 0, once) == SHELF_DISAGREES, "at once, no codeword");
    expect(check(WIDE_K, 2, 0, wide) == SHELF_OK, "in two sittings, a codeword");
    printf("  at once no codeword; in two sittings a codeword, of the old block: a check before the first sitting tells\n");
}

int main(void)
{
    a_good_month("stripes of 4 + 2", 2, 0);
    a_good_month("stripes of 4 + 1 prepared to gain a parity column", 1, 2);
    a_stale_block_shown();
    a_stale_block_sealed(3);
    a_stale_block_sealed(1);
    return 0;
}
