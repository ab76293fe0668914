/* A month's end on the shelf: three stripes of 4 + 2 columns are folded into one of 12 + 2, of which only the old parity is read.
 *
 * The first half is the way to do it: check each stripe, plan, read what the plan says, fold, check the wide stripe, and only then wipe
 * the old parity. Then two disks die. The second half has a disk that repeats an old block, with the check and without it.
 * Exit: 0 all went as told; 1 not so.
 */
#include "shelf.h"

#include <stdio.h>
#include <stdlib.h>
#include <string.h>

enum { K = 4, R = 2, T = 0, L = 4096, STRIPES = 3, F = 2, N = K + R, WIDE_K = STRIPES * K, WIDE_N = WIDE_K + F };

/* What the disks hold: a row per column. */
static uint8_t month[STRIPES][N][L], wide[WIDE_N][L];

/* Ends the program where something is not as told. */
static void expect(int holds, const char *what)
{
    if (!holds) {
        printf("NOT SO: %s\n", what);
        exit(1);
    }
}

/* The bytes of data column c of a stripe, as the writer gave them. */
static void written(int stripe, int c, uint8_t *column)
{
    uint32_t x = (uint32_t)(stripe * K + c + 1) * 2654435761u;
    for (int p = 0; p < L; p++) {
        x = x * 1664525u + 1013904223u;
        column[p] = (uint8_t)(x >> 24);
    }
}

/* Whether data column c of the wide stripe holds what the writer gave. */
static int is_written(int c)
{
    static uint8_t column[L];
    written(c / K, c % K, column);
    return memcmp(wide[c], column, L) == 0;
}

static int all_written(void)
{
    int all = 1;
    for (int c = 0; c < WIDE_K; c++)
        all &= is_written(c);
    return all;
}

/* The month is written: data columns, then their parity. */
static void write_month(void)
{
    for (int s = 0; s < STRIPES; s++) {
        for (int c = 0; c < K; c++)
            written(s, c, month[s][c]);
        expect(shelf_encode(K, R, T, L, month[s][0], K * L, month[s][K], R * L) == SHELF_OK, "a stripe is encoded");
    }
}

/* Mends position p of a stripe of k + r columns, or p and q; -1 for none. With none it is the check. */
static uint32_t mend(uint64_t k, uint64_t r, uint8_t *stripe, int p, int q)
{
    const uint8_t lost[4] = {(uint8_t)p, 0, (uint8_t)q, 0};
    return shelf_mend(k, r, 0, L, stripe, (size_t)(k + r) * L, lost, p < 0 ? 0 : q < 0 ? 2 : 4);
}

static uint32_t check_stripe(int s) { return mend(K, R, month[s][0], -1, -1); }
static uint32_t check_wide(void) { return mend(WIDE_K, F, wide[0], -1, -1); }

/* Folds the month into the wide stripe. The data columns stay on their disks; of the bytes only those of the plan are read. */
static void fold_month(void)
{
    static struct shelf_span spans[SHELF_MAX_SPANS]; /* room for any plan */
    static uint8_t bytes[STRIPES * R * L];
    uint64_t columns = shelf_plan_columns_read(K, R, T, L, STRIPES, F), total = shelf_plan_bytes_read(K, R, T, L, STRIPES, F);
    size_t at = 0;
    expect(shelf_plan_spans(K, R, T, L, STRIPES, F, spans, SHELF_MAX_SPANS) == SHELF_OK, "the fold has a plan");
    expect(total <= sizeof bytes, "the plan's bytes have room");
    for (uint64_t i = 0; i < columns; i++) {
        memcpy(bytes + at, month[spans[i].stripe][spans[i].position] + spans[i].first, spans[i].length); /* here a daemon reads a disk */
        at += spans[i].length;
    }
    for (int c = 0; c < WIDE_K; c++)
        memcpy(wide[c], month[c / K][c % K], L); /* a daemon only renames them */
    expect(shelf_fold(K, R, T, L, STRIPES, F, bytes, at, wide[WIDE_K], F * L) == SHELF_OK, "the fold is done");
    printf("  fold: %u columns of %u read, %u bytes\n", (unsigned)columns, STRIPES * N, (unsigned)at);
}

/* The bill of the fold, which a daemon can tell before it reads a byte: what goes over the network in both directions. */
static void print_bill(void)
{
    printf("  bill: columns: %u read, %u written, sum %u\n", (unsigned)shelf_plan_columns_read(K, R, T, L, STRIPES, F),
           (unsigned)shelf_plan_columns_written(K, R, T, L, STRIPES, F), (unsigned)shelf_plan_columns_sum(K, R, T, L, STRIPES, F));
    printf("  bill: bytes: %u read, %u written, sum %u\n", (unsigned)shelf_plan_bytes_read(K, R, T, L, STRIPES, F),
           (unsigned)shelf_plan_bytes_written(K, R, T, L, STRIPES, F), (unsigned)shelf_plan_bytes_sum(K, R, T, L, STRIPES, F));
}

static void wipe_old_parity(void)
{
    for (int s = 0; s < STRIPES; s++)
        memset(month[s][K], 0, R * L);
}

static void a_good_month(void)
{
    printf("A good month\n");
    write_month();
    for (int s = 0; s < STRIPES; s++)
        expect(check_stripe(s) == SHELF_OK, "each stripe is a codeword");
    printf("  check of the three stripes: each is a codeword\n");
    print_bill();
    fold_month();
    expect(check_wide() == SHELF_OK, "the wide stripe is a codeword");
    printf("  check of the wide stripe: a codeword\n");
    wipe_old_parity();
    memset(wide[2], 0xEE, L);
    memset(wide[9], 0xEE, L);
    expect(mend(WIDE_K, F, wide[0], 2, 9) == SHELF_OK, "two lost columns are mended");
    expect(all_written(), "all columns hold what was written");
    printf("  old parity wiped, disks 2 and 9 dead, mended: every byte is as written\n");
}

/* The disk of data column 2 of stripe 1, column 6 of the wide stripe, missed the last write and repeats an old block. */
static void go_stale(void)
{
    write_month();
    written(7, 7, month[1][2]);
}

static void a_stale_block_checked(void)
{
    static uint8_t trial[N][L];
    printf("A disk repeats an old block, and the check is made\n");
    go_stale();
    expect(check_stripe(0) == SHELF_OK && check_stripe(2) == SHELF_OK, "the other stripes are codewords");
    expect(check_stripe(1) == SHELF_DISAGREES, "the stale stripe is no codeword");
    printf("  check of stripe 1: refused %d, %s; the fold must wait\n", SHELF_DISAGREES, shelf_refusal(SHELF_DISAGREES));

    /* With one column taken for lost a spare one still judges: if one column alone is stale, no other choice is accepted. */
    for (int p = 0; p < N; p++) {
        memcpy(trial, month[1], sizeof trial);
        expect(mend(K, R, trial[0], p, -1) == (p == 2 ? SHELF_OK : SHELF_DISAGREES), "the stale column alone can be taken for lost");
    }
    printf("  each column in turn taken for lost: only column 2 is accepted, so it is the stale one if one alone is\n");
    expect(mend(K, R, month[1][0], 2, -1) == SHELF_OK, "the stale column is mended");
    fold_month();
    expect(check_wide() == SHELF_OK && all_written(), "the wide stripe is as written");
    printf("  column 2 mended, then folded: a codeword, and every byte is as written\n");
}

static void a_stale_block_unchecked(void)
{
    static uint8_t kept[WIDE_N][L];
    printf("The same without the check\n");
    go_stale();
    fold_month();
    wipe_old_parity();
    memcpy(kept, wide, sizeof kept);
    expect(check_wide() == SHELF_DISAGREES, "the wide stripe is no codeword");
    printf("  check of the wide stripe: refused %d, the fold carried the disagreement on\n", SHELF_DISAGREES);

    memset(wide[0], 0xEE, L);
    expect(mend(WIDE_K, F, wide[0], 0, -1) == SHELF_DISAGREES, "one lost column beside a stale one is refused");
    expect(wide[0][0] == 0xEE && memcmp(wide[0], wide[0] + 1, L - 1) == 0, "a refusal writes nothing");
    printf("  disk 0 dead: refused %d, nothing is written\n", SHELF_DISAGREES);

    expect(mend(WIDE_K, F, wide[0], 0, 9) == SHELF_OK, "two lost columns leave no spare one");
    expect(!is_written(0) && !is_written(9) && !is_written(6), "two columns are invented");
    expect(check_wide() == SHELF_OK, "what was invented is a codeword");
    printf("  disks 0 and 9 dead: mended, as no spare column is left to judge; both are invented, and the check passes now\n");

    memcpy(wide, kept, sizeof kept);
    expect(mend(WIDE_K, F, wide[0], 6, -1) == SHELF_OK && is_written(6), "the stale column, lost, comes back as written");
    printf("  had only the stale disk 6 died: mended, as written\n");
}

/* A fold to more parity than the stripes have reads the data and no parity: it can't carry a disagreement on. */
static void a_stale_block_sealed(void)
{
    static uint8_t sealed[WIDE_K + 3][L];
    printf("The same without the check, folded to 12 + 3\n");
    go_stale();
    for (int c = 0; c < WIDE_K; c++)
        memcpy(sealed[c], month[c / K][c % K], L);
    expect(shelf_plan_bytes_read(K, R, T, L, STRIPES, 3) == WIDE_K * L, "the plan reads the data columns");
    expect(shelf_fold(K, R, T, L, STRIPES, 3, sealed[0], WIDE_K * L, sealed[WIDE_K], 3 * L) == SHELF_OK, "the fold is done");
    expect(mend(WIDE_K, 3, sealed[0], -1, -1) == SHELF_OK, "the wide stripe is a codeword");
    printf("  check of the wide stripe: a codeword, of the old block; with the old parity wiped nobody can tell\n");
}

int main(void)
{
    a_good_month();
    a_stale_block_checked();
    a_stale_block_unchecked();
    a_stale_block_sealed();
    return 0;
}
