/* Times the exported functions against two peers, ISA-L and jerasure, on the same buffers: batches of ours, of theirs and of memcpy (the
 * roof) take turns, and the medians count. Speeds are GB/s of the bytes that a call covers. Where bench/run gives it the same functions
 * compiled for the machine at hand, under names with native_ before them, these take turns too.
 *
 * Whatever ours does, a peer does as weighted sums of columns, stated here operation by operation. Its weights, inverses and tables are
 * made outside the timed part; ours solves inside. Where ours judges a surviving column, a peer makes that column too and compares it.
 * All must give the same bytes. On aarch64 a ratio to ISA-L below its threshold fails; elsewhere ratios are only reported.
 * Exit: 0, or 1 for a difference or a ratio too low. */
#define _POSIX_C_SOURCE 200809L
#include "shelf.h"

#include <isa-l/erasure_code.h>
#include <jerasure.h>
#include <stdio.h>
#include <stdlib.h>
#include <string.h>
#include <time.h>

enum { MOST = 258 * 4096, SOURCES = 300, MADE = 16, JOBS = MADE }; /* MADE: the most columns that a call makes or judges */
enum { ROUNDS = 31, BATCH = 2 << 20 };                         /* a batch covers BATCH bytes, or one call's */
enum { OURS, ISAL, JERASURE, ROOF, NATIVE_OURS, SIDES };

#ifdef __aarch64__
#define MACHINE "aarch64"
#else
#define MACHINE "x86-64"
#endif

/* Ours, and the same compiled for the machine at hand. */
static const struct calls {
    uint32_t (*encode)(uint64_t k, uint64_t r, uint64_t t, uint64_t l, const uint8_t *data, size_t data_len, uint8_t *parity, size_t parity_len);
    uint32_t (*mend)(uint64_t k, uint64_t r, uint64_t t, uint64_t l, uint8_t *stripe, size_t stripe_len, const uint8_t *lost, size_t lost_len);
    uint32_t (*check)(uint64_t k, uint64_t r, uint64_t t, uint64_t l, const uint8_t *data, size_t data_len, const uint8_t *parity, size_t parity_len,
                      uint32_t *column, uint32_t *place);
    uint32_t (*fold)(uint64_t k, uint64_t r, uint64_t t, uint64_t l, uint64_t stripes, uint64_t f, const uint8_t *read, size_t read_len, uint8_t *parity,
                     size_t parity_len);
} shipped = {shelf_encode, shelf_mend, shelf_check, shelf_fold}, *calls = &shipped;
#ifdef NATIVE
uint32_t native_shelf_encode(uint64_t, uint64_t, uint64_t, uint64_t, const uint8_t *, size_t, uint8_t *, size_t);
uint32_t native_shelf_mend(uint64_t, uint64_t, uint64_t, uint64_t, uint8_t *, size_t, const uint8_t *, size_t);
uint32_t native_shelf_check(uint64_t, uint64_t, uint64_t, uint64_t, const uint8_t *, size_t, const uint8_t *, size_t, uint32_t *, uint32_t *);
uint32_t native_shelf_fold(uint64_t, uint64_t, uint64_t, uint64_t, uint64_t, uint64_t, const uint8_t *, size_t, uint8_t *, size_t);
static const struct calls native_calls = {native_shelf_encode, native_shelf_mend, native_shelf_check, native_shelf_fold}, *const native = &native_calls;
#else
static const struct calls *const native = NULL;
#endif

/* The thresholds, as ratios to ISA-L. Fold C has one more, and so have mending at L = 64 and more than three parity columns. */
static const struct { const char *what; int k, r, t, l[4]; double least; } thresholds[] = {
    {"encode", 4, 2, 0, {64, 512, 4095, 4096}, 1.6},
    {"encode", 12, 2, 0, {64, 512, 4095, 4096}, 1.6},
    {"encode", 12, 3, 0, {64, 512, 4095, 4096}, 1.2},
    {"encode", 100, 3, 0, {64, 512, 4095, 4096}, 1.2},
    {"check", 12, 2, 0, {64, 512, 4095, 4096}, 1.6},
    {"mend 1", 12, 2, 0, {512, 4095, 4096}, 1.2},
    {"mend 2", 12, 2, 0, {512, 4096}, 0.9},
    {"fold A, N=3", 4, 2, 0, {512, 4096}, 1.0},
    {"fold A, N=3", 16, 16, 0, {4096}, 0.6},
    {"fold B, N=3", 4, 1, 2, {4096}, 0.8},
    {"fold B, N=3", 4, 2, 3, {4080, 4095}, 0.8},
};

/* What stands in a contest: the numbers, our buffer, and the peers' columns beside ours. */
static int K, R, T, L, run, failed;                            /* run: the bytes of a run, L if the stripe is plain */
static size_t covered;                                         /* bytes of a call that the speed counts */
static uint8_t whole[MOST] __attribute__((aligned(4096))), copy[MOST] __attribute__((aligned(4096)));
static uint8_t theirs[MADE * 4096] __attribute__((aligned(4096)));
static uint8_t *ours_at[MADE];                                   /* column i of our answer; theirs is theirs + i*L */
static int columns, judged_from;                               /* columns from judged_from on are not written by ours, but judged */

static uint8_t power_of_g(int e)
{
    uint8_t p = 1;
    for (e %= 255; e > 0; e--)
        p = gf_mul(p, 2);
    return p;
}

/* ---- the peers: sums of columns, those of the same columns as rows of one job ---- */

static struct job {
    int sources, rows, matrix[MADE * SOURCES];                 /* jerasure's weights */
    uint8_t *from[SOURCES], *to[MADE], weight[MADE][SOURCES], tables[32 * MADE * SOURCES]; /* tables: ISA-L's */
} jobs[JOBS];
static int job_count;

/* A new sum, which goes to `to`; then its columns, each with its weight. */
static void sum(uint8_t *to)
{
    struct job *s = &jobs[job_count++];
    s->sources = 0, s->rows = 1, s->to[0] = to;
}

static void of(uint8_t weight, uint8_t *from)
{
    struct job *s = &jobs[job_count - 1];
    if (weight != 0)
        s->weight[0][s->sources] = weight, s->from[s->sources++] = from;
}

/* Joins neighbouring sums of the same columns to one job, and makes each job's matrix and tables. */
static void make_jobs(void)
{
    static uint8_t bytes[MADE * SOURCES];
    int made = 0;
    for (int i = 0; i < job_count; i++) {
        struct job *s = &jobs[i], *last = made > 0 ? &jobs[made - 1] : NULL;
        if (last && last->sources == s->sources && memcmp(last->from, s->from, (size_t)s->sources * sizeof *s->from) == 0) {
            last->to[last->rows] = s->to[0];
            memcpy(last->weight[last->rows++], s->weight[0], (size_t)s->sources);
        } else
            jobs[made++] = *s;
    }
    job_count = made;
    for (struct job *s = jobs; s < jobs + job_count; s++) {
        for (int i = 0; i < s->rows * s->sources; i++)
            s->matrix[i] = bytes[i] = s->weight[i / s->sources][i % s->sources];
        ec_init_tables(s->sources, s->rows, bytes, s->tables);
    }
}

static void judge(void)
{
    for (int i = judged_from; i < columns; i++)
        failed |= memcmp(theirs + i * L, ours_at[i], (size_t)L) != 0;
}

static void isal_turn(void)
{
    for (struct job *s = jobs; s < jobs + job_count; s++)
        ec_encode_data(run, s->sources, s->rows, s->tables, s->from, s->to);
    judge();
}

static void jerasure_turn(void)
{
    for (struct job *s = jobs; s < jobs + job_count; s++)
        jerasure_matrix_encode(s->sources, s->rows, 8, s->matrix, (char **)s->from, (char **)s->to, run);
    judge();
}

/* ---- a contest ---- */

static double now(void)
{
    struct timespec t;
    clock_gettime(CLOCK_PROCESS_CPUTIME_ID, &t);
    return (double)t.tv_sec + 1e-9 * (double)t.tv_nsec;
}

static int by_size(const void *a, const void *b) { return (*(const double *)a > *(const double *)b) - (*(const double *)a < *(const double *)b); }

static void roof(void)
{
    memcpy(copy, whole, covered);
    __asm__ volatile("" ::: "memory");
}

/* Our turn, compiled for the machine at hand. */
static void (*our_own)(void);
static void native_turn(void)
{
    calls = native;
    our_own();
    calls = &shipped;
}

/* GB/s of each side. */
static void speeds(void (*const *turns)(void), double *gb)
{
    static double times[SIDES][ROUNDS];
    size_t calls = 1 + BATCH / covered;
    for (int round = -1; round < ROUNDS; round++)              /* the first round warms up */
        for (int side = 0; side < SIDES; side++) {
            double start = now();
            for (size_t i = 0; i < calls && turns[side]; i++)
                turns[side]();
            if (round >= 0)
                times[side][round] = now() - start;
        }
    for (int side = 0; side < SIDES; side++) {
        qsort(times[side], ROUNDS, sizeof(double), by_size);
        gb[side] = 1e-9 * (double)calls * (double)covered / times[side][ROUNDS / 2];
    }
}

/* Ends a line of the table with a threshold, which counts on aarch64 only. */
static void require(double found, double least)
{
    int low = found < least, counts = strcmp(MACHINE, "aarch64") == 0;
    failed |= low && counts;
    printf("   %s %.2f%s", counts ? "at least" : "on aarch64 at least", least, low && counts ? ": TOO SLOW" : "");
}

/* One line of the table. Our GB/s and the ratio to ISA-L come back. `least` is asked for, or what the thresholds say. */
struct result { double speed, ratio; };

static struct result contest(const char *what, void (*our_turn)(void), double least)
{
    /* jerasure wants all columns and runs aligned alike */
    void (*const turns[SIDES])(void) = {our_turn, isal_turn, run % 16 == 0 ? jerasure_turn : NULL, roof, native ? native_turn : NULL};
    double gb[SIDES];
    our_own = our_turn;
    make_jobs();
    printf("%-18s %3d %2d %d %4d ", what, K, R, T, L);
    our_turn();
    for (int side = ISAL; side <= JERASURE && turns[side]; side++) {
        memset(theirs, 0, sizeof theirs);
        turns[side]();
        for (int i = 0; i < columns; i++)
            if (memcmp(theirs + i * L, ours_at[i], (size_t)L) != 0) {
                printf("THE BYTES DIFFER\n");
                failed = 1;
                return (struct result){0, 0};
            }
    }
    speeds(turns, gb);
    printf("%7.2f %7.2f %6.2f ", gb[OURS], gb[ISAL], gb[OURS] / gb[ISAL]);
    if (turns[JERASURE])
        printf("%8.2f %6.2f %7.2f", gb[JERASURE], gb[OURS] / gb[JERASURE], gb[ROOF]);
    else
        printf("%8s %6s %7.2f", "-", "-", gb[ROOF]);
    if (turns[NATIVE_OURS])
        printf(" %7.2f", gb[NATIVE_OURS] / gb[ISAL]);
    for (size_t i = 0; i < sizeof thresholds / sizeof *thresholds; i++)
        if (strcmp(what, thresholds[i].what) == 0 && K == thresholds[i].k && R == thresholds[i].r && T == thresholds[i].t)
            for (int j = 0; j < 4; j++)
                least = L == thresholds[i].l[j] ? thresholds[i].least : least;
    if (least > 0)
        require(gb[OURS] / gb[ISAL], least);
    printf("\n");
    return (struct result){gb[OURS], gb[OURS] / gb[ISAL]};
}

static void shape(int k, int r, int t, int l)
{
    K = k, R = r, T = t, L = l, run = t == 0 ? l : l / t;
    job_count = 0;
}

/* ---- stripes: encode, check, mend ---- */

static uint8_t lost_bytes[2 * MADE];
static int lost_count;

static void our_encode(void)
{
    failed |= calls->encode((uint64_t)K, (uint64_t)R, (uint64_t)T, (uint64_t)L, whole, (size_t)(K * L), whole + K * L, (size_t)(R * L)) != 0;
}

static void our_mend(void)
{
    failed |= calls->mend((uint64_t)K, (uint64_t)R, (uint64_t)T, (uint64_t)L, whole, (size_t)((K + R) * L), lost_bytes, (size_t)(2 * lost_count)) != 0;
}

static void our_check(void)
{
    uint32_t column, place;
    failed |= calls->check((uint64_t)K, (uint64_t)R, (uint64_t)T, (uint64_t)L, whole, (size_t)(K * L), whole + K * L, (size_t)(R * L), &column, &place) != 0;
}

/* Of codes given by check equations, what a byte at the point g^e counts in parity column j: Lagrange's polynomial of that column's point. */
static uint8_t by_points(int j, int e)
{
    uint8_t above = 1, below = 1;
    for (int i = 0; i < R; i++)
        if (i != j) {
            above = gf_mul(above, power_of_g(e) ^ power_of_g(254 - i));
            below = gf_mul(below, power_of_g(254 - j) ^ power_of_g(254 - i));
        }
    return gf_mul(above, gf_inv(below));
}

/* The weight of data column c, run d, in the column at position p, run b. */
static uint8_t weight(int p, int b, int c, int d)
{
    if (p < K)
        return p == c && b == d;
    if (R > 3)
        return by_points(p - K, c);
    return b == d ? power_of_g((p - K) * c) : b >= R && d == p - K ? power_of_g(b * c) : 0;
}

/* The peers' part: r columns, the lost ones and then the other survivors, as sums of the k survivors `from`. */
static void sums_of(const int *from, const int *wanted)
{
    static uint8_t rows[SOURCES * SOURCES], inverse[SOURCES * SOURCES];
    int runs = L / run, size = K * runs;
    for (int i = 0; i < size * size; i++)
        rows[i] = weight(from[i / size / runs], i / size % runs, i % size / runs, i % size % runs);
    gf_invert_matrix(rows, inverse, size);
    for (int b = 0; b < runs; b++)
        for (int i = 0; i < R; i++) {
            uint8_t row[SOURCES] = {0};
            for (int c = 0; c < size; c++) {
                uint8_t w = weight(wanted[i], b, c / runs, c % runs);
                for (int s = 0; s < size && w != 0; s++)
                    row[s] ^= gf_mul(w, inverse[c * size + s]);
            }
            sum(theirs + i * L + b * run);
            for (int s = 0; s < size; s++)
                of(row[s], whole + from[s / runs] * L + s % runs * run);
        }
}

/* Lost are `count` columns from `first` on, in encoding the parity; the peers use the first k survivors and judge the others. */
static struct result stripe(const char *what, void (*our_turn)(void), int first, int count, double asked)
{
    int survivors[258], wanted[MADE], found = 0;
    our_encode();
    for (int p = 0; p < K + R; p++)
        if (p < first || p >= first + count)
            survivors[found++] = p;
    for (int i = 0; i < R; i++) {
        wanted[i] = i < count ? first + i : survivors[K + i - count];
        ours_at[i] = whole + wanted[i] * L;
        lost_bytes[2 * i] = (uint8_t)(wanted[i] % 256), lost_bytes[2 * i + 1] = (uint8_t)(wanted[i] / 256);
    }
    columns = R, judged_from = lost_count = count;
    sums_of(survivors, wanted);
    memset(whole + first * L, 0xEE, (size_t)(count * L));
    return contest(what, our_turn, asked);
}

static struct result encode_as(const char *what, int k, int r, int t, int l)
{
    shape(k, r, t, l);
    covered = (size_t)(k * l);
    return stripe(what, our_encode, k, r, 0);
}

static struct result mend_asked(const char *what, int k, int r, int t, int l, int first, int count, double asked)
{
    shape(k, r, t, l);
    covered = (size_t)((k + r) * l);
    return stripe(what, count == 0 ? our_check : our_mend, first, count, asked);
}

static struct result mend(const char *what, int k, int r, int t, int l, int first, int count) { return mend_asked(what, k, r, t, l, first, count, 0); }

static struct result encode(int k, int r, int t, int l) { return encode_as(t == 0 ? "encode" : "encode prepared", k, r, t, l); }
static struct result check(int k, int r, int t, int l) { return mend("check", k, r, t, l, 0, 0); }
static struct result mend_1(int k, int r, int t, int l) { return mend("mend 1", k, r, t, l, 1, 1); }
static struct result mend_2(int k, int r, int t, int l) { return mend("mend 2", k, r, t, l, 1, 2); }
static struct result mend_3(int k, int r, int t, int l) { return mend("mend 3", k, r, t, l, 1, 3); }
static struct result mend_parity(int k, int r, int t, int l) { return mend("mend a parity", k, r, t, l, k, 1); }

/* More than three parity columns. `asked` is what is asked of encoding at L = 4096; at 512 it is three quarters of that, and at 64 nothing. Of the check,
 * and of mending 1, r/2 and r lost, four fifths of it are asked. */
static void by_equations(int k, int r, int l, double asked)
{
    const int lost[] = {0, 1, r / 2, r};
    double least = l == 4096 ? asked : l == 512 ? 0.75 * asked : 0;
    shape(k, r, 0, l);
    covered = (size_t)(k * l);
    stripe("encode", our_encode, k, r, least);
    for (int i = 0; i < 4; i++) {
        char what[32];
        snprintf(what, sizeof what, i == 0 ? "check" : "mend %d", lost[i]);
        mend_asked(what, k, r, 0, l, 1, lost[i], 0.8 * least);
    }
}

/* ---- folds ---- */

static int N, F;

static void our_fold(void)
{
    failed |= calls->fold((uint64_t)K, (uint64_t)R, (uint64_t)T, (uint64_t)L, (uint64_t)N, (uint64_t)F, whole, covered, whole + covered, (size_t)(F * L)) != 0;
}

/* How many stripes are folded. */
static int stripes(int k) { return k == 100 ? 2 : k == 8 ? 16 : 3; }

/* The answer stands behind the bytes lent, as in encoding. */
static void fold_shape(int k, int r, int t, int l, int f)
{
    shape(k, r, t, l);
    N = stripes(k);
    F = columns = judged_from = f;
    covered = (size_t)shelf_plan_bytes_read((uint64_t)k, (uint64_t)r, (uint64_t)t, (uint64_t)l, (uint64_t)N, (uint64_t)f);
    for (int j = 0; j < f; j++)
        ours_at[j] = whole + covered + j * l;
}

static struct result fold(char kind, double least)
{
    char what[32];
    snprintf(what, sizeof what, "fold %c, N=%d", kind, N);
    return contest(what, our_fold, least);
}

/* Kind A, f = r: wide row j is a sum of N columns; with more than three parity columns, of all of them. */
static struct result fold_a(int k, int r, int t, int l)
{
    fold_shape(k, r, t, l, r);
    for (int j = 0; j < F; j++) {
        sum(theirs + j * l);
        for (int i = 0; i < N && r <= 3; i++)
            of(power_of_g(j * k * i), whole + (i * F + j) * l);
        for (int i = 0; i < N * F && r > 3; i++)
            of(by_points(j, 254 - i % F + k * (i / F)), whole + i * l);
    }
    return fold('A', 0);
}

/* Kind B, run by run: lent are of each stripe the data columns' runs r to t-1, then the parity columns. */
static struct result fold_b(int k, int r, int t, int l)
{
    fold_shape(k, r, t, l, t);
    int part = (t - r) * run, size = k * part + r * l;
    for (int b = 0; b < t; b++)
        for (int j = 0; j < t; j++) {
            sum(theirs + j * l + b * run);
            for (int i = 0; i < N; i++) {
                uint8_t *data = whole + i * size, *parity = data + k * part, w = power_of_g(j * k * i);
                if (b < r)
                    of(w, j < r ? parity + j * l + b * run : parity + b * l + j * run);
                for (int c = 0; c < k && b < r && j >= r; c++)
                    of(gf_mul(w, power_of_g(b * c)), data + c * part + (j - r) * run);
                for (int c = 0; c < k && b >= r; c++)
                    of(gf_mul(w, power_of_g(j * c)), data + c * part + (b - r) * run);
            }
        }
    return fold('B', 0);
}

/* Kind C, f = r+1: the rows of all data. Asked for is the ratio of encoding as many columns, less 10 %; not so at k=100 and L=4096, which
 * outgrow the second cache: there the two ratios part by more than that from run to run. */
static struct result fold_c(int k, int r, int t, int l)
{
    double least = k * l < 100 * 4096 ? 0.9 * encode_as("(encode for C)", stripes(k) * k, r + 1, t, l).ratio : 0;
    fold_shape(k, r, t, l, r + 1);
    for (int j = 0; j < F; j++) {
        sum(theirs + j * l);
        for (int c = 0; c < N * k; c++)
            of(power_of_g(j * c), whole + c * l);
    }
    return fold('C', least);
}

/* ---- the table ---- */

static const int ks[] = {4, 12, 100}, ls[] = {64, 512, 4096};
static struct result results[3][3];

/* A line for each k and each L; in a prepared stripe L is as near below as makes runs of whole vectors. */
static void each(int r, int t, struct result (*line)(int k, int r, int t, int l))
{
    for (int k = 0; k < 3; k++)
        for (int l = 0; l < 3; l++)
            results[k][l] = line(ks[k], r, t, t == 0 ? ls[l] : ls[l] - ls[l] % (16 * t));
}

int main(void)
{
    for (int i = 0; i < MOST; i++)
        whole[i] = (uint8_t)(rand() >> 7);
    printf("GB/s, %-12s %3s %2s %s %4s %7s %7s %6s %8s %6s %7s%s\n", MACHINE, "k", "r", "t", "L", "ours", "ISA-L", "ratio", "jerasure", "ratio", "memcpy",
           native ? "  native: ratio to ISA-L" : "");
    each(1, 0, encode);
    each(2, 0, encode);
    each(3, 0, encode);
    each(1, 2, encode);
    each(1, 3, encode);
    each(2, 3, encode);
    each(2, 0, check);
    each(2, 0, mend_1);
    each(2, 0, mend_2);
    printf("(64 against 4096) %13s %7.2f", "", results[1][0].speed / results[1][2].speed);
    require(results[1][0].speed / results[1][2].speed, 1.0 / 3);
    printf("\n");
    each(3, 0, mend_1);
    each(3, 0, mend_2);
    each(3, 0, mend_3);
    each(2, 0, mend_parity);
    each(1, 2, mend_1);
    each(2, 3, mend_2);
    each(2, 0, fold_a);
    for (int l = 0; l < 3; l++)
        fold_a(8, 3, 0, ls[l]);
    each(1, 2, fold_b);
    each(2, 3, fold_b);
    each(1, 0, fold_c);
    each(2, 0, fold_c);
    for (int l = 0; l < 3; l++) {
        by_equations(12, 4, ls[l], 0.4);
        by_equations(20, 8, ls[l], 0.5);
        by_equations(100, 16, ls[l], 0.7);
        fold_a(12, 4, 0, ls[l]);
        fold_a(16, 16, 0, ls[l]);
    }
    /* columns that end inside a vector, where thresholds ask for them */
    encode(4, 2, 0, 4095);
    encode(12, 2, 0, 4095);
    encode(12, 3, 0, 4095);
    encode(100, 3, 0, 4095);
    check(12, 2, 0, 4095);
    mend_1(12, 2, 0, 4095);
    fold_b(4, 2, 3, 4095);
    printf("bench: %s\n", failed ? "FAILED" : "ok");
    return failed;
}
