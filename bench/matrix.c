/* Times `matrix::apply` (through a crate that bench/run writes) against ISA-L's product of the same matrix and columns: batches take turns, and the medians
 * of their CPU times count. Where bench/run gives it the same code compiled for the machine at hand, that takes turns too. ISA-L's
 * tables are made before the clock starts; ours works out the numbers of its sums in every call. First random matrices times random
 * windows of columns with any numbers, distinct or not, must give ISA-L's bytes. Exit: 0, or 1 for a difference. */
#define _POSIX_C_SOURCE 200809L
#include <isa-l/erasure_code.h>
#include <stdint.h>
#include <stdio.h>
#include <stdlib.h>
#include <string.h>
#include <time.h>

enum { ROWS = 16, COLUMNS = 255, PLACES = 4096, NUMBERS = 256 };
enum { ROUNDS = 31, BATCH = 4 << 20, SHAPES = 500 };           /* a batch forms BATCH products of bytes, or one call's */

typedef void apply(uint64_t rows, const uint8_t *at, size_t at_len, const uint8_t *matrix, size_t matrix_len, const uint8_t *columns, size_t columns_len,
                   uint64_t from, uint64_t stride, uint64_t count, uint8_t *out, size_t out_len);
apply timed_apply, native_timed_apply;
#ifdef NATIVE
static apply *const ours[] = {timed_apply, native_timed_apply};
#else
static apply *const ours[] = {timed_apply};
#endif
enum { OURS = sizeof ours / sizeof *ours, ISAL = OURS, SIDES };

static uint8_t columns[COLUMNS * PLACES] __attribute__((aligned(4096))), out[ROWS * PLACES] __attribute__((aligned(4096)));
static uint8_t theirs[ROWS * PLACES] __attribute__((aligned(4096))), matrix[ROWS * COLUMNS], tables[32 * ROWS * COLUMNS];
static uint8_t at[COLUMNS], *source[COLUMNS], *target[ROWS];   /* at: the numbers of the columns used */
static int rows, m, from, stride, count, greatest, failed;

static void turn(int side)
{
    if (side == ISAL)
        ec_encode_data(count, m, rows, tables, source, target);
    else
        ours[side]((uint64_t)rows, at, (size_t)m, matrix, (size_t)(rows * m), columns, (size_t)(from + greatest * stride + count),
                   (uint64_t)from, (uint64_t)stride, (uint64_t)count, out, (size_t)(rows * count));
}

/* Any constants, and ISA-L's side of these numbers and of those in `at`; all sides must give the same bytes. */
static void shape(int rows_, int m_, int from_, int stride_, int count_)
{
    rows = rows_, m = m_, from = from_, stride = stride_, count = count_;
    for (int i = 0; i < rows * m; i++)
        matrix[i] = (uint8_t)(rand() >> 7);
    ec_init_tables(m, rows, matrix, tables);
    greatest = 0;
    for (int i = 0; i < m; i++) {
        source[i] = columns + from + at[i] * stride;
        greatest = at[i] > greatest ? at[i] : greatest;
    }
    for (int s = 0; s < rows; s++)
        target[s] = theirs + s * count;
    turn(ISAL);
    for (int side = 0; side < OURS; side++) {
        memset(out, 0xEE, sizeof out);
        turn(side);
        if (memcmp(out, theirs, (size_t)(rows * count)) != 0 || out[rows * count % (ROWS * PLACES)] != (rows * count == ROWS * PLACES ? out[0] : 0xEE)) {
            printf("THE BYTES DIFFER: %d rows of %d columns from %d, %d apart, %d places\n", rows, m, from, stride, count);
            failed = 1;
        }
    }
}

static double now(void)
{
    struct timespec t;
    clock_gettime(CLOCK_PROCESS_CPUTIME_ID, &t);
    return (double)t.tv_sec + 1e-9 * (double)t.tv_nsec;
}

static int by_size(const void *a, const void *b) { return (*(const double *)a > *(const double *)b) - (*(const double *)a < *(const double *)b); }

/* One line of the table: whole columns of l bytes that stand one after another. */
static void contest(int r, int columns_, int l)
{
    static double times[SIDES][ROUNDS];
    for (int i = 0; i < columns_; i++)
        at[i] = (uint8_t)i;
    shape(r, columns_, 0, l, l);
    int calls = 1 + BATCH / (r * columns_ * l);
    for (int round = -1; round < ROUNDS; round++)              /* the first round warms up */
        for (int side = 0; side < SIDES; side++) {
            double start = now();
            for (int i = 0; i < calls; i++)
                turn(side);
            if (round >= 0)
                times[side][round] = now() - start;
        }
    for (int side = 0; side < SIDES; side++)
        qsort(times[side], ROUNDS, sizeof(double), by_size);
    printf("%4d %7d %5d %9.3f", r, columns_, l, 1e6 * times[0][ROUNDS / 2] / calls);
    for (int side = 0; side < OURS; side++)
        printf(" %7.2f", times[ISAL][ROUNDS / 2] / times[side][ROUNDS / 2]);
    printf("\n");
}

int main(void)
{
    static const int shapes[][2] = {{16, 16}, {16, 100}, {4, 12}, {8, 20}, {1, 3}, {1, 16}, {1, 85}}, ls[] = {64, 512, 4096};
    for (size_t i = 0; i < sizeof columns; i++)
        columns[i] = (uint8_t)(rand() >> 7);
    uint8_t numbers[NUMBERS];
    for (int i = 0; i < NUMBERS; i++)
        numbers[i] = (uint8_t)i;
    for (int i = 0; i < SHAPES; i++) {
        int c = 1 + rand() % COLUMNS, n = 1 + rand() % (i % 2 == 0 ? 200 : PLACES / 4);
        for (int j = 0; j < c; j++) {                          /* distinct in two shapes of four */
            int k = j + rand() % (NUMBERS - j);
            uint8_t x = numbers[k];
            numbers[k] = numbers[j], numbers[j] = x;
            at[j] = i % 4 < 2 ? x : (uint8_t)(rand() >> 7);
        }
        shape(1 + rand() % ROWS, c, rand() % n, rand() % (3 * n), n);
    }
    printf("rows columns     L  us, ours ratio to ISA-L%s\n", OURS > 1 ? ", and compiled for this machine" : "");
    for (size_t i = 0; i < sizeof shapes / sizeof *shapes; i++)
        for (int l = 0; l < 3; l++)
            contest(shapes[i][0], shapes[i][1], ls[l]);
    printf("bench: %s\n", failed ? "FAILED" : "ok");
    return failed;
}
