/* Counts of what the calls covered, and the table of them. */
#include "covered.h"
#include "records.h"
#include "sittings.h"

#include <inttypes.h>
#include <stdio.h>

const struct op_entry ops[OPS] = {
    [ENCODE] = {"encode", 20, BITS_SHAPE | 1 << 5},
    [MEND] = {"mend", 64, BITS_SHAPE | 1 << 5 | 1 << 6 | 1 << 7 | 1 << 8},
    [FOLD] = {"fold", 34, BITS_PLAN | 1 << 5},
    [PLAN_REFUSAL] = {"plan_refusal", 5, BITS_PLAN},
    [PLAN_COLUMNS] = {"plan_columns_read", 5, BITS_PLAN},
    [PLAN_BYTES] = {"plan_bytes_read", 5, BITS_PLAN},
    [PLAN_COLUMNS_WRITTEN] = {"plan_columns_written", 3, BITS_PLAN},
    [PLAN_BYTES_WRITTEN] = {"plan_bytes_written", 3, BITS_PLAN},
    [PLAN_COLUMNS_SUM] = {"plan_columns_sum", 3, BITS_PLAN},
    [PLAN_BYTES_SUM] = {"plan_bytes_sum", 3, BITS_PLAN},
    [PLAN_SPANS] = {"plan_spans", 12, BITS_PLAN | 1 << 5},
    [CHECK] = {"check", 10, BITS_SHAPE | 1 << 5 | 1 << 8},
    [READ_RECORD] = {"read_record", 15, BITS_SHAPE | 1 << 5 | 1 << 6 | 1 << 9 | 1 << 10},
    [WRITE_RECORD] = {"write_record", 6, BITS_SHAPE | 1 << 5 | 1 << 6},
};

static struct {
    uint64_t calls, lines[LINES], pairs[LINES][LINES];         /* line 0: accepted. Pairs: the line given, and the next that holds too */
} covered[OPS];
static uint64_t shapes[4][4], kinds[3], lost_in[4][4][4];      /* r to 3, accepted: (r, t); A, B, C; (r, lost in data, in parity) */

/* A count's name, and the least that it may be in 100,000 calls. */
struct floor { const char *name; uint64_t least; };

/* r above 3: what each r was in; how many columns were lost and mended; what each call accepted, and which lines were given. */
enum { ENCODED, CHECK_8, MENDED_1, MENDED_HALF, MENDED_ALL, MENDED_MIXED, MEND_7, MEND_8, FOLDED_A, FOLDED_C, USES };
static const struct floor use[USES] = {
    {"encoded:", 60}, {"check refused 8:", 5}, {"mended, 1 lost:", 30}, {"r/2:", 30}, {"r:", 30}, {"data and parity:", 40}, {"refused 7:", 20}, {"8:", 40},
    {"folded by A:", 40}, {"by C:", 40},
};
static uint64_t uses[MAX_PARITY + 1][USES], lost_of[MAX_PARITY + 1][MAX_PARITY + 1], accepted_by[OPS], lines_given[LINES];

/* The limits that depend on r: what they just allow, and what they just refuse. */
enum { WIDEST, TOO_WIDE, MARKED, FULL_FOLD, OVERFULL_FOLD, F_NOT_R, F_ABOVE_3, WIDEST_BY_ROWS, LIMITS };
static const struct floor limit[LIMITS] = {
    {"k+r=255:", 50}, {"256 refused:", 100}, {"t not 0 refused:", 200}, {"N*k+r=255:", 500}, {"256 refused:", 60}, {"f not r refused:", 200},
    {"r to 3 and f above 3 refused:", 200}, {"k=255 with r to 3:", 50},
};
static uint64_t limits[LIMITS];

int holds(unsigned lines, unsigned number) { return lines >> number & 1; }

/* ---- counting ---- */

static void count_rows(enum op op, struct fold w, uint32_t given)
{
    if (given == 0)
        shapes[w.s.r][w.s.t]++;
    if (given == 0 && op == FOLD)
        kinds[kind(w) - 'A']++;
    limits[F_ABOVE_3] += given == 4 && w.f > 3 && w.f <= MAX_PARITY;
    limits[WIDEST_BY_ROWS] += given == 0 && w.s.k == 255;
}

static void count_checks(enum op op, struct fold w, uint32_t given)
{
    uint64_t k = w.s.k, r = w.s.r;
    lines_given[given]++;
    accepted_by[op] += given == 0;
    uses[r][ENCODED] += op == ENCODE && given == 0;
    uses[r][CHECK_8] += op == CHECK && given == 8;
    uses[r][MEND_7] += op == MEND && given == 7;
    uses[r][MEND_8] += op == MEND && given == 8;
    if (given == 0 && op == FOLD)
        uses[r][kind(w) == 'A' ? FOLDED_A : FOLDED_C]++;
    limits[WIDEST] += given == 0 && k == 255 - r;
    limits[TOO_WIDE] += given == 1 && k == 256 - r && w.s.t == 0;
    limits[MARKED] += given == 1 && k >= 1 && k <= 255 - r && w.s.t <= 3;
    limits[FULL_FOLD] += given == 0 && w.n * k + r == 255;
    limits[OVERFULL_FOLD] += given == 3 && w.n <= 255 && w.n * k + r == 256;
    limits[F_NOT_R] += given == 4 && w.f >= 1 && w.f <= MAX_PARITY;
}

void count_call(const struct call *c, unsigned lines)
{
    struct fold w = {{c->num[0], c->num[1], c->num[2], c->num[3]}, c->num[4], c->num[5]};
    uint32_t given = first_line(lines), next = first_line(lines & ~(1u << given));
    covered[c->op].calls++;
    covered[c->op].lines[given]++;
    covered[c->op].pairs[given][next]++;
    if (w.s.r <= 3)
        count_rows((enum op)c->op, w, given);
    else if (w.s.r <= MAX_PARITY)
        count_checks((enum op)c->op, w, given);
}

void count_mended(struct shape s, const uint16_t *lost, size_t count)
{
    size_t in_data = 0;
    for (size_t i = 0; i < count; i++)
        in_data += lost[i] < s.k;
    if (s.r <= 3) {
        lost_in[s.r][in_data][count - in_data]++;
    } else if (s.r <= MAX_PARITY) {
        lost_of[s.r][count]++;
        uses[s.r][MENDED_1] += count == 1;
        uses[s.r][MENDED_HALF] += count == s.r / 2;
        uses[s.r][MENDED_ALL] += count == s.r;
        uses[s.r][MENDED_MIXED] += in_data != 0 && in_data != count;
    }
}

/* ---- the table ---- */

static uint64_t calls, missing;

/* A count of the table, marked where it is below its floor. Floors are for 100,000 calls; with fewer they are half of their share. */
static void show(const char *what, uint64_t count, uint64_t least)
{
    least = calls < 100000 ? least * calls / 200000 : least;
    printf("  %s %" PRIu64 "%s", what, count, count < least ? " (TOO FEW)" : "");
    missing += count < least;
}

/* r to 3, and all calls together. */
static void table_of_all(void)
{
    unsigned possible = 0;
    uint64_t accepted = 0, given[LINES] = {0}, pairs[LINES][LINES] = {{0}}, in_data[4] = {0}, in_parity[4] = {0};
    char what[32];
    printf("%-22s %9s %9s", "call", "calls", "accepted");
    for (int n = 1; n < LINES; n++)
        printf("%*s%d", n < 10 ? 8 : 7, "ref. ", n);
    for (int op = 0; op < OPS; op++) {
        if (ops[op].often == 0)
            continue;
        possible |= ops[op].lines;
        accepted += covered[op].lines[0];
        printf("\n%-22s %9" PRIu64 " %9" PRIu64, ops[op].name, covered[op].calls, covered[op].lines[0]);
        for (int n = 1; n < LINES; n++) {
            printf("%9" PRIu64, covered[op].lines[n]);
            given[n] += covered[op].lines[n];
            for (int m = n + 1; m < LINES; m++)
                pairs[n][m] += covered[op].pairs[n][m];
        }
    }
    printf("\naccepted:");
    show("", accepted, 50000);
    printf("\nrefusals given:");
    for (int n = 1; n < LINES; n++)
        if (holds(possible, (unsigned)n))
            show((sprintf(what, "%d:", n), what), given[n], n < 9 ? 1000 : 500);
    printf("\nneighbours that both hold, the first given:");
    for (int n = 1; n < LINES; n++)
        for (int m = n + 1; m < LINES; m++) {
            int neighbours = 0;
            for (int op = 0; op < OPS; op++)
                neighbours |= op != READ_RECORD && holds(ops[op].lines, (unsigned)n) && holds(ops[op].lines, (unsigned)m) && (ops[op].lines >> (n + 1) & ((1u << (m - n - 1)) - 1)) == 0;
            if (neighbours && m != 8)                          /* a stripe of another length, or with more than r lost, is not judged */
                show((sprintf(what, "%d,%d:", n, m), what), pairs[n][m], 1000);
        }
    printf("\naccepted (r,t):");
    for (int r = 1; r < 4; r++)
        for (int t = 0; t < 4; t++)
            if (t == 0 || t > r)
                show((sprintf(what, "(%d,%d):", r, t), what), shapes[r][t], 1000);
    if (ops[FOLD].often != 0) {
        printf("\nfolds of kind");
        for (int n = 0; n < 3; n++)
            show((sprintf(what, "%c:", 'A' + n), what), kinds[n], 1000);
    }
    if (ops[MEND].often != 0) {
        printf("\nmended, r: lost in data + in parity:");
        for (int r = 1; r < 4; r++)
            for (int d = 0; d <= r; d++)
                for (int p = 0; p + d <= r; p++) {
                    show((sprintf(what, "%d:%d+%d:", r, d, p), what), lost_in[r][d][p], 100);
                    in_data[d] += lost_in[r][d][p];
                    in_parity[p] += lost_in[r][d][p];
                }
        printf("\nlost in data:");
        for (int n = 0; n < 4; n++)
            show((sprintf(what, "%d:", n), what), in_data[n], 1000);
        printf("\nlost in parity:");
        for (int n = 0; n < 4; n++)
            show((sprintf(what, "%d:", n), what), in_parity[n], 1000);
    }
    printf("\n");
    printf("records through the program:");
    for (int n = 0; n < 11; n++)
        if (n != 3 && n != 4)
            show(n == 0 ? "mended:" : (sprintf(what, "%d:", n), what), record_answers[n], n > 8 ? 1000 : 50);
    if (MAX_PARITY > 3)
        show("mended, r above 3:", records_by_checks, 100);
    show("in a process each:", records_alone, 500);
    printf("\n");
}

/* r above 3. */
static void table_of_checks(void)
{
    uint64_t rarest = ~(uint64_t)0;
    char what[32];
    printf("r above 3, accepted:");
    for (int op = 0; op < OPS; op++)
        show((sprintf(what, "%s:", ops[op].name), what), accepted_by[op], 200);
    printf("\nrefusals given:");
    for (int n = 1; n < 9; n++)
        show((sprintf(what, "%d:", n), what), lines_given[n], 200);
    for (int r = 4; r <= MAX_PARITY; r++) {
        printf("\nr = %2d:", r);
        for (int n = 0; n < USES; n++)
            show(use[n].name, uses[r][n], use[n].least);
        for (int lost = 0; lost <= r; lost++)
            rarest = lost_of[r][lost] < rarest ? lost_of[r][lost] : rarest;
    }
    printf("\nevery r and number lost, mended:");
    show("the rarest:", rarest, 3);
    printf("\nlimits:");
    for (int n = 0; n < LIMITS; n++)
        show(limit[n].name, limits[n], limit[n].least);
    printf("\n");
}

/* Two sittings: of which kinds, and what was refused. */
static void table_of_sittings(void)
{
    static const struct floor step[STEPS] = {
        {"both allowed:", 700}, {"one refused:", 1000}, {"at once refused, as f2 is not t:", 50}, {"as wide as may be:", 10}, {"1 wider, refused:", 100},
    };
    uint64_t rarest = ~(uint64_t)0;
    char what[32];
    for (int high = 0; high < (MAX_PARITY > 3 ? 2 : 1); high++) {
        printf("two sittings%s, kinds of both/at once:", high ? ", r above 3" : "");
        for (int n = 0; n < (high ? KINDS_BY_CHECKS : KINDS); n++)
            show((sprintf(what, "%s:", kinds_of_sittings[n]), what), sittings_tried[high][n], 35);
        printf("\n");
    }
    for (int r = 1; r <= MAX_PARITY; r++)
        rarest = sittings_of_r[r] < rarest ? sittings_of_r[r] : rarest;
    printf("two sittings, every r:");
    show("the rarest:", rarest, 3);
    printf("\na stale byte that one fold shows and two sittings hide:");
    show("", sittings_hid, 150);
    printf("\ntwo sittings, refusals:");
    for (int n = 0; n < STEPS; n++)
        show(step[n].name, sittings_steps[n], step[n].least);
    printf("\n");
}

uint64_t table(uint64_t of_calls)
{
    calls = of_calls;
    table_of_all();
    if (MAX_PARITY > 3)
        table_of_checks();
    table_of_sittings();
    return missing;
}
