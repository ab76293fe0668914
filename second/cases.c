/* Compares the archive with the second program, call by call: every answer, every byte of the lent buffers, and the guard bytes around
 * them. usage: cases CALLS SEED. The last line is the verdict; exit 0 where all agree and enough was covered. */
#include "covered.h"
#include "random.h"
#include "records.h"
#include "sittings.h"

#include <inttypes.h>
#include <stdio.h>
#include <stdlib.h>
#include <string.h>

static uint64_t differences, small;                            /* small: calls of small shapes */

/* ---- one case: the call, what it is lent, and what is to be seen afterwards ---- */

static struct call c;
static uint8_t a[MOST_BYTES], b[MOST_BYTES], x[MOST_BYTES], y[MOST_BYTES], want[LENT][MOST_BYTES];
static uint8_t *const lent[LENT] = {a, b, x, y};

static struct shape shape_of(void) { return (struct shape){c.num[0], c.num[1], c.num[2], c.num[3]}; }
static struct fold fold_of(void) { return (struct fold){shape_of(), c.num[4], c.num[5]}; }

static void set_numbers(struct fold w)
{
    memcpy(c.num, (uint64_t[6]){w.s.k, w.s.r, w.s.t, w.s.l, w.n, w.f}, sizeof c.num);
}

/* A call that is lent nothing yet. */
static void fresh(enum op op)
{
    c.op = op;
    for (int i = 0; i < LENT; i++) {
        c.len[i] = 0;
        c.shift[i] = below(64);
    }
}

/* A number that a careless reader takes for `near`, or that lies at an edge of document 01's table. */
static uint64_t hostile(uint64_t near)
{
    static const uint64_t edges[] = {0, 1, 2, 3, 4, 16, 17, 254, 255, 256, 257, 4095, 4096, 4097, (uint64_t)1 << 32, (uint64_t)1 << 63};
    switch (below(8)) {
    case 0: return near + 1;
    case 1: return near - 1;
    case 2: return near + ((uint64_t)1 << 8 * (1 + below(7)));
    case 3: return near + ((uint64_t)1 << 63);
    case 4: return 0 - near;
    case 5: return ~(uint64_t)0 - below(3);
    case 6: return any();
    default: return edges[below(sizeof edges / sizeof *edges)];
    }
}

/* What the limits of 255 leave to the data columns: for r above 3 the parity columns count too. */
static uint64_t room_beside(uint64_t r) { return r > 3 && r <= MAX_PARITY ? 255 - r : 255; }

/* One of `count` numbers from `first` on put just past its edge, or changed anyhow, until the line holds. */
static void spoil(unsigned number, uint64_t first, uint64_t count)
{
    do {
        uint64_t most = room_beside(c.num[1]), which = first + below(count);
        uint64_t t = most < 255 ? 1 + below(3) : c.num[1], n = c.num[0] == 0 ? 256 : most / c.num[0] + 1, f = most < 255 ? c.num[1] - 1 : 4;
        uint64_t past[6] = {most + 1, MAX_PARITY + 1, t, 4097, n, f};
        c.num[which] = below(3) == 0 ? past[which] : hostile(c.num[which]);
    } while (!holds(plan_lines(fold_of()), number));
}

/* A k of which some multiple, at least the third, is `all`. */
static uint64_t divisor(uint64_t all)
{
    uint64_t k;
    do
        k = 1 + below(all / 3);
    while (all % k != 0);
    return k;
}

/* Allowed numbers, and then those changed that the faults 1 to 4 name; now and then any of them. The allowed ones come back. */
static struct fold numbers(unsigned faults)
{
    struct fold w = {any_shape(), 0, 0};
    if (c.op == MEND && w.s.r < 4 && w.s.t == 0 && below(4) != 0)
        w.s.r = 3;
    int folds = c.op >= FOLD && c.op <= PLAN_SPANS, full = folds && w.s.r > 3 && below(4) == 0;
    uint64_t all = room_beside(w.s.r);
    if (folds && w.s.k > all / 2)
        w.s.k = 3 + below(all / 2 - 2);
    if (full)                                                  /* as wide as may be, or for line 3 as wide as may be and 1 more */
        w.s.k = divisor(holds(faults, 3) ? all + 1 : all);
    if (c.op == WRITE_RECORD && below(4) != 0)
        while ((w.s.k + w.s.r) * w.s.l > MAX_RECORD)
            w.s = any_shape();
    if (folds) {
        uint64_t most = all / w.s.k;
        w.n = full || below(8) == 0 ? most : 2 + below(below(3) != 0 && most > 4 ? 3 : most - 1);
        w.f = w.s.r > 3 ? w.s.r : w.s.t != 0 ? w.s.t : 1 + below(3);
    }
    set_numbers(w);
    if (holds(faults, 1))
        spoil(1, 0, 3);
    if (holds(faults, 2))
        spoil(2, 3, 1);
    if (holds(faults, 3) && below(4) == 0)
        c.num[0] = all / w.n + 1;
    else if (holds(faults, 3))
        spoil(3, 4, 1);
    if (holds(faults, 4))
        spoil(4, 5, 1);
    if (below(60) == 0)
        for (int i = 0; i < 6; i++)
            c.num[i] = below(2) == 0 ? hostile(c.num[i]) : c.num[i];
    return w;
}

/* x * y bytes where a buffer may have as many, else `otherwise`: so that wrong numbers mostly come with the lengths they ask for. */
static uint64_t sized(uint64_t x, uint64_t y, uint64_t otherwise)
{
    return x < 4096 && y < 1 << 16 && x * y <= MOST_BYTES ? x * y : otherwise;
}

static uint64_t other_length(uint64_t len)
{
    switch (below(6)) {
    case 0: return 0;
    case 1: return len / 2;
    case 2: return len - (len > 0);
    case 3: return len * 2 <= MOST_BYTES ? len * 2 : 0;
    case 4: return below(200);
    default: return len + (len < MOST_BYTES);
    }
}

static void spoil_a_length(void)
{
    uint64_t *len = below(2) == 0 ? &c.len[0] : &c.len[1];
    *len = other_length(*len);
}

/* What a refusal leaves: all as it was lent. */
static void as_lent(void)
{
    for (int i = 0; i < LENT; i++)
        memcpy(want[i], lent[i], c.len[i]);
}

/* Makes the call and compares. */
static void judge(uint64_t answer)
{
    uint64_t places = 0, first = 0;
    int buffer = 0;
    make_call(&c, lent);
    for (int n = LENT; n-- > 0;)
        for (uint64_t i = c.len[n]; i-- > 0;)
            if (lent[n][i] != want[n][i]) {
                places++;
                first = i;
                buffer = n;
            }
    if (c.answer == answer && places == 0 && c.stray == 0)
        return;
    if (differences++ < 10)
        printf("DIFFERENCE shelf_%s k=%" PRIu64 " r=%" PRIu64 " t=%" PRIu64 " L=%" PRIu64 " N=%" PRIu64 " f=%" PRIu64 ", %" PRIu64 ", %" PRIu64 ", %" PRIu64 ", %" PRIu64
               " bytes lent: answer %" PRIu64 ", not %" PRIu64 "; %" PRIu64 " bytes differ, the first at %" PRIu64 " of buffer %d; %" PRIu64 " guard bytes changed\n",
               ops[c.op].name, c.num[0], c.num[1], c.num[2], c.num[3], c.num[4], c.num[5], c.len[0], c.len[1], c.len[2], c.len[3], c.answer, answer, places,
               first, buffer, c.stray);
}

/* The same, counted. */
static void compare(unsigned lines, uint64_t answer)
{
    count_call(&c, lines);
    judge(answer);
}

static void encode_case(unsigned faults)
{
    struct shape s = numbers(faults).s;
    c.len[0] = sized(c.num[0], c.num[3], s.k * s.l);
    c.len[1] = sized(c.num[1], c.num[3], s.r * s.l);
    if (holds(faults, 5))
        spoil_a_length();
    fill(a, c.len[0]);
    fill(b, c.len[1]);
    as_lent();
    unsigned lines = encode_lines(shape_of(), c.len[0], c.len[1]);
    if (lines == 0)
        encode(shape_of(), a, want[1]);
    compare(lines, first_line(lines));
}

/* Up to r positions, in every split between data and parity; fewer than r for line 8, more for line 7; out of order for line 6. */
static size_t lost_list(struct shape s, unsigned faults, uint16_t *lost)
{
    uint64_t n = s.k + s.r, most = holds(faults, 8) ? s.r - 1 : s.r, one = below(5) < 2 ? most : below(most + 1), two = below(most - one + 1);
    size_t in_data = below(2) == 0 ? one : two, in_parity = one + two - in_data, count;
    if (holds(faults, 7))
        count = any_lost_of(s, s.r + 1 + below(4), lost);
    else if (s.r > 3)
        count = any_lost_of(s, any_total(most), lost);
    else
        count = any_lost(s, in_data, in_parity, lost);
    if (!holds(faults, 6))
        return count;
    switch (count < 2 ? 2 + below(2) : below(4)) {
    case 0: lost[below(count - 1)] = lost[count - 1]; return count;
    case 1: lost[count - 1] = lost[below(count - 1)]; return count;
    case 2: lost[count] = (uint16_t)(n + below(3) * below(3) * 128); return count + 1;
    default:
        for (count = 0; count <= n; count++)
            lost[count] = (uint16_t)count;
        return count;
    }
}

static int among(uint64_t position, const uint16_t *lost, size_t count)
{
    while (count > 0 && lost[count - 1] != position)
        count--;
    return count > 0;
}

/* Columns to r in all: the lost ones, and survivors. */
static void columns_to_spoil(struct shape s, const uint16_t *lost, size_t count, uint16_t *columns)
{
    memcpy(columns, lost, count * sizeof *lost);
    while (count < s.r) {
        uint64_t position = below(s.k + s.r);
        if (!among(position, columns, count))
            columns[count++] = (uint16_t)position;
    }
}

/* A codeword with rubbish in its lost columns, or any bytes where r are lost. For line 8 one survivor is stale, or for r above 3 so many
 * that a single check equation shows it. */
static void stripe_to_mend(struct shape s, unsigned faults, const uint16_t *lost, size_t count)
{
    uint64_t size = (s.k + s.r) * s.l, at;
    uint16_t columns[MAX_PARITY];
    fill(a, c.len[0]);
    if (c.len[0] != size || (count == s.r && below(4) == 0))
        return;
    encode(s, a, a + s.k * s.l);
    for (uint64_t col = 0; col < s.k + s.r; col++)
        if (among(col, lost, count))
            fill(a + col * s.l, s.l);
    if (holds(faults, 8) && s.r > 3 && count < s.r && below(2) == 0) {
        columns_to_spoil(s, lost, count, columns);
        off_in_one_equation(s, columns, below(s.l), below(2) == 0 ? s.r - 1 : below(s.r), a);
    } else if (holds(faults, 8) && count < s.k + s.r) {
        do
            at = below(size);
        while (among(at / s.l, lost, count));
        a[at] ^= (uint8_t)(1 + below(255));
    }
}

static void lend_list(const uint16_t *lost, size_t count)
{
    c.len[1] = 2 * count;
    for (size_t i = 0; i < count; i++) {
        b[2 * i] = (uint8_t)(lost[i] % 256);
        b[2 * i + 1] = (uint8_t)(lost[i] / 256);
    }
}

static void mend_case(unsigned faults)
{
    struct shape s = numbers(faults).s;
    uint16_t lost[MAX_LOST + 2];
    if (faults == 0 && s.r > 3 && below(8) == 0)
        faults = 1 << 8;
    size_t count = lost_list(s, faults, lost);
    c.len[0] = sized(c.num[0] + c.num[1], c.num[3], (s.k + s.r) * s.l);
    lend_list(lost, count);
    if (holds(faults, 5) && below(2) == 0)
        b[c.len[1]++] = (uint8_t)below(2);
    else if (holds(faults, 5))
        c.len[0] = other_length(c.len[0]);
    stripe_to_mend(s, faults, lost, count);
    as_lent();
    unsigned lines = mend_lines(shape_of(), a, c.len[0], b, c.len[1]);
    if (lines == 0) {
        count_mended(shape_of(), lost, count);
        mend(shape_of(), want[0], lost, count);
    }
    compare(lines, first_line(lines));
}

/* What the plan names of N codewords, joined in a. The wide parity by definition goes to `wide`. */
static void codewords_to_fold(struct fold w, uint8_t *wide)
{
    struct span spans[MAX_SPANS];
    size_t columns = w.s.k * w.s.l, size = columns + w.s.r * w.s.l, count = plan(w, spans), at = 0;
    uint8_t *stripes = malloc(w.n * size), *data = malloc(w.n * columns);
    for (uint64_t l = 0; l < w.n; l++) {
        fill(stripes + l * size, columns);
        encode(w.s, stripes + l * size, stripes + l * size + columns);
        memcpy(data + l * columns, stripes + l * size, columns);
    }
    for (size_t i = 0; i < count; i++) {
        memcpy(a + at, stripes + spans[i].stripe * size + spans[i].position * w.s.l + spans[i].first, spans[i].length);
        at += spans[i].length;
    }
    encode((struct shape){w.n * w.s.k, w.f, 0, w.s.l}, data, wide);
    free(stripes);
    free(data);
}

static void hold_as_encoded(const uint8_t *wide)
{
    if (memcmp(wide, want[1], c.len[1]) != 0) {
        differences++;
        printf("DIFFERENCE inside the second program: a fold of codewords is not the parity of all data\n");
    }
}

static void fold_case(unsigned faults)
{
    struct fold w = numbers(faults);
    static uint8_t wide[MAX_PARITY * 4096];
    c.len[0] = plan_lines(fold_of()) == 0 ? bytes_read(fold_of()) : bytes_read(w);
    c.len[1] = sized(c.num[5], c.num[3], w.f * w.s.l);
    if (holds(faults, 4) && holds(faults, 5))
        c.len[1] = other_length(c.len[1]);                     /* the bytes read are not judged where f is not allowed */
    else if (holds(faults, 5))
        spoil_a_length();
    fill(a, c.len[0]);
    fill(b, c.len[1]);
    unsigned lines = fold_lines(fold_of(), c.len[0], c.len[1]);
    int codewords = lines == 0 && below(2) == 0;
    if (codewords)
        codewords_to_fold(fold_of(), wide);
    as_lent();
    if (lines == 0) {
        fold(fold_of(), a, want[1]);
        if (codewords)
            hold_as_encoded(wide);
    }
    compare(lines, first_line(lines));
}

static uint64_t plan_answer(void)
{
    struct span spans[MAX_SPANS];
    unsigned lines = plan_lines(fold_of());
    uint64_t columns = 0, bytes = 0, new_columns = 0, new_bytes = 0;
    if (lines == 0) {
        struct fold w = fold_of();
        columns = plan(w, spans);
        bytes = bytes_read(w);
        new_columns = w.f;
        new_bytes = w.f * w.s.l;
    }
    switch (c.op) {
    case PLAN_COLUMNS: return columns;
    case PLAN_BYTES: return bytes;
    case PLAN_COLUMNS_WRITTEN: return new_columns;
    case PLAN_BYTES_WRITTEN: return new_bytes;
    case PLAN_COLUMNS_SUM: return columns + new_columns;
    case PLAN_BYTES_SUM: return bytes + new_bytes;
    default: return first_line(lines);
    }
}

static void plan_case(unsigned faults)
{
    numbers(faults);
    compare(plan_lines(fold_of()), plan_answer());
}

static void lend_spans(size_t room)
{
    c.shift[0] &= ~(uint64_t)3;                                /* a span's alignment */
    c.len[0] = room * sizeof(struct span);
    fill(a, c.len[0]);
    as_lent();
}

static void spans_case(unsigned faults)
{
    struct span spans[MAX_SPANS];
    struct fold w = numbers(faults);
    size_t count = plan(plan_lines(fold_of()) == 0 ? fold_of() : w, spans), room = count + below(3) * below(3);
    if (holds(faults, 5))
        room = below(2) == 0 ? 0 : below(count);
    lend_spans(room);
    unsigned lines = spans_lines(fold_of(), room);
    if (lines == 0)
        memcpy(want[0], spans, count * sizeof *spans);
    compare(lines, first_line(lines));
}

static void lend_to_check(void)
{
    c.len[2] = c.len[3] = 4;
    c.shift[2] &= ~(uint64_t)3;
    c.shift[3] &= ~(uint64_t)3;
    for (int i = 0; i < LENT; i++)
        fill(lent[i], c.len[i]);
}

/* Parity byte i is named. */
static void want_place(uint64_t i)
{
    memcpy(want[2], &(uint32_t){(uint32_t)(i / c.num[3])}, 4);
    memcpy(want[3], &(uint32_t){(uint32_t)(i % c.num[3])}, 4);
}

/* A codeword, or one with up to three bytes changed. The first parity byte that is not by definition is named, column and then place. */
static void check_case(unsigned faults)
{
    static uint8_t by_definition[MAX_PARITY * 4096];
    struct shape s = numbers(faults).s;
    c.len[0] = sized(c.num[0], c.num[3], s.k * s.l);
    c.len[1] = sized(c.num[1], c.num[3], s.r * s.l);
    if (holds(faults, 5))
        spoil_a_length();
    lend_to_check();
    unsigned lines = encode_lines(shape_of(), c.len[0], c.len[1]);
    if (lines == 0 && (holds(faults, 8) || below(8) != 0))
        encode(shape_of(), a, b);
    for (uint64_t n = lines == 0 && holds(faults, 8) ? 1 + below(3) : 0; n > 0; n--)
        *(below(2) == 0 ? &a[below(c.len[0])] : &b[below(c.len[1])]) ^= (uint8_t)(1 + below(255));
    as_lent();
    if (lines == 0) {
        encode(shape_of(), a, by_definition);
        for (uint64_t i = c.len[1]; i-- > 0;)
            if (b[i] != by_definition[i]) {
                lines = 1 << 8;
                want_place(i);
            }
    }
    compare(lines, first_line(lines));
}

/* Records, whole and spoilt, as the program gets them; and buffers and lists of other lengths. */
static void read_case(unsigned faults)
{
    int due = (int)first_line(faults);
    struct shape s;
    uint16_t lost[MAX_LOST];
    size_t count;
    c.len[0] = any_record(due == 5 && below(2) == 0 ? 0 : due);
    c.len[1] = MAX_RECORD;
    c.len[2] = 2 * MAX_LOST;
    c.len[3] = 5 * 8;
    c.shift[2] &= ~(uint64_t)1;
    c.shift[3] &= ~(uint64_t)7;
    if (due == 5 || below(100) == 0)
        switch (below(3)) {
        case 0: c.len[1] = other_length(c.len[1]); break;
        case 1: c.len[2] = below(2) == 0 ? 2 * below(MAX_LOST) : 2 * (MAX_LOST + 1 + below(3)); break;
        default: c.len[3] = 8 * (below(2) == 0 ? below(5) : 6 + below(3));
        }
    memcpy(a, rec, c.len[0]);
    for (int i = 1; i < LENT; i++)
        fill(lent[i], c.len[i]);
    as_lent();
    uint32_t answer = 5;
    if (c.len[1] == MAX_RECORD && c.len[2] == 2 * MAX_LOST && c.len[3] == 5 * 8)
        answer = read_record(a, c.len[0], &s, lost, &count, want[1]);
    if (answer == 0) {
        memcpy(want[2], lost, 2 * count);
        memcpy(want[3], (uint64_t[5]){s.k, s.r, s.t, s.l, count}, 5 * 8);
    }
    set_numbers((struct fold){answer == 0 ? s : (struct shape){0, 0, 0, 0}, 0, 0});
    compare(answer == 0 ? 0 : 1u << answer, answer);
}

/* Stripes with any number of columns lost, the list now and then out of order, and outputs that are too short. */
static void write_case(unsigned faults)
{
    static uint8_t record_bytes[1 << 22];
    struct shape s = numbers(faults).s;
    uint16_t lost[MAX_LOST + 2];
    size_t count = holds(faults, 6) ? lost_list(s, faults, lost) : any_lost(s, below(2) == 0 ? below(s.k + 1) : below(2), below(s.r + 1), lost);
    size_t length = write_record(s, a, lost, 0, record_bytes), n = 0;
    c.len[0] = sized(c.num[0] + c.num[1], c.num[3], (s.k + s.r) * s.l);
    c.len[1] = 2 * count;
    c.len[3] = 8;
    c.shift[1] &= ~(uint64_t)1;
    c.shift[3] &= ~(uint64_t)7;
    if (holds(faults, 5) && below(3) == 0)
        c.len[0] = other_length(c.len[0]);
    fill(a, c.len[0]);
    memcpy(b, lost, c.len[1]);
    struct shape t = shape_of();
    unsigned lines = shape_lines(t);
    if (lines == 0 && ((t.k + t.r) * t.l > MAX_RECORD || c.len[0] != (t.k + t.r) * t.l))
        lines = 1 << 5;
    while (n < count && lost[n] < t.k + t.r && (n == 0 || lost[n - 1] < lost[n]))
        n++;
    if ((lines & BITS_SHAPE) == 0 && n < count)
        lines |= 1 << 6;
    if (lines == 0)
        length = write_record(t, a, lost, count, record_bytes);
    c.len[2] = holds(faults, 5) && below(2) == 0 ? below(length) : length + below(3) * below(40);
    fill(x, c.len[2]);
    fill(y, c.len[3]);
    as_lent();
    if (lines == 0 && (length > MAX_RECORD || length > c.len[2]))
        lines = 1 << 5;
    if (lines == 0) {
        memcpy(want[2], record_bytes, length);
        memcpy(want[3], &(uint64_t){length}, 8);
    }
    compare(lines, first_line(lines));
}

/* ---- every small shape of r from 4 to 6 ---- */

enum { SMALL_K = 6, SMALL_R = 6, SMALL_L = 2 };

static void small_call(enum op op, struct fold w)
{
    fresh(op);
    set_numbers(w);
    small++;
}

/* One data column that is not zero, each in turn, and then any bytes. */
static void small_encodes(struct shape s)
{
    for (uint64_t i = 0; i <= s.k; i++) {
        small_call(ENCODE, (struct fold){s, 0, 0});
        c.len[0] = s.k * s.l;
        c.len[1] = s.r * s.l;
        memset(a, 0, c.len[0]);
        fill(i < s.k ? a + i * s.l : a, i < s.k ? s.l : c.len[0]);
        fill(b, c.len[1]);
        as_lent();
        encode(s, a, want[1]);
        judge(0);
    }
}

/* Parity bytes off from each one on, and then none. */
static void small_checks(struct shape s)
{
    for (uint64_t at = 0; at <= s.r * s.l; at++) {
        small_call(CHECK, (struct fold){s, 0, 0});
        c.len[0] = s.k * s.l;
        c.len[1] = s.r * s.l;
        lend_to_check();
        encode(s, a, b);
        for (uint64_t i = at; i < c.len[1]; i++)
            b[i] ^= (uint8_t)(i == at ? 1 + below(255) : below(256));
        as_lent();
        if (at < c.len[1])
            want_place(at);
        judge(at < c.len[1] ? 8 : 0);
    }
}

static void small_mend(struct shape s, unsigned faults, const uint16_t *lost, size_t count)
{
    small_call(MEND, (struct fold){s, 0, 0});
    c.len[0] = (s.k + s.r) * s.l;
    lend_list(lost, count);
    stripe_to_mend(s, faults, lost, count);
    as_lent();
    unsigned lines = mend_lines(s, a, c.len[0], b, c.len[1]);
    if (lines == 0)
        mend(s, want[0], lost, count);
    judge(first_line(lines));
}

/* Every list of up to r + 1 lost columns, with the survivors of a codeword, and with stale ones among them. */
static void small_mends(struct shape s)
{
    for (unsigned set = 0; set < 1u << (s.k + s.r); set++) {
        uint16_t lost[MAX_LOST];
        size_t count = 0;
        for (uint64_t position = 0; position < s.k + s.r; position++)
            if (set >> position & 1)
                lost[count++] = (uint16_t)position;
        if (count > s.r + 1)
            continue;
        small_mend(s, 0, lost, count);
        small_mend(s, 1 << 8, lost, count);
    }
}

static void small_fold(struct fold w, int codewords)
{
    uint8_t wide[SMALL_R * SMALL_L];
    small_call(FOLD, w);
    c.len[0] = bytes_read(w);
    c.len[1] = w.f * w.s.l;
    fill(a, c.len[0]);
    fill(b, c.len[1]);
    if (codewords)
        codewords_to_fold(w, wide);
    as_lent();
    fold(w, a, want[1]);
    if (codewords)
        hold_as_encoded(wide);
    judge(0);
}

static void small_spans(struct fold w)
{
    struct span spans[MAX_SPANS];
    size_t count = plan(w, spans);
    small_call(PLAN_SPANS, w);
    lend_spans(count);
    memcpy(want[0], spans, count * sizeof *spans);
    judge(0);
}

/* Two to nine stripes, as many as may be, and one more; every f. */
static void small_folds(struct shape s)
{
    uint64_t most = room_beside(s.r) / s.k;
    for (uint64_t n = 2; n <= most + 1; n = n < 9 || n >= most ? n + 1 : most)
        for (uint64_t f = 0; f <= MAX_PARITY + 1; f++) {
            struct fold w = {s, n, f};
            for (enum op op = PLAN_REFUSAL; op <= PLAN_BYTES_SUM; op++) {
                small_call(op, w);
                judge(plan_answer());
            }
            if (plan_lines(w) == 0) {
                small_spans(w);
                small_fold(w, 0);
                small_fold(w, 1);
            }
        }
}

static void small_shapes(void)
{
    struct shape s = {0, 0, 0, SMALL_L};
    for (s.r = 4; s.r <= SMALL_R; s.r++)
        for (s.k = 1; s.k <= SMALL_K; s.k++) {
            small_encodes(s);
            small_checks(s);
            small_mends(s);
            small_folds(s);
        }
}

/* ---- all cases ---- */

/* None, or a line that the call can give, or two lines that are neighbours in the order. */
static unsigned any_faults(unsigned lines)
{
    unsigned number;
    if (below(100) >= 44)
        return 0;
    do
        number = (unsigned)below(LINES);
    while (!holds(lines, number));
    unsigned faults = 1u << number, rest = lines & ~((2u << number) - 1);
    return below(5) < 3 && rest != 0 ? faults | 1u << first_line(rest) : faults;
}

static void one_case(void)
{
    uint64_t all = 0, turn;
    for (int i = 0; i < OPS; i++)
        all += ops[i].often;
    turn = below(all);
    enum op op = ENCODE;
    for (; turn >= ops[op].often; op++)
        turn -= ops[op].often;
    fresh(op);
    unsigned faults = any_faults(ops[c.op].lines);
    switch (c.op) {
    case ENCODE: encode_case(faults); break;
    case MEND: mend_case(faults); break;
    case FOLD: fold_case(faults); break;
    case PLAN_SPANS: spans_case(faults); break;
    case CHECK: check_case(faults); break;
    case READ_RECORD: read_case(faults); break;
    case WRITE_RECORD: write_case(faults); break;
    default: plan_case(faults);
    }
}

int main(int argc, char **argv)
{
    uint64_t from = argc > 2 ? strtoull(argv[2], NULL, 0) : 1, calls = argc > 1 ? strtoull(argv[1], NULL, 0) : 100000;
    seed(from);
    setvbuf(stdout, NULL, _IOLBF, 0);                          /* a call that does not come back leaves the lines before it */
    differences = (uint64_t)worked();
    if (MAX_PARITY > 3)
        small_shapes();
    for (uint64_t i = 0; i < calls; i++)
        one_case();
    differences += compare_records(calls / 20);
    differences += compare_sittings(calls / 400);
    uint64_t missing = table(calls);
    if (MAX_PARITY > 3)
        printf("small shapes, r from 4 to 6: %" PRIu64 " calls\n", small);
    printf("second: %" PRIu64 " calls, seed %" PRIu64 ": %" PRIu64 " differences, %" PRIu64 " counts too low: %s\n", calls, from, differences, missing,
           differences + missing == 0 ? "AGREED" : "FAILED");
    return differences + missing != 0;
}
