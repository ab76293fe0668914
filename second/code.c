/* Field, stripes, mending and folding, by definition. */
#include "code.h"

#include <stdio.h>
#include <stdlib.h>
#include <string.h>

/* ---- the field ---- */

/* Shift and reduce by x^8+x^4+x^3+x^2+1. */
uint8_t times(uint8_t a, uint8_t b)
{
    unsigned x = a, sum = 0;
    for (int bit = 0; bit < 8; bit++) {
        if (b >> bit & 1)
            sum ^= x;
        x <<= 1;
        if (x & 0x100)
            x ^= 0x11D;
    }
    return (uint8_t)sum;
}

uint8_t power_of_g(uint64_t e)
{
    unsigned p = 1;
    for (; e > 0; e--) {
        p <<= 1;
        if (p & 0x100)
            p ^= 0x11D;
    }
    return (uint8_t)p;
}

/* out += w * m, byte by byte. */
static void add(uint8_t w, const uint8_t *m, size_t len, uint8_t *out)
{
    for (size_t p = 0; p < len; p++)
        out[p] ^= times(w, m[p]);
}

/* out += w * row j of the k strings of `len` bytes that begin at m, m + l, m + 2*l, .. */
static void add_row(uint8_t w, uint64_t j, uint64_t k, const uint8_t *m, size_t l, size_t len, uint8_t *out)
{
    for (uint64_t i = 0; i < k; i++)
        add(times(w, power_of_g(i * j)), m + i * l, len, out);
}

/* ---- equations: Gaussian elimination ---- */

enum { MOST = MAX_PARITY > 9 ? MAX_PARITY : 9 };               /* unknowns, and equations, at one place; three columns of three runs are 9 */
typedef uint8_t matrix[MOST][MOST];

static uint8_t inverse(uint8_t a)
{
    uint8_t b = 1;
    while (times(a, b) != 1)
        b++;
    return b;
}

static void exchange(uint8_t *a, uint8_t *b, size_t len)
{
    for (size_t p = 0; p < len; p++) {
        uint8_t kept = a[p];
        a[p] = b[p];
        b[p] = kept;
    }
}

static void scale(uint8_t w, uint8_t *m, size_t len)
{
    for (size_t p = 0; p < len; p++)
        m[p] = times(w, m[p]);
}

/* Solves `eqs` equations in `vars` unknowns at `len` places: equation e has its coefficients in m[e] and its right sides from
 * right + e * len on. The solution then stands there, unknown v from right + v * len on. 0 where a place has none. */
static int solve(matrix m, size_t eqs, size_t vars, uint8_t *right, size_t len)
{
    for (size_t v = 0; v < vars; v++) {
        size_t pivot = v;
        while (pivot < eqs && m[pivot][v] == 0)
            pivot++;
        if (pivot == eqs) {
            fprintf(stderr, "second: two codewords agree on k columns\n");
            exit(2);
        }
        exchange(m[pivot], m[v], vars);
        exchange(right + pivot * len, right + v * len, len);
        uint8_t by = inverse(m[v][v]);
        scale(by, m[v], vars);
        scale(by, right + v * len, len);
        for (size_t e = 0; e < eqs; e++) {
            uint8_t w = m[e][v];
            if (e == v || w == 0)
                continue;
            add(w, m[v], vars, m[e]);
            add(w, right + v * len, len, right + e * len);
        }
    }
    for (size_t i = vars * len; i < eqs * len; i++)
        if (right[i] != 0)
            return 0;
    return 1;
}

/* ---- stripes ---- */

static uint64_t runs_of(struct shape s) { return s.t == 0 ? 1 : s.t; }

/* Whether parity is given by check equations (document 02, request 6), not by rows. */
static int by_checks(struct shape s) { return MAX_PARITY > 3 && s.r > 3; }

/* out[e] += point^e times the column, for every e below r. */
static void add_checks(uint8_t point, uint64_t r, const uint8_t *column, size_t l, uint8_t *out)
{
    uint8_t w = 1;
    for (uint64_t e = 0; e < r; e++) {
        add(w, column, l, out + e * l);
        w = times(w, point);
    }
}

/* Sum e of the check equations, for every e below r, over the first columns of a stripe. Data column i has the point g^i, parity
 * column j the point g^(254-j). */
static void check_sums(struct shape s, uint64_t columns, const uint8_t *stripe, uint8_t *out)
{
    memset(out, 0, s.r * s.l);
    for (uint64_t c = 0; c < columns; c++)
        add_checks(power_of_g(c < s.k ? c : 254 - (c - s.k)), s.r, stripe + c * s.l, s.l, out);
}

/* Bytes that are all zero for a codeword and for no other stripe, r*L of them: the sums of the check equations, or the stored parity
 * plus the parity by definition. */
static void disagreement(struct shape s, const uint8_t *stripe, uint8_t *out)
{
    if (by_checks(s)) {
        check_sums(s, s.k + s.r, stripe, out);
    } else {
        encode(s, stripe, out);
        add(1, stripe + s.k * s.l, s.r * s.l, out);
    }
}

/* The equations at one place: unknown v*runs + b is run b of lost column v, equation i*runs + j says that parity column i agrees in
 * run j, or equation i is check equation i. An unknown's coefficients are the disagreement of the stripe of one place that is 1 there
 * and 0 elsewhere. */
static void coefficients(struct shape s, const uint16_t *lost, size_t count, matrix m)
{
    struct shape one = {s.k, s.r, s.t, runs_of(s)};
    uint8_t unit[258 * 3], d[MOST];
    for (size_t v = 0; v < count; v++)
        for (uint64_t b = 0; b < one.l; b++) {
            memset(unit, 0, sizeof unit);
            unit[lost[v] * one.l + b] = 1;
            disagreement(one, unit, d);
            for (size_t e = 0; e < one.r * one.l; e++)
                m[e][v * one.l + b] = d[e];
        }
}

/* The r parity columns that have these sums, in their place. */
static void parity_of_sums(uint64_t r, size_t l, uint8_t *sums)
{
    struct shape no_data = {0, r, 0, l};
    uint16_t all[MOST];
    matrix m;
    for (uint64_t j = 0; j < r; j++)
        all[j] = (uint16_t)j;
    coefficients(no_data, all, r, m);
    solve(m, r, r, sums, l);
}

static void encode_rows(struct shape s, const uint8_t *data, uint8_t *parity)
{
    uint64_t runs = runs_of(s), len = s.l / runs;
    memset(parity, 0, s.r * s.l);
    for (uint64_t i = 0; i < s.r; i++)
        for (uint64_t j = 0; j < runs; j++) {
            uint8_t *here = parity + i * s.l + j * len;
            add_row(1, i, s.k, data + j * len, s.l, len, here);
            if (j >= s.r)
                add_row(1, j, s.k, data + i * len, s.l, len, here);
        }
}

/* A check equation's sum over the parity columns is that over the data columns. */
void encode(struct shape s, const uint8_t *data, uint8_t *parity)
{
    if (by_checks(s)) {
        check_sums(s, s.k, data, parity);
        parity_of_sums(s.r, s.l, parity);
    } else {
        encode_rows(s, data, parity);
    }
}

/* ---- mending ---- */

int mend(struct shape s, uint8_t *stripe, const uint16_t *lost, size_t count)
{
    uint64_t runs = runs_of(s), len = s.l / runs, size = (s.k + s.r) * s.l;
    size_t vars = count * runs, eqs = s.r * runs;
    uint8_t *whole = malloc(size), *d = malloc(s.r * s.l);
    matrix m;

    memcpy(whole, stripe, size);
    for (size_t v = 0; v < count; v++)
        memset(whole + lost[v] * s.l, 0, s.l);
    disagreement(s, whole, d);
    coefficients(s, lost, count, m);
    int found = solve(m, eqs, vars, d, len);
    for (size_t v = 0; found && v < vars; v++)
        memcpy(stripe + lost[v / runs] * s.l + v % runs * len, d + v * len, len);
    free(whole);
    free(d);
    return found ? 0 : 8;
}

void off_in_one_equation(struct shape s, const uint16_t *columns, uint64_t place, uint64_t number, uint8_t *stripe)
{
    uint8_t off[MOST] = {0};
    matrix m;
    coefficients(s, columns, s.r, m);
    off[number] = 1;
    solve(m, s.r, s.r, off, 1);
    for (uint64_t v = 0; v < s.r; v++)
        stripe[columns[v] * s.l + place] ^= off[v];
}

/* ---- the plan and the fold ---- */

char kind(struct fold w)
{
    if (w.s.t != 0)
        return 'B';
    return w.f <= w.s.r && w.f <= w.s.k ? 'A' : 'C';
}

size_t plan(struct fold w, struct span *spans)
{
    struct shape s = w.s;
    size_t count = 0;
    for (uint64_t l = 0; l < w.n; l++)
        for (uint64_t c = 0; c < s.k + s.r; c++) {
            uint64_t first = 0, length = s.l;
            if (kind(w) == 'A' && (c < s.k || c >= s.k + w.f))
                continue;
            if (kind(w) == 'C' && c >= s.k)
                continue;
            if (kind(w) == 'B' && c < s.k) {
                first = s.r * (s.l / s.t);
                length = s.l - first;
            }
            spans[count++] = (struct span){(uint32_t)l, (uint32_t)c, (uint32_t)first, (uint32_t)length};
        }
    return count;
}

size_t bytes_read(struct fold w)
{
    struct span spans[MAX_SPANS];
    size_t count = plan(w, spans), bytes = 0;
    for (size_t i = 0; i < count; i++)
        bytes += spans[i].length;
    return bytes;
}

/* Document 01's sums, stripe by stripe. */
static void fold_rows(struct fold w, const uint8_t *stripes, uint8_t *parity)
{
    struct shape s = w.s;
    size_t size = (s.k + s.r) * s.l;
    for (uint64_t l = 0; l < w.n; l++)
        for (uint64_t j = 0; j < w.f; j++) {
            const uint8_t *data = stripes + l * size, *narrow = data + s.k * s.l;
            uint8_t weight = power_of_g(j * s.k * l), *wide = parity + j * s.l;
            if (kind(w) == 'A')
                add(weight, narrow + j * s.l, s.l, wide);
            if (kind(w) == 'C')
                add_row(weight, j, s.k, data, s.l, s.l, wide);
            if (kind(w) == 'B')
                for (uint64_t b = 0; b < s.t; b++) {
                    size_t len = s.l / s.t;
                    uint8_t *here = wide + b * len;
                    if (b >= s.r) {
                        add_row(weight, j, s.k, data + b * len, s.l, len, here);
                    } else if (j < s.r) {
                        add(weight, narrow + j * s.l + b * len, len, here);
                    } else {
                        add(weight, narrow + b * s.l + j * len, len, here);
                        add_row(weight, b, s.k, data + j * len, s.l, len, here);
                    }
                }
        }
}

/* The new parity's sums, and then that parity. Kind A: sum e is the sum over the stripes l of g^(k*l*e) times that of stripe l's
 * parity. Kind C: it is that of all the data in order. */
static void fold_checks(struct fold w, const uint8_t *stripes, uint8_t *parity)
{
    struct shape s = w.s, no_data = {0, s.r, 0, s.l};
    size_t size = (s.k + s.r) * s.l;
    uint8_t *sums = malloc(s.r * s.l);
    for (uint64_t l = 0; l < w.n; l++) {
        const uint8_t *data = stripes + l * size;
        if (kind(w) == 'A') {
            check_sums(no_data, s.r, data + s.k * s.l, sums);
            for (uint64_t e = 0; e < s.r; e++)
                add(power_of_g(s.k * l * e), sums + e * s.l, s.l, parity + e * s.l);
        } else {
            for (uint64_t i = 0; i < s.k; i++)
                add_checks(power_of_g(s.k * l + i), s.r, data + i * s.l, s.l, parity);
        }
    }
    parity_of_sums(s.r, s.l, parity);
    free(sums);
}

/* The bytes read are put where they came from, in stripes whose other bytes are rubbish. */
void fold(struct fold w, const uint8_t *read, uint8_t *parity)
{
    struct shape s = w.s;
    struct span spans[MAX_SPANS];
    size_t count = plan(w, spans), size = (s.k + s.r) * s.l;
    uint8_t *stripes = malloc(w.n * size);

    memset(stripes, 0xEE, w.n * size);
    for (size_t i = 0; i < count; i++) {
        memcpy(stripes + spans[i].stripe * size + spans[i].position * s.l + spans[i].first, read, spans[i].length);
        read += spans[i].length;
    }
    memset(parity, 0, w.f * s.l);
    if (by_checks(s))
        fold_checks(w, stripes, parity);
    else
        fold_rows(w, stripes, parity);
    free(stripes);
}

/* ---- refusals ---- */

static unsigned line(unsigned number, int holds) { return holds ? 1u << number : 0; }

/* Whether len = a * b, with no product formed. */
static int is_product(uint64_t len, uint64_t a, uint64_t b) { return a == 0 ? len == 0 : len % a == 0 && len / a == b; }

uint32_t first_line(unsigned lines)
{
    uint32_t n = 0;
    while (lines != 0 && (lines >> n & 1) == 0)
        n++;
    return n;
}

unsigned shape_lines(struct shape s)
{
    int k = s.k >= 1 && s.k <= 255, r = s.r >= 1 && s.r <= MAX_PARITY, t = s.t == 0 || (s.r < s.t && s.t <= 3 && s.t <= s.k);
    int l = s.l >= 1 && s.l <= 4096 && (s.t == 0 || s.l % s.t == 0);
    int points = !by_checks(s) || (s.t == 0 && s.k + s.r <= 255);      /* for every position another */
    return line(1, !(k && r && t && points)) | line(2, !l);
}

unsigned encode_lines(struct shape s, size_t data_len, size_t parity_len)
{
    unsigned lines = shape_lines(s);
    return lines | line(5, !is_product(data_len, s.k, s.l) || !is_product(parity_len, s.r, s.l));
}

unsigned mend_lines(struct shape s, const uint8_t *stripe, size_t stripe_len, const uint8_t *lost, size_t lost_len)
{
    unsigned lines = shape_lines(s);
    if (lines & line(1, 1))                                    /* n is no number of columns */
        return lines;
    uint16_t *list = malloc(lost_len + 2);
    size_t count = lost_len / 2;
    uint64_t n = s.k + s.r;
    int orderly = count <= n;
    for (size_t v = 0; v < count; v++) {
        list[v] = (uint16_t)(lost[2 * v] + 256 * lost[2 * v + 1]);
        orderly = orderly && list[v] < n && (v == 0 || list[v - 1] < list[v]);
    }
    lines |= line(5, !is_product(stripe_len, n, s.l) || lost_len % 2 != 0) | line(6, !orderly) | line(7, count > s.r);
    if (lines == 0) {
        uint8_t *copy = malloc(stripe_len);
        memcpy(copy, stripe, stripe_len);
        lines = line(8, mend(s, copy, list, count) == 8);
        free(copy);
    }
    free(list);
    return lines;
}

unsigned plan_lines(struct fold w)
{
    uint64_t beside = by_checks(w.s) && w.s.r <= MAX_PARITY ? w.s.r : 0;       /* positions that count beside the data columns */
    int n = w.n >= 2 && w.n <= 255 && (w.s.k > 255 || w.n * w.s.k + beside <= 255);
    int f = by_checks(w.s) ? w.f == w.s.r : w.f >= 1 && w.f <= 3 && (w.s.t == 0 || w.f == w.s.t);
    return shape_lines(w.s) | line(3, !n) | line(4, !f);
}

unsigned fold_lines(struct fold w, size_t read_len, size_t parity_len)
{
    unsigned lines = plan_lines(w);
    if ((lines & ~line(4, 1)) == 0)                            /* f times L has a meaning, and the plan too if f is allowed */
        lines |= line(5, !is_product(parity_len, w.f, w.s.l) || (lines == 0 && read_len != bytes_read(w)));
    return lines;
}

unsigned spans_lines(struct fold w, size_t spans_len)
{
    struct span spans[MAX_SPANS];
    unsigned lines = plan_lines(w);
    if (lines == 0)
        lines = line(5, spans_len < plan(w, spans));
    else if (spans_len == 0)                                   /* shorter than any plan */
        lines |= line(5, 1);
    return lines;
}
