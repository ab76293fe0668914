/* Two sittings and the fold at once, each by calls of the archive that are handed what their own plan names of the stripes as they lie;
 * the second sitting finds the parity that the first one wrote. */
#include "sittings.h"
#include "call.h"
#include "random.h"

#include <inttypes.h>
#include <stdio.h>
#include <stdlib.h>
#include <string.h>

const char *const kinds_of_sittings[KINDS] = {"AA/A", "CA/C", "CC/C", "BA/B", "AC/C", "AC/A", "CA/A"};
uint64_t sittings_tried[2][KINDS], sittings_of_r[MAX_PARITY + 1], sittings_hid, sittings_steps[STEPS];

struct sittings { struct shape s; uint64_t n1, f1, n2, f2; };

/* What the stripes hold: their own parity; the same but for one parity byte that the fold at once reads, if it reads any; any bytes. */
enum bytes { CODEWORDS, ONE_STALE, ANY_BYTES };

static struct fold first_of(struct sittings w) { return (struct fold){w.s, w.n1, w.f1}; }
static struct fold second_of(struct sittings w) { return (struct fold){{w.n1 * w.s.k, w.f1, 0, w.s.l}, w.n2, w.f2}; }
static struct fold at_once(struct sittings w) { return (struct fold){w.s, w.n1 * w.n2, w.f2}; }

static size_t data_bytes(struct fold w) { return w.s.k * w.s.l; }
static size_t stripe_bytes(struct fold w) { return (w.s.k + w.s.r) * w.s.l; }
static size_t wide_bytes(struct fold w) { return (w.n * w.s.k + w.f) * w.s.l; }

/* What the limit of 255 leaves to the data columns. */
static uint64_t most_data(uint64_t r) { return r > 3 ? 255 - r : 255; }

static uint64_t differences;

static void hold(int holds, struct sittings w, const char *what)
{
    if (!holds && differences++ < 10)
        printf("DIFFERENCE two sittings k=%" PRIu64 " r=%" PRIu64 " t=%" PRIu64 " L=%" PRIu64 " N1=%" PRIu64 " f1=%" PRIu64 " N2=%" PRIu64 " f2=%" PRIu64
               ": not so: %s\n", w.s.k, w.s.r, w.s.t, w.s.l, w.n1, w.f1, w.n2, w.f2, what);
}

/* ---- the calls ---- */

/* The answer of a call that is lent up to two buffers; all ones where it wrote beside them. */
static uint64_t answer_of(enum op op, struct fold w, void *one, uint64_t one_len, uint8_t *two, uint64_t two_len)
{
    struct call c = {.op = op, .num = {w.s.k, w.s.r, w.s.t, w.s.l, w.n, w.f}, .len = {one_len, two_len}, .shift = {4 * below(16), below(64)}};
    make_call(&c, (uint8_t *const[LENT]){one, two, NULL, NULL});
    return c.stray == 0 ? c.answer : ~(uint64_t)0;
}

/* Folds `groups` times as many stripes as the fold takes, one group after the other: the wide stripes, with their data in order. 1 where
 * every call did it. */
static int folded(struct fold w, uint64_t groups, const uint8_t *stripes, uint8_t *wide)
{
    struct span spans[MAX_SPANS], wanted[MAX_SPANS];
    size_t count = plan(w, wanted), size = stripe_bytes(w), all = w.n * data_bytes(w);
    uint8_t *read = malloc(bytes_read(w));
    int done = answer_of(PLAN_SPANS, w, spans, count * sizeof *spans, NULL, 0) == 0 && memcmp(spans, wanted, count * sizeof *spans) == 0;
    for (uint64_t h = 0; done && h < groups; h++, stripes += w.n * size, wide += wide_bytes(w)) {
        size_t at = 0;
        for (uint64_t l = 0; l < w.n; l++)
            memcpy(wide + l * data_bytes(w), stripes + l * size, data_bytes(w));
        for (size_t i = 0; i < count; at += spans[i++].length)
            memcpy(read + at, stripes + spans[i].stripe * size + spans[i].position * w.s.l + spans[i].first, spans[i].length);
        done = answer_of(FOLD, w, read, at, wide + all, w.f * w.s.l) == 0;
    }
    free(read);
    return done;
}

static int in_two_sittings(struct sittings w, const uint8_t *stripes, uint8_t *wide)
{
    uint8_t *halves = malloc(w.n2 * wide_bytes(first_of(w)));
    int done = folded(first_of(w), w.n2, stripes, halves) && folded(second_of(w), 1, halves, wide);
    free(halves);
    return done;
}

/* ---- the bytes ---- */

struct stale { uint64_t stripe, column, place; uint8_t by; };

/* Fills the stripes, and says which byte is stale if one is. */
static struct stale fill_stripes(struct sittings w, enum bytes bytes, uint8_t *stripes)
{
    struct shape s = w.s;
    size_t size = stripe_bytes(first_of(w));
    struct stale x = {below(w.n1 * w.n2), below(s.r < w.f2 ? s.r : w.f2), below(s.l), (uint8_t)(1 + below(255))};
    for (uint64_t l = 0; l < w.n1 * w.n2; l++) {
        fill(stripes + l * size, size);
        if (bytes != ANY_BYTES)
            encode(s, stripes + l * size, stripes + l * size + s.k * s.l);
    }
    if (bytes == ONE_STALE)
        stripes[x.stripe * size + (s.k + x.column) * s.l + x.place] ^= x.by;
    return x;
}

/* Whether the two differ in the stale byte alone, which kind A carries on with the weight of its stripe. */
static int shows_stale(struct sittings w, struct stale x, const uint8_t *once, const uint8_t *two)
{
    int all = 1;
    for (uint64_t i = 0; i < w.f2 * w.s.l; i++)
        all &= (once[i] ^ two[i]) == (i == x.column * w.s.l + x.place ? times(power_of_g(x.column * w.s.k * x.stripe), x.by) : 0);
    return all;
}

/* Two sittings against the parity of all data, and the fold at once against both. */
static void compare_parity(struct sittings w, enum bytes bytes, struct stale x, const uint8_t *two, const uint8_t *once, const uint8_t *truth)
{
    size_t len = w.f2 * w.s.l;
    int by_data = kind(first_of(w)) == 'C' || kind(second_of(w)) == 'C', hides = by_data && kind(at_once(w)) == 'A';
    if (by_data || bytes == CODEWORDS)
        hold(memcmp(two, truth, len) == 0, w, by_data ? "by data, the parity of all data" : "codewords, the parity of all data");
    if (once == NULL)
        return;
    if (!hides || bytes == CODEWORDS)
        hold(memcmp(two, once, len) == 0, w, bytes == CODEWORDS ? "codewords, the same bytes as at once" : "for all bytes, the same as at once");
    if (bytes == ONE_STALE)
        hold((memcmp(once, truth, len) == 0) == (kind(at_once(w)) == 'C'), w, "a stale byte shows at once");
    if (bytes == ONE_STALE && hides) {
        hold(shows_stale(w, x, once, two), w, "the stale byte at once, and no other");
        sittings_hid++;
    }
}

/* The number of the kinds, where the fold at once is allowed; -1 where they can't occur. */
static int kinds_of(struct sittings w)
{
    char name[] = {kind(first_of(w)), kind(second_of(w)), '/', kind(at_once(w)), 0};
    int n = w.s.r > 3 ? KINDS_BY_CHECKS : KINDS;
    while (n-- > 0 && strcmp(kinds_of_sittings[n], name) != 0)
        continue;
    return n;
}

static void compare_bytes(struct sittings w, enum bytes bytes)
{
    struct fold once = at_once(w);
    size_t size = wide_bytes(once), data = once.n * data_bytes(once);
    int allowed = plan_lines(once) == 0;
    uint8_t *stripes = malloc(once.n * stripe_bytes(once)), *wide = malloc(3 * size), *other = wide + size, *truth = other + size;
    struct stale x = fill_stripes(w, bytes, stripes);
    int done = in_two_sittings(w, stripes, wide) && (!allowed || folded(once, 1, stripes, other));
    hold(done, w, "every call folds");
    if (done) {
        encode((struct shape){once.n * w.s.k, w.f2, 0, w.s.l}, wide, truth);
        compare_parity(w, bytes, x, wide + data, allowed ? other + data : NULL, truth);
        hold(!allowed || memcmp(wide, other, data) == 0, w, "all data in order");
    }
    free(stripes);
    free(wide);
}

/* ---- refusals ---- */

static uint64_t refusal_of(struct sittings w, struct fold x)
{
    uint64_t answer = answer_of(PLAN_REFUSAL, x, NULL, 0, NULL, 0);
    hold(answer == first_line(plan_lines(x)), w, "each refusal by document 01's table");
    return answer;
}

/* What two sittings may do, one fold may, of prepared stripes if f2 = t; and the other way, with any f1 that is allowed. Whether both
 * sittings are allowed. */
static int compare_refusals(struct sittings w)
{
    uint64_t one = refusal_of(w, first_of(w)), two = refusal_of(w, second_of(w)), once = refusal_of(w, at_once(w)), all = w.n1 * w.n2 * w.s.k;
    int both = one == 0 && two == 0, keeps = w.s.t == 0 || w.f2 == w.s.t, new_allowed = (plan_lines(first_of(w)) >> 4 & 1) == 0;
    if (both)
        hold(once == (keeps ? 0 : 4), w, keeps ? "what two sittings may, one fold may" : "one fold may not, as f2 is not t");
    if (once == 0 && w.n1 >= 2 && w.n2 >= 2 && new_allowed)
        hold(both, w, "what one fold may, two sittings may");
    sittings_steps[!both ? ONE_REFUSED : keeps ? BOTH_ALLOWED : ONLY_IN_TWO]++;
    sittings_steps[WIDEST_IN_TWO] += both && all == most_data(w.s.r);
    sittings_steps[TOO_WIDE_IN_TWO] += one == 0 && two == 3 && once == 3 && all == most_data(w.s.r) + 1;
    return both;
}

static void count_tried(struct sittings w)
{
    int n = kinds_of(w);
    hold(n >= 0, w, "kinds that can occur");
    if (n >= 0)
        sittings_tried[w.s.r > 3][n]++;
    sittings_of_r[w.s.r]++;
}

static void compare_both(struct sittings w)
{
    if (!compare_refusals(w))
        return;
    compare_bytes(w, CODEWORDS);
    compare_bytes(w, ONE_STALE);
    compare_bytes(w, ANY_BYTES);
    if (plan_lines(at_once(w)) == 0)
        count_tried(w);
}

/* ---- the cases ---- */

/* The smallest stripes of which two sittings do not make what one fold does: four of zeros, but for 01 in a parity column of the first. */
static void smallest(struct sittings w, uint64_t column, const char *two, const char *once)
{
    uint8_t stripes[16] = {0}, wide[10], other[10];
    stripes[w.s.k + column] = 1;
    hold(in_two_sittings(w, stripes, wide) && memcmp(wide + 8, two, w.f2) == 0, w, "the smallest, in two sittings");
    hold(folded(at_once(w), 1, stripes, other) && memcmp(other + 8, once, w.f2) == 0, w, "the smallest, at once");
}

/* Two or three stripes each time; f from 0 to 4, or around r where it must be r. */
static void small_sittings_of(struct shape s)
{
    uint64_t least = s.r > 3 ? s.r - 1 : 0, most = s.r > 3 ? s.r + 1 : 4;
    struct sittings w = {s, 0, 0, 0, 0};
    for (w.n1 = 2; w.n1 <= 3; w.n1++)
        for (w.n2 = 2; w.n2 <= 3; w.n2++)
            for (w.f1 = least; w.f1 <= most; w.f1++)
                for (w.f2 = least; w.f2 <= most; w.f2++)
                    compare_both(w);
}

/* Every shape of up to four data columns with r to 3, and of up to six with r from 4 to 6. */
static void small_sittings(void)
{
    struct shape s = {0, 0, 0, 6};
    for (s.r = 1; s.r <= 6; s.r++)
        for (s.t = 0; s.t <= 3; s.t++)
            for (s.k = 1; s.k <= (s.r > 3 ? 6 : 4); s.k++)
                if (shape_lines(s) == 0)
                    small_sittings_of(s);
}

/* Some number from 2 to `most`; mostly small, now and then the most. */
static uint64_t some_stripes(uint64_t most)
{
    switch (below(6)) {
    case 0: return most;
    case 1: return 2 + below(most - 1);
    default: return most < 5 ? most : 2 + below(3);
    }
}

/* Three numbers of which the product is this, if some tries find them; k is at least 3, as a mark may ask. */
static void of_product(uint64_t product, struct sittings *w)
{
    for (int tries = 0; tries < 500; tries++) {
        uint64_t n1 = 2 + below(30), n2 = 2 + below(30), k = product / n1 / n2;
        if (k >= 3 && k * n1 * n2 == product) {
            w->s.k = k;
            w->n1 = n1;
            w->n2 = n2;
        }
    }
}

/* Of any numbers for which both sittings are allowed. */
static struct sittings any_sittings(void)
{
    struct sittings w = {any_shape(), 0, 0, 0, 0};
    uint64_t all = most_data(w.s.r);
    if (w.s.k > all / 4)
        w.s.k = 3 + below(all / 4 - 2);
    w.n1 = some_stripes(all / w.s.k / 2);
    w.n2 = some_stripes(all / w.s.k / w.n1);
    w.f1 = w.s.r > 3 ? w.s.r : w.s.t != 0 ? w.s.t : 1 + below(3);
    w.f2 = w.s.r > 3 ? w.s.r : w.s.t != 0 && below(4) != 0 ? w.s.t : 1 + below(3);
    return w;
}

/* Of any numbers; the data columns are together as many as may be, and so many more, if there are such numbers. */
static struct sittings widest_sittings(uint64_t more)
{
    struct sittings w = any_sittings();
    of_product(most_data(w.s.r) + more, &w);
    return w;
}

/* Every kind in turn, those with r above 3 with each r in turn. */
static struct sittings sittings_of_turn(uint64_t turn)
{
    uint64_t all = MAX_PARITY > 3 ? KINDS + KINDS_BY_CHECKS : KINDS, n = turn % all, r = 4 + turn / all % (MAX_PARITY > 3 ? MAX_PARITY - 3 : 1);
    struct sittings w;
    do
        w = below(8) == 0 ? widest_sittings(0) : any_sittings();
    while (plan_lines(at_once(w)) != 0 || (n < KINDS ? w.s.r > 3 : w.s.r != r) || kinds_of(w) != (int)(n % KINDS));
    return w;
}

uint64_t compare_sittings(uint64_t count)
{
    smallest((struct sittings){{2, 2, 0, 1}, 2, 1, 2, 2}, 1, "\x00\x00", "\x00\x01");
    smallest((struct sittings){{2, 1, 0, 1}, 2, 2, 2, 1}, 0, "\x00", "\x01");
    small_sittings();
    for (uint64_t i = 0; i < count; i++) {
        compare_both(sittings_of_turn(i));
        compare_refusals(widest_sittings(1));
    }
    return differences;
}
