/* The worked stripes of document 01, starred or not, its table of bytes read, and stripes of request 6. */
#include "code.h"

#include <stdio.h>
#include <string.h>

static int wrong;

static void hold(int holds, const char *what)
{
    if (!holds) {
        wrong++;
        printf("worked: not so: %s\n", what);
    }
}

static int same(const uint8_t *got, const char *hex)
{
    unsigned b;
    for (size_t i = 0; hex[2 * i] != 0; i++)
        if (sscanf(hex + 2 * i, "%2x", &b) != 1 || got[i] != b)
            return 0;
    return 1;
}

static uint32_t shape_refusal(uint64_t k, uint64_t r, uint64_t t, uint64_t l) { return first_line(shape_lines((struct shape){k, r, t, l})); }

static uint32_t fold_refusal(uint64_t k, uint64_t r, uint64_t n, uint64_t f) { return first_line(plan_lines((struct fold){{k, r, 0, 1}, n, f})); }

static uint32_t plan_refusal(uint64_t k, uint64_t n) { return fold_refusal(k, 1, n, 1); }

static uint32_t record_refusal(const char *rec, size_t len)
{
    static uint8_t stripe[65536];
    uint16_t lost[MAX_LOST];
    size_t count;
    struct shape s;
    return read_record((const uint8_t *)rec, len, &s, lost, &count, stripe);
}

static void field(void)
{
    int seen[256] = {0};
    hold(times(0x02, 0x80) == 0x1D, "02 times 80 is 1D");
    hold(power_of_g(255) == 1, "g^255 is 01");
    for (unsigned e = 0; e < 255; e++)
        seen[power_of_g(e)]++;
    for (unsigned b = 0; b < 256; b++)
        hold(seen[b] == (b != 0), "the powers of g are all the non-zero bytes, each once");
}

static void stripes(void)
{
    struct shape plain = {2, 3, 0, 1}, prepared = {2, 1, 2, 2}, four = {4, 2, 0, 1};
    struct fold two = {plain, 2, 2}, three = {plain, 2, 3}, runs = {prepared, 2, 2};
    struct span spans[MAX_SPANS];
    uint8_t p[8], stale[6] = {0x05, 0x06, 0x03, 0x04, 0x04, 0x29};
    uint16_t lost[2] = {0, 3};

    encode(plain, (const uint8_t *)"\x01\x02", p);
    hold(same(p, "030509"), "parity of 01 02");
    encode(plain, (const uint8_t *)"\x03\x04", p);
    hold(same(p, "070B13"), "parity of 03 04");
    fold(two, (const uint8_t *)"\x03\x05\x07\x0B", p);
    hold(same(p, "0429"), "those two folded with f=2");
    hold(bytes_read(two) == 4 && plan(two, spans) == 4 && kind(two) == 'A', "4 bytes and 4 columns read");
    fold(three, (const uint8_t *)"\x01\x02\x03\x04", p);
    hold(same(p, "042924") && kind(three) == 'C', "with f=3, kind C");

    encode(prepared, (const uint8_t *)"\x01\x03\x02\x04", p);
    hold(same(p, "0302"), "parity of 01 03 and 02 04, prepared");
    encode(prepared, (const uint8_t *)"\x05\x07\x06\x08", p);
    hold(same(p, "0306"), "parity of 05 07 and 06 08, prepared");
    fold(runs, (const uint8_t *)"\x03\x04\x03\x02\x07\x08\x03\x06", p);
    hold(same(p, "00082157"), "those two folded with f=2");
    hold(bytes_read(runs) == 8 && plan(runs, spans) == 6 && kind(runs) == 'B', "8 bytes and 6 columns read");
    hold(bytes_read((struct fold){{4, 1, 2, 2}, 2, 2}) == 12 && plan((struct fold){{4, 1, 2, 2}, 2, 2}, spans) == 10, "12 bytes, 10 columns");
    hold(plan((struct fold){{4, 2, 0, 1}, 3, 2}, spans) == 6, "k=4, r=2, t=0, N=3, f=2: 6 columns");

    hold(mend(four, stale, lost, 1) == 8 && same(stale, "050603040429"), "a stale column 1: refused 8, nothing written");
    hold(mend(four, stale, lost, 2) == 0 && same(stale + 1, "0603") && same(stale + 4, "0429"), "with 0 and 3 lost it isn't refused");
    hold(mend(four, stale, lost, 0) == 0, "and a codeword comes out");
}

/* r above 3, given by check equations. */
static void stripes_by_checks(void)
{
    struct shape four = {4, 4, 0, 1}, two = {2, 4, 0, 1}, wide = {8, 4, 0, 1};
    struct fold from_parity = {four, 2, 4}, from_data = {two, 2, 4};
    struct span spans[MAX_SPANS];
    uint8_t p[4], stripe[12] = {1, 2, 3, 4, 5, 6, 7, 8};
    uint16_t lost[4] = {0, 3, 4, 5};

    encode(four, (const uint8_t *)"\x01\x02\x03\x04", p);
    hold(same(p, "609B1CE3"), "parity of 01 02 03 04 with r=4");
    encode(four, (const uint8_t *)"\x05\x06\x07\x08", p);
    hold(same(p, "77004B30"), "parity of 05 06 07 08 with r=4");
    fold(from_parity, (const uint8_t *)"\x60\x9B\x1C\xE3\x77\x00\x4B\x30", p);
    hold(same(p, "7C16ABC9"), "those two folded with f=4");
    hold(bytes_read(from_parity) == 8 && plan(from_parity, spans) == 8 && kind(from_parity) == 'A', "8 bytes and 8 columns read");
    encode(wide, stripe, stripe + 8);
    hold(same(stripe + 8, "7C16ABC9"), "it is the parity of all eight");

    encode(two, (const uint8_t *)"\x01\x02", p);
    hold(same(p, "C998C193"), "parity of 01 02 with r=4");
    encode(two, (const uint8_t *)"\x03\x04", p);
    hold(same(p, "801BE77B"), "parity of 03 04 with r=4");
    fold(from_data, (const uint8_t *)"\x01\x02\x03\x04", p);
    hold(same(p, "609B1CE3"), "those two folded with f=4");
    hold(bytes_read(from_data) == 4 && plan(from_data, spans) == 4 && kind(from_data) == 'C', "4 bytes and 4 columns read, kind C");

    fold(from_parity, (const uint8_t *)"\x34\x17\x5B\x7D\x76\x00\x4B\x30", p);
    hold(same(p, "7C16ABC9"), "stripe 0 off by 54 8C 47 9E and stripe 1 by 01 00 00 00: a wide codeword");

    stripe[0] = stripe[3] = stripe[4] = stripe[5] = 0xEE;
    hold(mend(wide, stripe, lost, 4) == 0 && same(stripe, "01020304050607087C16ABC9"), "columns 0, 3, 4 and 5 mended");
    stripe[1] = 0x06;
    hold(mend(wide, stripe, lost, 3) == 8 && same(stripe, "01060304050607087C16ABC9"), "a stale column 1: refused 8, nothing written");
    hold(mend(wide, stripe, lost, 4) == 0 && mend(wide, stripe, lost, 0) == 0, "with four lost it isn't refused, and a codeword comes out");
}

static void refusals(void)
{
    hold(shape_refusal(255, 3, 0, 1) == 0, "k=255, r=3 is allowed");
    hold(shape_refusal(256, 3, 0, 1) == 1, "k=256: 1");
    hold(plan_refusal(127, 2) == 0, "N=2, k=127 allowed");
    hold(plan_refusal(128, 2) == 3, "k=128: 3");
    hold(plan_refusal(1, 1) == 3, "N=1: 3");
    hold(shape_refusal(4, 2, 2, 2) == 1, "r=2, t=2: 1");
    hold(shape_refusal(1, 1, 2, 2) == 1, "k=1, r=1, t=2: 1");
    hold(shape_refusal(2, 1, 2, 3) == 2, "t=2, L=3: 2");
    hold(shape_refusal(4, 0, 0, 1) == 1 && shape_refusal(4, MAX_PARITY + 1, 0, 1) == 1, "r=0, r above the limit: 1");
    hold(fold_refusal(4, 3, 2, 4) == 4, "r=3, f=4: 4");
    hold(fold_refusal(4, 3, 63, 3) == 0 && fold_refusal(85, 3, 3, 3) == 0, "N*k+r above 255 with r=3 is allowed");
}

static void refusals_by_checks(void)
{
    hold(shape_refusal(251, 4, 0, 1) == 0 && shape_refusal(239, 16, 0, 1) == 0, "k+r=255 is allowed");
    hold(shape_refusal(252, 4, 0, 1) == 1 && shape_refusal(240, 16, 0, 1) == 1, "k+r=256 with r above 3: 1");
    hold(shape_refusal(4, 17, 0, 1) == 1, "r=17: 1");
    hold(shape_refusal(8, 4, 2, 2) == 1 && shape_refusal(8, 4, 8, 8) == 1, "r=4, t not 0: 1");
    hold(fold_refusal(1, 4, 251, 4) == 0 && fold_refusal(1, 4, 252, 4) == 3, "N*k+r=255 is allowed; 256: 3");
    hold(fold_refusal(4, 4, 2, 3) == 4 && fold_refusal(4, 4, 2, 5) == 4, "r=4, f=3 or f=5: 4");
}

static char text[MAX_TEXT];

static void records(void)
{
    uint8_t number[5];
    hold(write_number(300, number) == 2 && same(number, "AC02"), "300 is written AC 02");
    hold(record_refusal("\x80\x00\x01\x00\x01", 5) == 9, "80 00 is refused 9");
    hold(record_refusal("", 0) == 9, "an empty record: 9");
    program_text((const uint8_t *)"\x04\x02\x00\x01\x02\x00\x03\x02\x03\x04\x29", 11, text);
    hold(strcmp(text, "stripe 4 2 0 1\n0 mended 01\n1 kept 02\n2 kept 03\n3 mended 04\n4 kept 04\n5 kept 29\n") == 0, "the mending program's text");
}

static void text_by_checks(void)
{
    program_text((const uint8_t *)"\x02\x04\x00\x01\x04\x00\x01\x02\x05\x98\xC1", 11, text);
    hold(strcmp(text, "stripe 2 4 0 1\n0 mended 01\n1 mended 02\n2 mended c9\n3 kept 98\n4 kept c1\n5 mended 93\n") == 0, "the mending program's text with r=4");
}

/* Every allowed plan's sum of span lengths against the table's formula, at the shortest L. */
static void formulas(void)
{
    struct span spans[MAX_SPANS];
    struct fold w = {{0, 0, 0, 6}, 0, 0};
    size_t longest = 0;
    for (w.s.k = 1; w.s.k <= 127; w.s.k++)
        for (w.s.r = 1; w.s.r <= MAX_PARITY; w.s.r++)
            for (w.s.t = 0; w.s.t <= 3; w.s.t++)
                for (w.n = 2; w.n * w.s.k <= 255; w.n++)
                    for (w.f = 1; w.f <= MAX_PARITY; w.f++) {
                        uint64_t k = w.s.k, r = w.s.r, t = w.s.t, l = w.s.l, n = w.n;
                        if (plan_lines(w) != 0)
                            continue;
                        size_t count = plan(w, spans);
                        longest = count > longest ? count : longest;
                        hold(bytes_read(w) == (kind(w) == 'A' ? n * w.f * l : kind(w) == 'B' ? n * (r * t + k * (t - r)) * (l / t) : n * k * l),
                             "the table's bytes read in all");
                    }
    hold(longest == MAX_SPANS, "the longest plan has 425 spans");
}

int worked(void)
{
    field();
    stripes();
    refusals();
    records();
    formulas();
    if (MAX_PARITY > 3) {
        stripes_by_checks();
        refusals_by_checks();
        text_by_checks();
    }
    return wrong;
}
