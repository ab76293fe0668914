/* Stripe records, and what the mending program prints for one. */
#include "code.h"

#include <stdio.h>
#include <string.h>

struct input { const uint8_t *rec; size_t len, at; };

/* The next number; 0 where it is malformed, above 2^32-1, or cut. */
static int number(struct input *in, uint64_t *v)
{
    *v = 0;
    for (int group = 0; group < 5 && in->at < in->len; group++) {
        uint8_t b = in->rec[in->at++];
        *v += (uint64_t)(b & 127) << 7 * group;
        if (b < 128)
            return (b != 0 || group == 0) && *v <= 0xFFFFFFFF;
    }
    return 0;
}

/* Front to back: each number as it comes, the shape after the fourth, the lost positions, the columns, the end. */
uint32_t read_record(const uint8_t *rec, size_t len, struct shape *s, uint16_t *lost, size_t *count, uint8_t *stripe)
{
    struct input in = {rec, len, 0};
    uint64_t v, n;
    uint16_t list[MAX_LOST];
    if (len > MAX_RECORD)
        return 5;
    if (!number(&in, &s->k) || !number(&in, &s->r) || !number(&in, &s->t) || !number(&in, &s->l))
        return 9;
    if (shape_lines(*s) != 0)
        return first_line(shape_lines(*s));
    n = s->k + s->r;
    if (n * s->l > 65536)
        return 5;
    if (!number(&in, &v))
        return 9;
    if (v > n)
        return 6;
    *count = v;
    for (size_t i = 0; i < *count; i++) {
        if (!number(&in, &v))
            return 9;
        if (v >= n || (i > 0 && v <= list[i - 1]))
            return 6;
        list[i] = (uint16_t)v;
    }
    size_t surviving = (n - *count) * s->l;
    if (len - in.at < surviving)
        return 9;
    if (len - in.at > surviving)
        return 10;
    memcpy(lost, list, *count * sizeof *list);
    for (uint64_t c = 0, i = 0; c < n; c++) {
        if (i < *count && list[i] == c) {
            i++;
            continue;
        }
        memcpy(stripe + c * s->l, rec + in.at, s->l);
        in.at += s->l;
    }
    return 0;
}

size_t write_number(uint32_t v, uint8_t *out)
{
    size_t len = 0;
    for (; v >= 128; v /= 128)
        out[len++] = (uint8_t)(v % 128 + 128);
    out[len++] = (uint8_t)v;
    return len;
}

/* For an allowed shape and an ascending list; the caller sees to the length. */
size_t write_record(struct shape s, const uint8_t *stripe, const uint16_t *lost, size_t count, uint8_t *out)
{
    size_t len = 0;
    len += write_number((uint32_t)s.k, out + len);
    len += write_number((uint32_t)s.r, out + len);
    len += write_number((uint32_t)s.t, out + len);
    len += write_number((uint32_t)s.l, out + len);
    len += write_number((uint32_t)count, out + len);
    for (size_t i = 0; i < count; i++)
        len += write_number(lost[i], out + len);
    for (uint64_t c = 0, i = 0; c < s.k + s.r; c++) {
        if (i < count && lost[i] == c) {
            i++;
            continue;
        }
        memcpy(out + len, stripe + c * s.l, s.l);
        len += s.l;
    }
    return len;
}

size_t program_text(const uint8_t *rec, size_t len, char *text)
{
    static uint8_t stripe[65536];
    uint16_t lost[MAX_LOST];
    struct shape s;
    size_t count, at = 0;
    uint32_t refused = read_record(rec, len, &s, lost, &count, stripe);
    if (refused == 0 && count > s.r)
        refused = 7;
    if (refused == 0)
        refused = (uint32_t)mend(s, stripe, lost, count);
    if (refused != 0)
        return (size_t)sprintf(text, "refused %u\n", (unsigned)refused);
    at += (size_t)sprintf(text, "stripe %u %u %u %u\n", (unsigned)s.k, (unsigned)s.r, (unsigned)s.t, (unsigned)s.l);
    for (uint64_t c = 0, i = 0; c < s.k + s.r; c++) {
        int was_lost = i < count && lost[i] == c;
        i += was_lost;
        at += (size_t)sprintf(text + at, "%u %s ", (unsigned)c, was_lost ? "mended" : "kept");
        for (uint64_t p = 0; p < s.l; p++)
            at += (size_t)sprintf(text + at, "%02x", (unsigned)stripe[c * s.l + p]);
        text[at++] = '\n';
    }
    text[at] = 0;
    return at;
}
