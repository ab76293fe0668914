/* Records through the mending program, block by block: each eighth block through mend, one process for each record, the others through
 * mends, the same over many files, since a process takes its time to start where it is emulated. */
#define _POSIX_C_SOURCE 200809L
#include "records.h"
#include "random.h"

#include <stdio.h>
#include <stdlib.h>
#include <string.h>

#define FOLDER "target/second/records"
enum { BLOCK = 20 };

uint64_t record_answers[11], records_by_checks, records_alone;

uint8_t rec[1 << 18];

static size_t shape_numbers(struct shape s, uint8_t *out)
{
    size_t len = write_number((uint32_t)s.k, out);
    len += write_number((uint32_t)s.r, out + len);
    len += write_number((uint32_t)s.t, out + len);
    return len + write_number((uint32_t)s.l, out + len);
}

/* Other bytes in the place of the first `old` bytes of a record. */
static size_t replace_front(size_t len, size_t old, const uint8_t *front, size_t size)
{
    memmove(rec + size, rec + old, len - old);
    memcpy(rec, front, size);
    return len - old + size;
}

static uint32_t edge(void)
{
    static const uint32_t edges[] = {0, 1, 2, 3, 4, 16, 17, 127, 128, 255, 256, 257, 4096, 4097, 0xFFFFFFFF};
    return below(4) == 0 ? (uint32_t)any() >> below(32) : edges[below(sizeof edges / sizeof *edges)];
}

/* A lost list: up to r positions; fewer for 8, more for 7; out of order, past the end, or too long for 6. */
static size_t lost_list(struct shape s, int due, uint16_t *lost)
{
    size_t total = due == 7 ? s.r + 1 + below(s.k) : any_total(due == 8 ? s.r - 1 : s.r);
    size_t count = any_lost_of(s, total, lost);
    if (due == 6 && count > 0 && below(2) == 0)
        lost[below(count)] = (uint16_t)(below(2) == 0 ? s.k + s.r : lost[count - 1]), lost[count++] = (uint16_t)(s.k + s.r - 1);
    else if (due == 6)
        for (count = 0; count <= s.k + s.r; count++)
            lost[count] = (uint16_t)count;
    return count;
}

size_t any_record(int due)
{
    static uint8_t stripe[65536], front[64];
    static const char *const malformed[] = {"\x84\x00", "\xFF\xFF\xFF\xFF\x1F", "\x80\x80\x80\x80\x80\x01", "\xFF\xFF\xFF\xFF\xFF\x01"};
    static const size_t sizes[] = {2, 5, 6, 6};
    uint16_t lost[MAX_LOST + 2];
    struct shape s, other;
    do
        s = any_shape();
    while ((s.k + s.r) * s.l > 60000);
    fill(stripe, s.k * s.l);
    encode(s, stripe, stripe + s.k * s.l);
    size_t count = lost_list(s, due, lost);
    if (due == 8)
        stripe[below((s.k + s.r) * s.l)] ^= (uint8_t)(1 + below(255));
    size_t len = write_record(s, stripe, lost, count, rec), head = shape_numbers(s, front), which;
    other = s;
    switch (due) {
    case 1:
        *(below(3) == 0 ? &other.k : below(2) == 0 ? &other.r : &other.t) = edge();
        if (s.r > 3 && below(2) == 0)
            other = (struct shape){below(2) == 0 ? s.k : 256 - s.r, s.r, below(4), s.l};
        return replace_front(len, head, front, shape_numbers(other, front));
    case 2:
        other.l = edge();
        return replace_front(len, head, front, shape_numbers(other, front));
    case 5:
        other = (struct shape){s.k < 30 ? 30 : s.k, s.r, s.t, s.t == 3 ? 4095 : 4096};
        return below(2) == 0 ? 65536 + below(3) : replace_front(len, head, front, shape_numbers(other, front));
    case 9:
        if (below(2) == 0)
            return below(below(2) == 0 && len > 8 ? 8 : len);
        which = below(4);
        return replace_front(len, below(2), (const uint8_t *)malformed[which], sizes[which]);
    case 10:
        fill(rec + len, 40);
        return len + 1 + below(40);
    default: return len;
    }
}

/* What the program prints for the records of a block, the texts one after another: mend, a process for each, or mends, one for all. */
static size_t run_program(int alone, char *text, size_t room)
{
    const char *program = getenv(alone ? "SECOND_PROGRAM" : "SECOND_PROGRAMS");
    char line[4096];
    if (program == NULL) {
        fprintf(stderr, "second: no program\n");
        exit(2);
    }
    snprintf(line, sizeof line, alone ? "for f in " FOLDER "/*; do %s <$f; done" : "%s " FOLDER "/*", program);
    FILE *from = popen(line, "r");
    size_t got = from == NULL ? 0 : fread(text, 1, room, from);
    if (from != NULL)
        pclose(from);
    return got;
}

static void keep_record(unsigned number, size_t len)
{
    char name[64];
    snprintf(name, sizeof name, FOLDER "/%02u", number);
    FILE *to = fopen(name, "wb");
    if (to == NULL || fwrite(rec, 1, len, to) != len || fclose(to) != 0) {
        fprintf(stderr, "second: no place for a record\n");
        exit(2);
    }
}

uint64_t compare_records(uint64_t count)
{
    static const int dues[BLOCK] = {0, 0, 0, 1, 2, 5, 6, 7, 8, 8, 9, 9, 9, 9, 9, 10, 10, 10, 10, 10};
    static char texts[BLOCK * MAX_TEXT], want[MAX_TEXT], wants[BLOCK * MAX_TEXT];
    uint64_t differences = 0;
    for (uint64_t block = 0; block < count / BLOCK; block++) {
        int alone = block % 8 == 0 || getenv("SECOND_PROGRAMS") == NULL;
        size_t ends[BLOCK], end = 0;
        for (unsigned i = 0; i < BLOCK; i++) {
            size_t len = any_record(dues[i]), size = program_text(rec, len, want);
            unsigned refused = 0, r = 0;
            sscanf(want, "refused %u", &refused);
            sscanf(want, "stripe %*u %u", &r);
            record_answers[refused]++;
            records_by_checks += r > 3;
            keep_record(i, len);
            memcpy(wants + end, want, size);
            ends[i] = end += size;
        }
        records_alone += alone ? BLOCK : 0;
        size_t got = run_program(alone, texts, sizeof texts - 1), at = 0, i = 0;
        while (at < got && at < end && texts[at] == wants[at])
            at++;
        if (got == end && at == end)
            continue;
        while (i < BLOCK - 1 && ends[i] <= at)
            i++;
        texts[got] = wants[end] = 0;
        if (differences++ < 10)
            printf("DIFFERENCE %s, record %lu of block %lu: at %.40s, not %.40s\n", alone ? "mend" : "mends", (unsigned long)i, (unsigned long)block, texts + at, wants + at);
    }
    return differences;
}
