/* A call of the archive, each buffer between guard bytes. Freestanding, so that it compiles for x86-64 where no C library's headers
 * for it are at hand. */
#include "call.h"
#include "shelf.h"

enum { GUARD = 1024 };

static uint8_t arena[LENT][GUARD + MOST_BYTES + GUARD + 64] __attribute__((aligned(64)));

static uint8_t guard_byte(size_t i) { return (uint8_t)(i * 37 + 0xA5); }

/* The guards before and after the buffer, written, or counted where they changed. */
static uint64_t guards(uint8_t *at, size_t len, int write)
{
    uint64_t changed = 0;
    for (size_t i = 0; i < 2 * GUARD; i++) {
        uint8_t *g = i < GUARD ? at - GUARD + i : at + len + (i - GUARD);
        if (write)
            *g = guard_byte(i);
        changed += *g != guard_byte(i);
    }
    return changed;
}

static void copy(uint8_t *to, const uint8_t *from, size_t len)
{
    for (size_t i = 0; i < len; i++)
        to[i] = from[i];
}

static uint64_t answer_of(const uint64_t *m, enum op op, uint8_t *const p[LENT], const uint64_t n[LENT])
{
    void *q[LENT] = {p[0], p[1], p[2], p[3]};                  /* aligned for numbers where the call is lent such */
    switch (op) {
    case ENCODE: return shelf_encode(m[0], m[1], m[2], m[3], p[0], n[0], p[1], n[1]);
    case MEND: return shelf_mend(m[0], m[1], m[2], m[3], p[0], n[0], p[1], n[1]);
    case FOLD: return shelf_fold(m[0], m[1], m[2], m[3], m[4], m[5], p[0], n[0], p[1], n[1]);
    case PLAN_REFUSAL: return shelf_plan_refusal(m[0], m[1], m[2], m[3], m[4], m[5]);
    case PLAN_COLUMNS: return shelf_plan_columns_read(m[0], m[1], m[2], m[3], m[4], m[5]);
    case PLAN_BYTES: return shelf_plan_bytes_read(m[0], m[1], m[2], m[3], m[4], m[5]);
    case PLAN_COLUMNS_WRITTEN: return shelf_plan_columns_written(m[0], m[1], m[2], m[3], m[4], m[5]);
    case PLAN_BYTES_WRITTEN: return shelf_plan_bytes_written(m[0], m[1], m[2], m[3], m[4], m[5]);
    case PLAN_COLUMNS_SUM: return shelf_plan_columns_sum(m[0], m[1], m[2], m[3], m[4], m[5]);
    case PLAN_BYTES_SUM: return shelf_plan_bytes_sum(m[0], m[1], m[2], m[3], m[4], m[5]);
    case PLAN_SPANS: return shelf_plan_spans(m[0], m[1], m[2], m[3], m[4], m[5], q[0], n[0] / sizeof(struct shelf_span));
    case CHECK: return shelf_check(m[0], m[1], m[2], m[3], p[0], n[0], p[1], n[1], q[2], q[3]);
    case READ_RECORD: return shelf_read_record(p[0], n[0], p[1], n[1], q[2], n[2] / 2, q[3], n[3] / 8);
    case WRITE_RECORD: return shelf_write_record(m[0], m[1], m[2], m[3], p[0], n[0], q[1], n[1] / 2, p[2], n[2], q[3]);
    default: return ~(uint64_t)0;
    }
}

/* A pointer beside length 0 may be anything: half of them are null. */
static uint8_t *or_null(uint8_t *at, size_t len, uint64_t shift) { return len == 0 && (shift & 4) != 0 ? NULL : at; }

void make_call(struct call *c, uint8_t *const lent[LENT])
{
    uint8_t *at[LENT], *given[LENT];
    for (int i = 0; i < LENT; i++) {
        at[i] = arena[i] + GUARD + c->shift[i];
        given[i] = or_null(at[i], c->len[i], c->shift[i]);
        copy(at[i], lent[i], c->len[i]);
        guards(at[i], c->len[i], 1);
    }
    c->answer = answer_of(c->num, (enum op)c->op, given, c->len);
    c->stray = 0;
    for (int i = 0; i < LENT; i++) {
        c->stray += guards(at[i], c->len[i], 0);
        copy(lent[i], at[i], c->len[i]);
    }
}
