/* One call of the archive: numbers and lent buffers go in, the answer and what the buffers hold afterwards come back. `direct.c`
 * makes the call; `pipe.c` has it made by another process (`driver.c` over `direct.c`), for machines that cannot link the archive. */
#ifndef SECOND_CALL_H
#define SECOND_CALL_H

#include <stddef.h>
#include <stdint.h>

enum op {
    ENCODE, MEND, FOLD, PLAN_REFUSAL, PLAN_COLUMNS, PLAN_BYTES, PLAN_COLUMNS_WRITTEN, PLAN_BYTES_WRITTEN, PLAN_COLUMNS_SUM, PLAN_BYTES_SUM,
    PLAN_SPANS, CHECK, READ_RECORD, WRITE_RECORD, OPS
};

enum { LENT = 4, MOST_BYTES = 1 << 21 };                       /* lent buffers of a call, and the most bytes of one */

struct call {
    uint64_t op, num[6];                                       /* k, r, t, L, and for plans and folds N and f */
    uint64_t len[LENT];                                        /* bytes of the buffers, in the header's order; a lent number is one */
    uint64_t shift[LENT];                                      /* where they lie: that many bytes past a boundary of 64, below 64 */
    uint64_t answer, stray;                                    /* stray: how many guard bytes around the buffers changed */
};

/* Makes the call on copies of the buffers, and copies back what became of them. */
void make_call(struct call *c, uint8_t *const lent[LENT]);

#endif
