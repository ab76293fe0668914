/* What the calls covered, and how much of it the verdict asks for. */
#ifndef SECOND_COVERED_H
#define SECOND_COVERED_H

#include "call.h"
#include "code.h"

enum { LINES = 11 };

#define BITS_SHAPE (1 << 1 | 1 << 2)
#define BITS_PLAN (BITS_SHAPE | 1 << 3 | 1 << 4)

/* The calls that the archive has: how often each is made, and which lines of the refusal table it can give. */
struct op_entry { const char *name; unsigned often, lines; };
extern const struct op_entry ops[OPS];

int holds(unsigned lines, unsigned number);

void count_call(const struct call *c, unsigned lines);         /* a call, and the lines that hold for it */
void count_mended(struct shape s, const uint16_t *lost, size_t count);
uint64_t table(uint64_t calls);                                /* prints it; how many counts are below their floors */

#endif
