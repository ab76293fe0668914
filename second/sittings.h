/* Folding in two sittings (document 02, request 1): N1 stripes into each of N2 half-wide stripes with f1 parity columns, and those N2
 * into the wide one with f2, against all N1*N2 at once with f2. */
#ifndef SECOND_SITTINGS_H
#define SECOND_SITTINGS_H

#include "code.h"

/* The kinds that can occur together: of the two sittings, and of the fold at once. With r above 3 the first three. */
enum { KINDS = 7, KINDS_BY_CHECKS = 3 };
extern const char *const kinds_of_sittings[KINDS];

/* Every small shape, and so many others, each of codewords, of codewords but for one stale byte, and of any bytes; how many things are
 * not as they should be. */
uint64_t compare_sittings(uint64_t count);

extern uint64_t sittings_tried[2][KINDS];                      /* r to 3, and above */
extern uint64_t sittings_of_r[MAX_PARITY + 1];                 /* the same by r */
extern uint64_t sittings_hid;                                  /* a stale byte that the fold at once shows */

/* What was refused. Only in two: prepared stripes with f2 other than t. */
enum { BOTH_ALLOWED, ONE_REFUSED, ONLY_IN_TWO, WIDEST_IN_TWO, TOO_WIDE_IN_TWO, STEPS };
extern uint64_t sittings_steps[STEPS];

#endif
