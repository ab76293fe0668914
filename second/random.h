/* Numbers that look random and depend on the seed alone. */
#ifndef SECOND_RANDOM_H
#define SECOND_RANDOM_H

#include "code.h"

void seed(uint64_t from);
uint64_t any(void);                                            /* of all 64 bits */
uint64_t below(uint64_t n);                                    /* 0 to n-1 */
void fill(uint8_t *to, size_t len);                            /* random bytes; now and then all of them alike */
struct shape any_shape(void);                                  /* allowed; mostly small; three of eight have r above 3, if it may be */
size_t any_lost(struct shape s, size_t in_data, size_t in_parity, uint16_t *lost);      /* that many positions, ascending; how many */
size_t any_lost_of(struct shape s, size_t total, uint16_t *lost);      /* that many in any split between data and parity */
size_t any_total(size_t most);                                 /* 0 to most; often 1, the half, or the most */

#endif
