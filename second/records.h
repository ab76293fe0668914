#ifndef SECOND_RECORDS_H
#define SECOND_RECORDS_H

#include <stddef.h>
#include <stdint.h>

/* A record, in rec, for which this refusal is likely due (0: none); its length. */
size_t any_record(int due);
extern uint8_t rec[1 << 18];

/* Records, whole and spoilt, through the mending program: SECOND_PROGRAM of the environment starts mend, SECOND_PROGRAMS mends (all go
 * through mend where there is none). In how many blocks of records a text differs. */
uint64_t compare_records(uint64_t count);

extern uint64_t record_answers[11];                            /* how often each refusal was due; 0: mended */
extern uint64_t records_by_checks;                             /* how many of those mended have r above 3 */
extern uint64_t records_alone;                                 /* how many records had a process of their own */

#endif
