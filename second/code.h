/* The code of document 01 a second time, and for r above 3 that of document 02's request 6, written from their words alone: no table,
 * nothing of the library, the most obvious way to each answer. The names are document 01's. Bytes of a stripe are its columns in
 * order. */
#ifndef SECOND_CODE_H
#define SECOND_CODE_H

#include <stddef.h>
#include <stdint.h>

struct shape { uint64_t k, r, t, l; };
struct fold { struct shape s; uint64_t n, f; };                /* n stripes of shape s folded to f parity columns */
struct span { uint32_t stripe, position, first, length; };

#ifndef MAX_PARITY                                             /* the limit is the header's, so that both grow together */
#error "MAX_PARITY, the most that r may be: second/run takes it from shelf.h"
#endif

enum { MAX_SPANS = 425, MAX_RECORD = 65536, MAX_LOST = 258, MAX_TEXT = 1 << 18 };

/* The field: a times b, and g^e. */
uint8_t times(uint8_t a, uint8_t b);
uint8_t power_of_g(uint64_t e);

/* The lines 1 to 8 of the refusal table whose conditions hold, line n as bit n. A line is judged where the lines before it leave it a
 * meaning. The lost positions come as pairs of bytes. */
unsigned shape_lines(struct shape s);
unsigned encode_lines(struct shape s, size_t data_len, size_t parity_len);
unsigned mend_lines(struct shape s, const uint8_t *stripe, size_t stripe_len, const uint8_t *lost, size_t lost_len);
unsigned plan_lines(struct fold w);
unsigned fold_lines(struct fold w, size_t read_len, size_t parity_len);
unsigned spans_lines(struct fold w, size_t spans_len);
uint32_t first_line(unsigned lines);                           /* the refusal given: the lowest of the lines, or 0 */

/* For allowed numbers and buffers of the stated lengths. */
void encode(struct shape s, const uint8_t *data, uint8_t *parity);
int mend(struct shape s, uint8_t *stripe, const uint16_t *lost, size_t count);      /* 0, or 8 with nothing written */
char kind(struct fold w);
size_t plan(struct fold w, struct span *spans);                /* how many spans; at most MAX_SPANS */
size_t bytes_read(struct fold w);
void fold(struct fold w, const uint8_t *read, uint8_t *parity);

/* Changes r columns at one place so that the check equation of that number, and no other, is off there, by 1. For r above 3. */
void off_in_one_equation(struct shape s, const uint16_t *columns, uint64_t place, uint64_t number, uint8_t *stripe);

/* Records. The stripe has 65,536 bytes, the list 258 numbers. */
uint32_t read_record(const uint8_t *rec, size_t len, struct shape *s, uint16_t *lost, size_t *count, uint8_t *stripe);
size_t write_number(uint32_t v, uint8_t *out);
size_t write_record(struct shape s, const uint8_t *stripe, const uint16_t *lost, size_t count, uint8_t *out);
size_t program_text(const uint8_t *rec, size_t len, char *text);      /* what the mending program prints for this input */

/* Every worked stripe of document 01, and some of request 6; how many are wrong. */
int worked(void);

#endif
