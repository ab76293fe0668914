/* Stripes for the shelf daemon: k data columns and r parity columns of l bytes each, over the field of 256 elements.
 *
 * The library is libshelf.a. Each function here is proved, for every input, to return and write what this page says. It keeps no
 * state, takes no memory but stack (each function says how much; 16 KiB are enough for any), and calls nothing but memcpy and memset, so any
 * thread may call it.
 *
 * Numbers come as they come: none of them has to be checked before a call. A function that can refuse returns 0 (SHELF_OK), or the
 * number of a refusal, and a refusal writes nothing but what is said of it. Where several refusals apply, the lowest number is
 * returned, unless another order is said.
 *
 * The numbers of a stripe:
 *
 *   k   data columns, 1 to 255, at positions 0 to k-1
 *   r   parity columns, 1 to 16, at positions k to k+r-1; if r is above 3, k + r <= 255
 *   t   0 for a plain stripe, else the parity count that the stripe is prepared to gain: r < t <= 3 and t <= k, so 0 if r is above 2
 *   l   bytes of a column, 1 to 4096, and divisible by t if t is not 0
 *
 * Columns stand one after another: byte p of column c is byte c * l + p of its buffer.
 *
 * A byte is a polynomial over two elements, bit 0 the constant term, reduced by x^8+x^4+x^3+x^2+1 (hex 11D). A sum is an exclusive
 * or, and g is the byte 02. Row j of k columns is, at each place, the sum over the columns i of g^(i*j) times the byte there. With r
 * up to 3 the parity columns hold rows of the data columns, as shelf_encode says.
 *
 * With r above 3 the code is given by check equations. Data column i has the point g^i, parity column j the point g^(254-j). Sum s of
 * columns is, at each place, the sum over them of point^s times the byte there; of the data columns it is row s. A codeword is a stripe
 * whose sum s, of all its columns, is 0 at every place for every s below r.
 *
 * Whatever r is, a codeword is a stripe whose parity columns hold what shelf_encode writes, and any k columns of a codeword determine it.
 *
 * A fold makes one wide stripe, plain, of several stripes of the same numbers: its data columns are theirs in order, and it gets f
 * parity columns. The two further numbers of a fold:
 *
 *   stripes   how many stripes are folded, 2 to 255, with stripes * k <= 255; if r is above 3, with stripes * k + r <= 255
 *   f         parity columns of the wide stripe, 1 to 3, and f = t if t is not 0; if r is above 3, f = r
 *
 * Its plan says which bytes are read: one span per column read, the stripes in order and in each the positions in order. If t is 0,
 * f <= r and f <= k, these are the parity columns 0 to f-1 of each stripe, whole; with r above 3, where f = r, that is so if k >= r. If
 * t is not 0, the bytes from r * (l/t) on of each data column, and every parity column, whole. Else every data column, whole. The
 * longest plan has 425 spans. A fold writes the f parity columns of the wide stripe and nothing else: the data columns stay as they are.
 *
 * The caller's duties, which no function can check:
 *   - a pointer beside a length that is not 0 points to that many bytes or records, which may be read, and written where it is not
 *     const, and is aligned for its type;
 *   - no two buffers of a call overlap, and nobody else writes them during the call;
 *   - a pointer beside a length of 0 may be anything, NULL too, and is not followed.
 *
 * An example with columns of one byte (c/fold_month.c, c/fold_halves.c and c/fold_files.c are longer ones, which run):
 *
 *   uint8_t a[4] = {1, 2}, b[4] = {3, 4};                     two stripes of 2 + 2 columns
 *   shelf_encode(2, 2, 0, 1, a, 2, a + 2, 2);                 SHELF_OK: a is 01 02 03 05
 *   shelf_encode(2, 2, 0, 1, b, 2, b + 2, 2);                 SHELF_OK: b is 03 04 07 0B
 *
 *   struct shelf_span spans[4];                               the fold of both: columns 2 and 3 of each are read
 *   shelf_plan_spans(2, 2, 0, 1, 2, 2, spans, 4);             SHELF_OK: {0, 2, 0, 1} {0, 3, 0, 1} {1, 2, 0, 1} {1, 3, 0, 1}
 *   uint8_t read[4] = {a[2], a[3], b[2], b[3]};
 *   uint8_t wide[6] = {1, 2, 3, 4};
 *   shelf_fold(2, 2, 0, 1, 2, 2, read, 4, wide + 4, 2);       SHELF_OK: wide is 01 02 03 04 04 29, one stripe of 4 + 2 columns
 *
 *   const uint8_t lost[4] = {0, 0, 3, 0};                     columns 0 and 3 are lost
 *   wide[0] = wide[3] = 0;
 *   shelf_mend(4, 2, 0, 1, wide, 6, lost, 4);                 SHELF_OK: wide is again 01 02 03 04 04 29
 *   wide[1] = 6;                                              a stale column
 *   shelf_mend(4, 2, 0, 1, wide, 6, NULL, 0);                 SHELF_DISAGREES: the check
 *
 *   uint8_t many[8] = {1, 2, 3, 4};                           a stripe of 4 + 4 columns
 *   shelf_encode(4, 4, 0, 1, many, 4, many + 4, 4);           SHELF_OK: many is 01 02 03 04 60 9B 1C E3
 */
#ifndef SHELF_H
#define SHELF_H

#include <stddef.h>
#include <stdint.h>

#ifdef __cplusplus
extern "C" {
#endif

/* The version of this header and of the library that it came with. */
#define SHELF_VERSION "0.4.0"

/* The limits, for the sizes of a caller's buffers. */
enum {
    SHELF_MAX_DATA = 255,          /* k, and stripes * k */
    SHELF_MAX_PARITY = 16,         /* r and f; t is at most 3, and so is f where r is */
    SHELF_MAX_COLUMN = 4096,       /* l, in bytes */
    SHELF_MAX_STRIPES = 255,       /* stripes */
    SHELF_MAX_SPANS = 425,         /* spans of a plan */
    SHELF_RECORD_BYTES = 65536,    /* most bytes of a record, and of the stripe that it describes */
    SHELF_RECORD_LOST = 258,       /* lost positions of a record at most: k + r, of any stripe (255 + 3; with r above 3 at most 255) */
    SHELF_RECORD_NUMBERS = 5       /* numbers that are read of a record */
};

/* What a function returns. */
enum {
    SHELF_OK = 0,
    SHELF_SHAPE = 1,         /* k, r or t is not allowed, or k + r is above 255 with r above 3 */
    SHELF_LENGTH = 2,        /* l is not allowed */
    SHELF_STRIPES = 3,       /* the number of stripes is not 2 to 255, or stripes * k is above 255, or stripes * k + r with r above 3 */
    SHELF_NEW_PARITY = 4,    /* f is not allowed: with r above 3 any but r */
    SHELF_BUFFER = 5,        /* a buffer has another length than stated (a list of spans, a record's output: is too short), or a
                                record or its stripe has more than 65,536 bytes */
    SHELF_LOST = 6,          /* lost positions do not strictly ascend, or one is not below k + r */
    SHELF_TOO_MANY_LOST = 7, /* more than r positions are lost */
    SHELF_DISAGREES = 8,     /* no codeword agrees with all columns that survive */
    SHELF_CUT = 9,           /* a record: a number is malformed, above 2^32-1, or cut; or the columns are cut */
    SHELF_LEFT_OVER = 10     /* a record: bytes are left over */
};

/* A short text for what a function returned, for a log. */
static inline const char *shelf_refusal(uint32_t number)
{
    switch (number) {
    case SHELF_OK: return "done";
    case SHELF_SHAPE: return "k, r or t is not allowed";
    case SHELF_LENGTH: return "the length of a column is not allowed";
    case SHELF_STRIPES: return "the number of stripes is not allowed";
    case SHELF_NEW_PARITY: return "the new parity count is not allowed";
    case SHELF_BUFFER: return "a buffer has another length than stated, or a record is too long";
    case SHELF_LOST: return "lost positions do not ascend, or one is no position";
    case SHELF_TOO_MANY_LOST: return "more columns are lost than there is parity";
    case SHELF_DISAGREES: return "no codeword agrees with all columns that survive";
    case SHELF_CUT: return "a record's number or column is cut, or a number is malformed";
    case SHELF_LEFT_OVER: return "bytes are left over after a record";
    default: return "no such number";
    }
}

/* Fills the parity columns of a stripe.
 *
 *   k, r, t, l           the numbers of the stripe
 *   data, data_len       the data columns 0 to k-1 in order: data_len is k * l. They are read and stay as they are.
 *   parity, parity_len   the parity columns 0 to r-1 in order: parity_len is r * l. What they held does not matter.
 *
 * With r up to 3 parity column j of a plain stripe holds row j of the data columns. A prepared stripe's columns are cut into t runs of
 * l/t bytes, run 0 first, and bytes at the same place in the runs go together: its parity column i holds in run j row i of the data
 * columns' runs j, and if j >= r row j of their runs i is added to it. With r above 3 sum s of the parity columns is row s of the data
 * columns, at every place and for every s below r: there is one such parity and no other.
 *
 * Returns 0: all r * l parity bytes are written. Returns 1, 2 or 5, in this order: nothing is written.
 *
 * Stack: less than 14,336 bytes.
 */
uint32_t shelf_encode(uint64_t k, uint64_t r, uint64_t t, uint64_t l,
                      const uint8_t *data, size_t data_len, uint8_t *parity, size_t parity_len);

/* Mends the lost columns of a stripe, or checks one with nothing lost.
 *
 *   k, r, t, l          the numbers of the stripe
 *   stripe, stripe_len  all columns in order, data first: stripe_len is (k + r) * l
 *   lost, lost_len      the positions of the lost columns, strictly ascending, two bytes each, the low byte first: lost_len is twice
 *                       their number, and 0 if nothing is lost
 *
 * All other columns survive and stay as they are. Returns 0: the lost columns are written, and the stripe is the only codeword that
 * agrees with every survivor. What the lost columns held counts for nothing. Returns 1, 2, 5 (an odd lost_len too), 6, 7 or 8, in
 * this order: nothing is written.
 *
 * With nothing lost, 0 says that the stripe is a codeword and 8 that it is none; shelf_check says where, and with r up to 3 is sooner
 * done. With exactly r lost 8 never comes: any k columns agree with some codeword, so a stale one among them can't show.
 *
 * Stack: less than 16,384 bytes.
 */
uint32_t shelf_mend(uint64_t k, uint64_t r, uint64_t t, uint64_t l,
                    uint8_t *stripe, size_t stripe_len, const uint8_t *lost, size_t lost_len);

/* Checks a stripe, and says where its parity first disagrees.
 *
 *   k, r, t, l           the numbers of the stripe
 *   data, data_len       the data columns in order: data_len is k * l
 *   parity, parity_len   the parity columns in order: parity_len is r * l
 *   column, place        where the answer 8 goes
 *
 * Returns 0: the stripe is a codeword. Returns 8: it is none; *column is the first parity column, from 0, that does not hold what
 * shelf_encode writes for these data, and *place the first byte of it that differs. Returns 1, 2 or 5, in this order. *column and *place
 * are written with 8 alone, and nothing else ever is.
 *
 * Stack: less than 16,384 bytes.
 */
uint32_t shelf_check(uint64_t k, uint64_t r, uint64_t t, uint64_t l, const uint8_t *data, size_t data_len,
                     const uint8_t *parity, size_t parity_len, uint32_t *column, uint32_t *place);

/* The bytes that a plan reads of one column.
 *
 *   stripe     the number of the stripe, from 0
 *   position   the column in that stripe: i for data column i, k + j for parity column j
 *   first      the offset in the column of the first byte read
 *   length     how many bytes are read
 */
struct shelf_span { uint32_t stripe, position, first, length; };

/* Whether stripes of these numbers can be folded.
 *
 *   k, r, t, l   the numbers of the stripes
 *   stripes, f   the numbers of the fold
 *
 * Returns 0, or 1, 2, 3 or 4, in this order. Nothing is written.
 *
 * Stack: less than 512 bytes.
 */
uint32_t shelf_plan_refusal(uint64_t k, uint64_t r, uint64_t t, uint64_t l, uint64_t stripes, uint64_t f);

/* How many columns the plan of a fold reads: the number of its spans.
 *
 *   k, r, t, l   the numbers of the stripes
 *   stripes, f   the numbers of the fold
 *
 * Returns the number of columns, which is 0 where shelf_plan_refusal is not 0, and only there. Nothing is written.
 *
 * Stack: less than 512 bytes.
 */
uint64_t shelf_plan_columns_read(uint64_t k, uint64_t r, uint64_t t, uint64_t l, uint64_t stripes, uint64_t f);

/* How many bytes the plan of a fold reads: the lengths of its spans, summed.
 *
 *   k, r, t, l   the numbers of the stripes
 *   stripes, f   the numbers of the fold
 *
 * Returns the number of bytes, which is 0 where shelf_plan_refusal is not 0, and only there. Nothing is written.
 *
 * Stack: less than 512 bytes.
 */
uint64_t shelf_plan_bytes_read(uint64_t k, uint64_t r, uint64_t t, uint64_t l, uint64_t stripes, uint64_t f);

/* How many columns a fold writes: the parity columns of the wide stripe.
 *
 *   k, r, t, l   the numbers of the stripes
 *   stripes, f   the numbers of the fold
 *
 * Returns f, or 0 where shelf_plan_refusal is not 0. The call itself writes nothing.
 *
 * Stack: less than 512 bytes.
 */
uint64_t shelf_plan_columns_written(uint64_t k, uint64_t r, uint64_t t, uint64_t l, uint64_t stripes, uint64_t f);

/* How many columns a fold reads and writes: the papers' access cost.
 *
 *   k, r, t, l   the numbers of the stripes
 *   stripes, f   the numbers of the fold
 *
 * Returns shelf_plan_columns_read and shelf_plan_columns_written, added: 0 where shelf_plan_refusal is not 0, and only there. Nothing is
 * written.
 *
 * Stack: less than 512 bytes.
 */
uint64_t shelf_plan_columns_sum(uint64_t k, uint64_t r, uint64_t t, uint64_t l, uint64_t stripes, uint64_t f);

/* How many bytes a fold writes: the parity_len of shelf_fold.
 *
 *   k, r, t, l   the numbers of the stripes
 *   stripes, f   the numbers of the fold
 *
 * Returns f * l, or 0 where shelf_plan_refusal is not 0. The call itself writes nothing.
 *
 * Stack: less than 512 bytes.
 */
uint64_t shelf_plan_bytes_written(uint64_t k, uint64_t r, uint64_t t, uint64_t l, uint64_t stripes, uint64_t f);

/* How many bytes a fold reads and writes: the papers' conversion bandwidth, and what a network bill counts where one machine reads the
 * plan's spans and sends the new parity to its disks.
 *
 *   k, r, t, l   the numbers of the stripes
 *   stripes, f   the numbers of the fold
 *
 * Returns shelf_plan_bytes_read and shelf_plan_bytes_written, added: 0 where shelf_plan_refusal is not 0, and only there. Nothing is
 * written.
 *
 * Stack: less than 512 bytes.
 */
uint64_t shelf_plan_bytes_sum(uint64_t k, uint64_t r, uint64_t t, uint64_t l, uint64_t stripes, uint64_t f);

/* Writes the spans of the plan of a fold.
 *
 *   k, r, t, l         the numbers of the stripes
 *   stripes, f         the numbers of the fold
 *   spans, spans_len   the list to fill: spans_len records, at least as many as shelf_plan_columns_read says. What they held does
 *                      not matter.
 *
 * Returns 0: the spans stand in order at the front of the list, and the records after the last span stay as they are. Returns 1, 2,
 * 3, 4, or 5 where spans_len is less than the plan's number of spans, in this order: nothing is written.
 *
 * Stack: less than 512 bytes.
 */
uint32_t shelf_plan_spans(uint64_t k, uint64_t r, uint64_t t, uint64_t l, uint64_t stripes, uint64_t f,
                          struct shelf_span *spans, size_t spans_len);

/* Fills the parity columns of the wide stripe of a fold.
 *
 *   k, r, t, l           the numbers of the stripes
 *   stripes, f           the numbers of the fold
 *   read, read_len       the bytes of the plan's spans, one span after another in the plan's order: read_len is
 *                        shelf_plan_bytes_read. They are read and stay as they are.
 *   parity, parity_len   the parity columns 0 to f-1 of the wide stripe in order: parity_len is f * l, which is
 *                        shelf_plan_bytes_written. What they held does not matter.
 *
 * The parity is that which shelf_encode fills in for the plain stripe of stripes * k data columns and f parity columns, if the
 * stripes that the bytes were read of held their own parity.
 *
 * For any bytes, with r up to 3, parity column j holds, at each place, the sum over the stripes x, from 0, of g^(x*j*k) times what the
 * stripe adds. That is the byte of its parity column j where the plan reads parity columns alone, and row j of its data where it reads
 * data columns alone. If t is not 0, it is in run b, if b >= r, row j of run b of its data; if b < r and j < r, run b of its parity
 * column j; and if b < r and j >= r, run j of its parity column b plus row b of run j of its data.
 *
 * For any bytes, with r above 3, sum s of the new parity columns is, at each place and for every s below r, the sum over the stripes x,
 * from 0, of g^(x*k*s) times what the stripe adds: sum s of its parity columns where the plan reads these, and row s of its data where
 * it reads data columns. There is one such parity and no other.
 *
 * Folding in two sittings: n1 stripes at a time into half-wide ones of n1 * k + f1 columns, and later n2 of these, as plain stripes,
 * into the wide one with f2 parity columns; if t is not 0, f2 = t. Where both are allowed, so is the fold of all n1 * n2 stripes at
 * once to f2. If the stripes held their own parity, the bytes are the same. For any bytes they are the same if neither sitting reads
 * data columns alone, or if the fold at once does. In the other cases beware: a sitting that reads data columns alone (its f is above
 * the r or the k of its stripes) leaves the parity of the data, whatever the parity columns held. What is stale, and would show after
 * the fold at once, is then hidden, and the wide stripe is a codeword. Check each stripe before its first sitting.
 *
 * Returns 0: all f * l parity bytes are written. Returns 1, 2, 3, 4 or 5, in this order: nothing is written.
 *
 * Stack: less than 14,336 bytes.
 */
uint32_t shelf_fold(uint64_t k, uint64_t r, uint64_t t, uint64_t l, uint64_t stripes, uint64_t f,
                    const uint8_t *read, size_t read_len, uint8_t *parity, size_t parity_len);

/* A record is a stripe in transit, some of its columns lost: the numbers k, r, t, l, how many columns are lost, their positions
 * ascending, then the surviving columns whole, in order, and nothing after them. Its numbers are groups of seven bits, the lowest
 * group first, the top bit set on all but the last byte; at most 2^32-1, in the shortest form only. It may name more than r lost
 * columns. A record has at most 65,536 bytes, and so has its stripe. */

/* Reads a record.
 *
 *   record, record_len     the record
 *   stripe, stripe_len     where the stripe goes: stripe_len is 65,536 (SHELF_RECORD_BYTES)
 *   lost, lost_len         where the lost positions go: lost_len is 258 (SHELF_RECORD_LOST)
 *   numbers, numbers_len   where k, r, t, l and the number of lost columns go, in this order: numbers_len is 5 (SHELF_RECORD_NUMBERS)
 *
 * Returns 0: the surviving columns stand at their places of the stripe, column c from c * l on, and the lost positions at the front
 * of the list; the lost columns, and the rest of both, stay as they are. The record is read front to back: returns 5 for its own
 * length, the buffer and the two lists; then 9 for each number as it comes; after the fourth 1, 2, or 5 for more than 65,536 bytes of
 * stripe; then 9 or 6 for the lost count and each position; then 9 where the columns are cut, 10 where bytes are left over. With any
 * of these nothing is written.
 *
 * Stack: less than 1,024 bytes.
 */
uint32_t shelf_read_record(const uint8_t *record, size_t record_len, uint8_t *stripe, size_t stripe_len,
                           uint16_t *lost, size_t lost_len, uint64_t *numbers, size_t numbers_len);

/* Writes a record.
 *
 *   k, r, t, l          the numbers of the stripe
 *   stripe, stripe_len  all columns in order, data first: stripe_len is (k + r) * l. What the lost columns hold does not matter.
 *   lost, lost_len      the positions of the lost columns, strictly ascending: lost_len is their number
 *   out, out_len        where the record goes; 65,536 bytes are always enough
 *   length              where the record's length goes
 *
 * Returns 0: the record stands at the front of the output, whose rest stays, and *length is its length. Returns 1, 2, 5 for a stripe
 * above 65,536 bytes or another stripe_len, 6, or 5 for a record above 65,536 bytes or an output that is too short, in this order:
 * nothing is written.
 *
 * Stack: less than 512 bytes.
 */
uint32_t shelf_write_record(uint64_t k, uint64_t r, uint64_t t, uint64_t l, const uint8_t *stripe, size_t stripe_len,
                            const uint16_t *lost, size_t lost_len, uint8_t *out, size_t out_len, uint64_t *length);

#ifdef __cplusplus
}
#endif

#endif
