/* Makes the calls that come on standard input and answers on standard output: a struct call and the bytes of its buffers, each way.
 * Freestanding, as direct.c is. */
#include "call.h"

long read(int, void *, size_t);
long write(int, const void *, size_t);

static uint8_t bytes[LENT][MOST_BYTES];

static int get(void *to, size_t len)
{
    for (size_t at = 0; at < len;) {
        long got = read(0, (uint8_t *)to + at, len - at);
        if (got <= 0)
            return 0;
        at += (size_t)got;
    }
    return 1;
}

static int put(const void *from, size_t len)
{
    for (size_t at = 0; at < len;) {
        long gone = write(1, (const uint8_t *)from + at, len - at);
        if (gone <= 0)
            return 0;
        at += (size_t)gone;
    }
    return 1;
}

int main(void)
{
    struct call c;
    uint8_t *const lent[LENT] = {bytes[0], bytes[1], bytes[2], bytes[3]};
    while (get(&c, sizeof c)) {
        for (int i = 0; i < LENT; i++)
            if (c.len[i] > MOST_BYTES || !get(lent[i], c.len[i]))
                return 1;
        make_call(&c, lent);
        if (!put(&c, sizeof c))
            return 1;
        for (int i = 0; i < LENT; i++)
            if (!put(lent[i], c.len[i]))
                return 1;
    }
    return 0;
}
