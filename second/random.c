#include "random.h"

#include <string.h>

static uint64_t state;

void seed(uint64_t from) { state = from; }

/* Steele, Lea and Flood's SplitMix64. */
uint64_t any(void)
{
    uint64_t z = state += 0x9E3779B97F4A7C15u;
    z = (z ^ z >> 30) * 0xBF58476D1CE4E5B9u;
    z = (z ^ z >> 27) * 0x94D049BB133111EBu;
    return z ^ z >> 31;
}

uint64_t below(uint64_t n) { return any() % n; }

void fill(uint8_t *to, size_t len)
{
    uint64_t alike = below(16);
    if (alike < 2)
        memset(to, alike == 0 ? 0 : 0xFF, len);
    else
        for (size_t i = 0; i < len; i++)
            to[i] = (uint8_t)(any() >> 32);
}

static const uint64_t edges[12] = {63, 64, 65, 127, 128, 129, 191, 192, 511, 512, 513, 1000};      /* of L */

/* r above 3: as many k below r as from r on, now and then the widest; fewer long columns, which take their time. */
static struct shape shape_by_checks(void)
{
    struct shape s = {0, 4 + below(MAX_PARITY - 3), 0, 1 + below(16)};
    uint64_t wide = below(40), l = below(400);
    s.k = 1 + below(2 * s.r - 2);
    if (wide == 0)
        s.k = 1 + below(255 - s.r);
    if (wide == 1 || wide == 2)
        s.k = 256 - s.r - wide;
    if (l < 40)
        s.l = edges[below(12)];
    if (l == 40 && s.k < 40)
        s.l = 4096 - below(5);
    return s;
}

struct shape any_shape(void)
{
    static const uint64_t marks[6][2] = {{1, 0}, {2, 0}, {3, 0}, {1, 2}, {1, 3}, {2, 3}};
    const uint64_t *mark = marks[below(6)];
    struct shape s = {1 + below(8), mark[0], mark[1], 1 + below(24)};
    uint64_t wide = below(40), l = below(60);
    if (MAX_PARITY > 3 && below(8) < 3)
        return shape_by_checks();
    if (wide < 6)
        s.k = 1 + below(wide == 0 ? 255 : 40);
    if (wide == 6)
        s.k = 255 - below(2);
    if (s.k < s.t)
        s.k = s.t;
    if (l < 10)
        s.l = edges[below(12)];
    if (l == 10 && s.k < 40)
        s.l = 4096 - below(5);
    if (s.t != 0)
        s.l += (s.t - s.l % s.t) % s.t;
    if (s.l > 4096)
        s.l -= s.t;
    return s;
}

/* `want` of the positions from `first` on, of which there are `all`. */
static size_t choose(uint64_t first, uint64_t all, size_t want, uint16_t *lost)
{
    size_t count = 0;
    for (uint64_t c = 0; c < all && count < want; c++)
        if (below(all - c) < want - count)
            lost[count++] = (uint16_t)(first + c);
    return count;
}

size_t any_lost(struct shape s, size_t in_data, size_t in_parity, uint16_t *lost)
{
    size_t count = choose(0, s.k, in_data, lost);
    return count + choose(s.k, s.r, in_parity, lost + count);
}

size_t any_lost_of(struct shape s, size_t total, uint16_t *lost)
{
    size_t least = total > s.r ? total - s.r : 0, most = total < s.k ? total : s.k;
    size_t in_data = least < most ? least + below(most - least + 1) : most;
    return any_lost(s, in_data, total - in_data, lost);
}

size_t any_total(size_t most)
{
    switch (below(8)) {
    case 0: return most;
    case 1: return most > 0;
    case 2: return most / 2;
    default: return below(most + 1);
    }
}
