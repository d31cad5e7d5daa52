/* Sequences to try, made of words that are mostly good: plays and waits, groups, loops, nests of calls, conditions, messages,
   and now and then a damaged word or a jump to nowhere. */
#ifndef SEQUENCES_H
#define SEQUENCES_H

#include "check.h"

#define OP(code, rest) ((uint64_t)(code) << 60 | (rest))
#define HIGH (UINT64_C(1) << 56)

/* The first marker count that older firmware does not take, and counts around it and far above. */
#define WIDE (UINT64_C(1) << 20)
static const uint64_t counts[] = { WIDE - 1, WIDE, WIDE + 1, 2 * WIDE - 1, 2 * WIDE, WIDE << 11, UINT64_C(0xFFF00000), UINT64_C(0xFFFFFFFF) };
enum { COUNTS = sizeof counts / sizeof *counts };

/* A marker's count, mostly the one given. */
static inline uint64_t marker_count(uint64_t count)
{
    uint64_t k = below(9 * COUNTS);
    return k % 9 ? count : counts[k / 9];
}

static inline uint64_t engine_select(void) { return below(4) << 58; }

/* A word for an engine; its write flag as told. */
static inline uint64_t engine_word(uint64_t wave, int high)
{
    uint64_t w = engine_select() | (high ? HIGH : 0), count = 2 + below(4), address = below(wave ? wave : 1);
    switch (below(12)) {
    case 0: return OP(0, w | UINT64_C(1) << 46);
    case 1: return OP(0, w | UINT64_C(2) << 46);
    case 2: return OP(0, w | UINT64_C(3) << 46);
    case 3: return OP(0, w | UINT64_C(1) << 45 | count << 24 | address);
    case 4: return OP(1, w | UINT64_C(1) << 46);
    case 5: return OP(1, w | below(32) << 32 | count);
    case 6: return OP(1, w | below(32) << 32 | marker_count(count));
    case 7: return OP(10, w | UINT64_C(2) << 45);
    case 8: return OP(10, w | (1 + below(2)) << 40 | count);
    case 9: return OP(10, w | (below(2) ? UINT64_C(3) : UINT64_C(7)) << 45 | (1 + below(3)) << 40 | below(UINT64_C(1) << 30));
    default: return OP(0, w | count << 24 | (below(9) ? below(wave > count ? wave - count + 1 : 1) : address));
    }
}

/* One word for address a of n. */
static inline uint64_t any_word(size_t a, size_t n, uint64_t wave)
{
    uint64_t to = below(40) ? below(n) : below(n + 3), near = a + 1 < n ? a + 1 + below(n - a - 1) : 0;
    switch (below(20)) {
    case 0: return OP(2, HIGH | UINT64_C(1) << 46);
    case 1: return OP(9, HIGH | UINT64_C(2) << 46);
    case 2: return OP(3, below(4));
    case 3: return OP(4, to);
    case 4:
    case 5: return OP(5, below(4) << 8 | below(4));
    case 6: return OP(6, to);
    case 7: return OP(6, near);
    case 8: return OP(7, near);
    case 9: return OP(7, to);
    case 10:
    case 11: return OP(8, below(3) ? 0 : random64() >> 8);
    case 12: return OP(11, 0);
    case 13: return below(2) ? ~UINT64_C(0) : OP(12, below(8) ? 0 : 128);
    case 14: return engine_word(wave, 0);
    default: return engine_word(wave, below(12) != 0);
    }
}

/* A whole sequence: n words, some in groups of low words, at times one bit damaged, and mostly with an end that does not fall off. */
static inline void any_sequence(uint64_t *words, size_t n, uint64_t wave)
{
    for (size_t a = 0; a < n; a++)
        words[a] = any_word(a, n, wave);
    if (below(3) == 0) {
        size_t start = below(n), size = 1 + below(10);
        for (size_t i = 0; i < size && start + i < n; i++)
            words[start + i] = engine_word(wave, i + 1 == size);
    }
    if (below(3))
        words[n - 1] = OP(below(2) ? 6 : 8, below(n));
    if (below(10) == 0)
        words[below(n)] ^= UINT64_C(1) << below(64);
}

#endif
