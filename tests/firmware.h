/* The firmware of a case, and MARKER words with counts around the first that older firmware does not take: document 02, request 3. The
   number of each such word is worked out here once more, so that neither program is trusted with it. */
#ifndef FIRMWARE_H
#define FIRMWARE_H

#include "sequences.h"

/* The firmware of the case under test: 0 is the current one, every other number the older. */
static uint64_t firmware;

/* The current one, and numbers of the older. */
static const uint64_t kinds[] = { 0, 1, 2, UINT64_C(1) << 32, UINT64_C(1) << 63, ~UINT64_C(0) };
enum { KINDS = sizeof kinds / sizeof *kinds };

static inline uint64_t any_older(void) { return below(2) ? kinds[1 + below(KINDS - 1)] : UINT64_C(1) << below(64); }
static inline uint64_t any_firmware(void) { return below(2) ? 0 : any_older(); }

/* A MARKER play whose count older firmware does not take, whatever else is wrong with the word. */
static inline int is_wide(uint64_t word)
{
    return word >> 60 == 1 && (word >> 46 & 3) == 0 && (word & UINT64_C(0xFFFFFFFF)) >= WIDE;
}

/* What a form number for the current firmware is for that of the case: 24, the last of them, comes only where there is no other. */
static inline uint64_t number_for(uint64_t number, int wide) { return number == 0 && firmware && wide ? 24 : number; }

/* The form number of a MARKER; `change` is its transition and state. */
static inline uint64_t marker_number(uint64_t op, uint64_t change, uint64_t count)
{
    if (op == 3)
        return 14;
    if (op != 0)
        return change || count ? 15 : 0;
    return count < 2 ? 16 : number_for(0, count >= WIDE);
}

/* The counts that are tried: the least, those around 2^20, and, where they can be asked for, some that have no room in a word. */
enum { LEAST = 3, FIT = LEAST + COUNTS, ASKED = FIT + 3 };
static inline uint64_t count_at(uint64_t k)
{
    static const uint64_t past[] = { UINT64_C(1) << 32, (UINT64_C(1) << 32) + WIDE, ~UINT64_C(0) };
    return k < LEAST ? k : k < FIT ? counts[k - LEAST] : past[k - FIT];
}

/* MARKER words with each op, count and write flag, with a change and without, and the number of each. */
static inline void each_marker(void (*with)(uint64_t word, uint64_t number))
{
    for (uint64_t k = 0; k < FIT * 16; k++) {
        uint64_t op = k / FIT % 4, count = count_at(k % FIT), change = k / FIT / 4 % 2 ? 1 + below(31) : 0, write = k / FIT / 8;
        with(OP(1, engine_select() | write << 56 | op << 46 | change << 32 | count), marker_number(op, change, count));
    }
}

/* The same asked for by fields, from engine select on, with an op and counts too wide for their bits; 23 comes first. */
static inline void each_asked(void (*with)(const uint64_t f[6], uint64_t number))
{
    for (uint64_t k = 0; k < ASKED * 20; k++) {
        uint64_t op = k / ASKED % 5, count = count_at(k % ASKED), change = k / ASKED / 5 % 2 ? 1 + below(31) : 0, write = k / ASKED / 10;
        const uint64_t f[6] = { below(4), write, op, change >> 1, change & 1, count };
        with(f, op > 3 || count >> 32 ? 23 : marker_number(op, change, count));
    }
}

/* A sequence in which some words are marker plays with such counts, mostly the greatest that both kinds of firmware take. */
static inline void marked_sequence(uint64_t *words, size_t n, uint64_t wave)
{
    any_sequence(words, n, wave);
    for (uint64_t k = below(4); k > 0; k--)
        words[below(n)] = OP(1, engine_select() | (below(8) ? HIGH : 0) | below(32) << 32 | counts[below(3) ? 0 : below(COUNTS)]);
}

#endif
