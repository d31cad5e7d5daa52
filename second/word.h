/* One word taken apart: document 01's table and form numbers, with those of document 02, requests 2 and 3, for reading, writing, check and
   run alike. */
#ifndef SECOND_WORD_H
#define SECOND_WORD_H

#include "second.h"

/* Bits hi to lo: all ones there, what a word holds there, and a number put there. */
#define ONES(hi, lo) (~UINT64_C(0) >> (63 - ((hi) - (lo))))
#define MASK(hi, lo) (ONES(hi, lo) << (lo))
#define GET(w, hi, lo) ((w) >> (lo) & ONES(hi, lo))

enum { WAVEFORM, MARKER, WAIT, LOAD_REPEAT, REPEAT, CMP, GOTO, CALL, RETURN, SYNC, MODULATOR, LOAD_CMP, PREFETCH, NOOP = 15 };
enum { UNNAMED = 11 }; /* what request 2 of document 02 splits */
enum { OLDER_COUNT = 20 }; /* the bits of a marker count that older firmware takes: request 3 */

#define HEADER (MASK(63, 60) | MASK(59, 58) | MASK(56, 56))
#define PAYLOAD_OP MASK(47, 46)
#define TARGET MASK(25, 0)

/* The bits that each op code names. */
static const uint64_t named[13] = {
    [WAVEFORM] = HEADER | PAYLOAD_OP | MASK(45, 45) | MASK(44, 24) | MASK(23, 0),
    [MARKER] = HEADER | PAYLOAD_OP | MASK(36, 33) | MASK(32, 32) | MASK(31, 0),
    [WAIT] = HEADER | PAYLOAD_OP,
    [LOAD_REPEAT] = HEADER | MASK(15, 0),
    [REPEAT] = HEADER | TARGET,
    [CMP] = HEADER | MASK(9, 8) | MASK(7, 0),
    [GOTO] = HEADER | TARGET,
    [CALL] = HEADER | TARGET,
    [RETURN] = HEADER | MASK(55, 0),
    [SYNC] = HEADER | PAYLOAD_OP,
    [MODULATOR] = HEADER | MASK(47, 45) | MASK(43, 40) | MASK(31, 0),
    [LOAD_CMP] = HEADER | MASK(55, 0),
    [PREFETCH] = HEADER | TARGET,
};

/* The highest bit of each op code's highest field. */
static const uint8_t top[13] = {
    [WAVEFORM] = 47, [MARKER] = 47, [WAIT] = 47, [LOAD_REPEAT] = 15, [REPEAT] = 25, [CMP] = 9, [GOTO] = 25,
    [CALL] = 25, [RETURN] = 55, [SYNC] = 47, [MODULATOR] = 47, [LOAD_CMP] = 55, [PREFETCH] = 25,
};

/* Document 02, request 2: what is told of a word in place of 11, and the highest bit that is set and not named, which settles it: header
   bit 57, one above the highest field, or one in a gap. Any other number is told as it is, with bit 0, and the word is not looked at. */
static inline uint64_t finer(uint64_t number, const uint64_t *word, uint64_t *bit)
{
    *bit = 0;
    if (number != UNNAMED)
        return number;
    uint64_t code = GET(*word, 63, 60);
    *bit = 57;
    while (!((*word & ~named[code]) >> *bit & 1))
        --*bit;
    return *bit == 57 ? 111 : *bit > top[code] ? 112 : 113;
}

static inline uint64_t waveform_form(uint64_t op, uint64_t ta, uint64_t count, uint64_t address)
{
    switch (op) {
    case 0:
        return count < 2 ? 16 : 0;
    case 3:
        return ta || count ? 15 : address % 16384 ? 17 : 0;
    default:
        return ta || count || address ? 15 : 0;
    }
}

static inline uint64_t marker_form(uint64_t op, uint64_t transition, uint64_t state, uint64_t count, uint64_t firmware)
{
    switch (op) {
    case 0:
        return count < 2 ? 16 : firmware && count >> OLDER_COUNT ? 24 : 0;
    case 3:
        return 14;
    default:
        return transition || state || count ? 15 : 0;
    }
}

static inline uint64_t modulator_form(uint64_t op, uint64_t nco, uint64_t payload)
{
    switch (op) {
    case 0:
        return payload < 2 ? 16 : nco != 1 && nco != 2 ? 18 : 0;
    case 1:
        return payload ? 15 : nco < 1 || nco > 3 ? 18 : 0;
    case 2:
    case 4:
        return nco || payload ? 15 : 0;
    case 6:
        return 14;
    default:
        return nco < 1 || nco > 3 ? 18 : payload >> 30 ? 19 : 0;
    }
}

/* The form number of a word that is not NOOP, 10 to 19, 24 or 0; f, zeros before, gets the fields of its row that mean something. */
static inline uint64_t take_apart(uint64_t word, uint64_t firmware, uint64_t f[4])
{
    uint64_t code = GET(word, 63, 60), op = GET(word, 47, 46);
    if (code > PREFETCH)
        return 10;
    if (word & ~named[code])
        return UNNAMED;
    switch (code) {
    case WAVEFORM:
        f[0] = op, f[1] = GET(word, 45, 45), f[2] = GET(word, 44, 24), f[3] = GET(word, 23, 0);
        return waveform_form(f[0], f[1], f[2], f[3]);
    case MARKER:
        f[0] = op, f[1] = GET(word, 36, 33), f[2] = GET(word, 32, 32), f[3] = GET(word, 31, 0);
        return marker_form(f[0], f[1], f[2], f[3], firmware);
    case MODULATOR:
        f[0] = GET(word, 47, 45), f[1] = GET(word, 43, 40), f[2] = GET(word, 31, 0);
        return modulator_form(f[0], f[1], f[2]);
    case WAIT:
        return op != 1 ? 12 : GET(word, 56, 56) ? 0 : 13;
    case SYNC:
        return op != 2 ? 12 : GET(word, 56, 56) ? 0 : 13;
    case CMP:
        f[0] = GET(word, 9, 8), f[1] = GET(word, 7, 0);
        return 0;
    case RETURN:
    case LOAD_CMP:
        return 0;
    default:
        f[0] = GET(word, 25, 0);
        return code == PREFETCH && f[0] % 128 ? 17 : 0;
    }
}

/* 20 and 21, for a word of good form that stands among n words beside a waveform memory. */
static inline uint64_t placing(uint64_t code, const uint64_t f[4], uint64_t wave, size_t n)
{
    switch (code) {
    case WAVEFORM:
        if (f[0] == 0 && !f[1])
            return f[3] + f[2] > wave ? 20 : 0;
        return (f[0] == 0 || f[0] == 3) && f[3] >= wave ? 20 : 0;
    case REPEAT:
    case GOTO:
    case CALL:
    case PREFETCH:
        return f[0] >= n ? 21 : 0;
    default:
        return 0;
    }
}

/* Form, then 20 and 21, of any word. */
static inline uint64_t refusal(uint64_t word, uint64_t firmware, uint64_t wave, size_t n)
{
    uint64_t f[4] = { 0 }, number;
    if (word == ~UINT64_C(0))
        return 0;
    number = take_apart(word, firmware, f);
    return number ? number : placing(GET(word, 63, 60), f, wave, n);
}

#endif
