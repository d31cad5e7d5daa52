/* Words with bits set that their op code does not name, and what is told of them: document 02, request 2. The bits that the table of
   document 01 leaves out are written down here, from the top, with the number of each; no mask is trusted. */
#ifndef BITS_H
#define BITS_H

#include "firmware.h"

enum { CODES = 13, SPANS = 4 };

/* Bits hi to lo are not named, and have this number. */
struct span {
    int hi, lo;
    uint64_t number;
};

#define RESERVED { 57, 57, 111 }
#define TARGETED { RESERVED, { 55, 26, 112 } }
static const struct span spans[CODES][SPANS] = {
    { RESERVED, { 55, 48, 112 } }, /* WAVEFORM */
    { RESERVED, { 55, 48, 112 }, { 45, 37, 113 } }, /* MARKER */
    { RESERVED, { 55, 48, 112 }, { 45, 0, 113 } }, /* WAIT */
    { RESERVED, { 55, 16, 112 } }, /* LOAD_REPEAT */
    TARGETED, /* REPEAT */
    { RESERVED, { 55, 10, 112 } }, /* CMP */
    TARGETED, /* GOTO */
    TARGETED, /* CALL */
    { RESERVED }, /* RETURN */
    { RESERVED, { 55, 48, 112 }, { 45, 0, 113 } }, /* SYNC */
    { RESERVED, { 55, 48, 112 }, { 44, 44, 113 }, { 39, 32, 113 } }, /* MODULATOR */
    { RESERVED }, /* LOAD_CMP */
    TARGETED, /* PREFETCH */
};

struct told {
    uint64_t number, bit;
};

/* What is told of a word's unnamed bits: that of the first one from the top, and zeros where there is none. */
static inline struct told told_of(uint64_t word)
{
    uint64_t code = word >> 60;
    for (int i = 0; code < CODES && i < SPANS && spans[code][i].number; i++)
        for (int bit = spans[code][i].hi; bit >= spans[code][i].lo; bit--)
            if (word >> bit & 1)
                return (struct told){ spans[code][i].number, (uint64_t)bit };
    return (struct told){ 0, 0 };
}

/* Whether a number and a bit are what is told of a word; what was told is counted. 11 is no number of a word any more. */
static inline int tells(uint64_t word, uint64_t number, uint64_t bit)
{
    struct told t = told_of(word);
    if (!t.number)
        return bit == 0 && number < 111 && number != 11;
    if (number != t.number || bit != t.bit)
        return 0;
    told_bits[word >> 60][bit]++;
    return 1;
}

/* The same of a check or a run that stopped at a word: a bit stands only beside the word's own 111 to 113. */
static inline int tells_at(const uint64_t *words, uint64_t address, uint64_t number, uint64_t bit)
{
    return number >= 111 ? tells(words[address], number, bit) : bit == 0 && number != 11;
}

static inline uint64_t unnamed_bits(uint64_t code)
{
    uint64_t bits = 0;
    for (int i = 0; i < SPANS && spans[code][i].number; i++)
        for (int bit = spans[code][i].lo; bit <= spans[code][i].hi; bit++)
            bits |= UINT64_C(1) << bit;
    return bits;
}

/* Some of them, one at least; the highest may be any. */
static inline uint64_t some_bits(uint64_t code)
{
    uint64_t bits, all = unnamed_bits(code);
    do
        bits = all & random64() & ~UINT64_C(0) >> below(64);
    while (!bits);
    return bits;
}

/* A word of an op code that passes form for the current firmware. */
static inline uint64_t good_of(uint64_t code)
{
    uint64_t word = OP(code, engine_select() | below(2) << 56);
    switch (code) {
    case 2: return word | HIGH | UINT64_C(1) << 46;
    case 3: return word | below(65536);
    case 5: return word | below(1024);
    case 8:
    case 11: return word | random64() >> 8;
    case 9: return word | HIGH | UINT64_C(2) << 46;
    case 4:
    case 6:
    case 7: return word | below(3);
    case 12: return word;
    }
    do
        word = engine_word(8, (int)below(2));
    while (word >> 60 != code);
    return word;
}

/* A word with these unnamed bits; of what its op code names nothing is set, all, anything, or what a good word has. */
enum { NOTHING, ALL, ANYTHING, GOOD, BASES };
static inline uint64_t with_bits(int base, uint64_t code, uint64_t bits)
{
    uint64_t named = ~unnamed_bits(code) & ~OP(15, 0);
    switch (base) {
    case NOTHING: return OP(code, bits);
    case ALL: return OP(code, bits | named);
    case ANYTHING: return OP(code, bits | (named & random64()));
    default: return good_of(code) | bits;
    }
}

static inline int any_base(void) { return (int)below(BASES); }

/* Every unnamed bit of every op code, alone and with every other one, and then some at once. */
static inline void each_unnamed(void (*with)(uint64_t code, uint64_t bits))
{
    for (uint64_t code = 0; code < CODES; code++) {
        uint64_t bits = unnamed_bits(code);
        for (int i = 0; i < 64; i++)
            for (int j = 0; j <= i; j++)
                if (bits >> i & bits >> j & 1)
                    with(code, UINT64_C(1) << i | UINT64_C(1) << j);
        for (int k = 0; k < 64; k++)
            with(code, some_bits(code));
    }
}

/* Ends a family that must have been told every unnamed bit of every op code. */
static inline void family_of_bits(const char *name)
{
    for (uint64_t code = 0; code < CODES; code++)
        for (int bit = 0; bit < 64; bit++)
            if (unnamed_bits(code) >> bit & 1 && !told_bits[code][bit] && !failed)
                failed = 1, printf("  bit %d of op code %d was never told\n", bit, (int)code);
    family_of(name, (const int[]){ 111, 112, 113, -1 });
}

/* Words that are refused with another number, where they stand in a sequence, 24 by older firmware alone. The bits that are not named
   are clear. */
struct refused {
    uint64_t word, number;
};

#define ENGINE_OP(n) (UINT64_C(n) << 46)
#define MODULATOR_OP(n) (UINT64_C(n) << 45)
#define NCO(n) (UINT64_C(n) << 40)
static const struct refused refused[] = {
    { OP(2, HIGH), 12 }, { OP(2, HIGH | ENGINE_OP(2)), 12 }, { OP(2, ENGINE_OP(3)), 12 }, { OP(9, HIGH), 12 },
    { OP(9, HIGH | ENGINE_OP(1)), 12 }, { OP(9, ENGINE_OP(3)), 12 }, { OP(2, ENGINE_OP(1)), 13 }, { OP(9, ENGINE_OP(2)), 13 },
    { OP(1, HIGH | ENGINE_OP(3)), 14 }, { OP(10, HIGH | MODULATOR_OP(6)), 14 }, { OP(0, HIGH | ENGINE_OP(1) | 1), 15 },
    { OP(0, HIGH | ENGINE_OP(2) | UINT64_C(1) << 45), 15 }, { OP(0, HIGH | ENGINE_OP(3) | UINT64_C(1) << 24), 15 },
    { OP(1, HIGH | ENGINE_OP(1) | UINT64_C(1) << 36), 15 }, { OP(1, HIGH | ENGINE_OP(2) | 1), 15 },
    { OP(10, HIGH | MODULATOR_OP(1) | NCO(1) | 1), 15 }, { OP(10, HIGH | MODULATOR_OP(2) | NCO(1)), 15 },
    { OP(10, HIGH | MODULATOR_OP(4) | 1), 15 }, { OP(0, HIGH | UINT64_C(1) << 24), 16 }, { OP(1, HIGH | 1), 16 },
    { OP(10, HIGH | NCO(1) | 1), 16 }, { OP(0, HIGH | ENGINE_OP(3) | 16383), 17 }, { OP(12, 127), 17 }, { OP(10, HIGH | 2), 18 },
    { OP(10, HIGH | NCO(3) | 2), 18 }, { OP(10, HIGH | MODULATOR_OP(3) | NCO(4)), 18 },
    { OP(10, HIGH | MODULATOR_OP(3) | NCO(1) | UINT64_C(1) << 30), 19 }, { OP(10, HIGH | MODULATOR_OP(7) | NCO(3) | UINT64_C(1) << 31), 19 },
    { OP(0, HIGH | UINT64_C(2) << 24 | 16777215), 20 }, { OP(4, 67108863), 21 }, { OP(6, 67108863), 21 }, { OP(7, 67108863), 21 },
    { OP(12, 67108736), 21 }, { OP(1, HIGH | WIDE), 24 }, { OP(1, HIGH | UINT64_C(0xFFFFFFFF)), 24 },
};
enum { REFUSED = sizeof refused / sizeof *refused };

/* Each of these words that the firmware refuses, alone and with each unnamed bit of its op code, and words whose op code is none with each
   bit; what is told of each. */
static inline void each_beside(void (*with)(uint64_t word, struct told t))
{
    for (int k = 0; k < REFUSED; k++) {
        uint64_t word = refused[k].word, bits = unnamed_bits(word >> 60);
        if (refused[k].number == 24 && !firmware)
            continue;
        with(word, (struct told){ refused[k].number, 0 });
        for (int bit = 0; bit < 64; bit++)
            if (bits >> bit & 1)
                with(word | UINT64_C(1) << bit, told_of(word | UINT64_C(1) << bit));
    }
    for (uint64_t code = CODES; code < 16; code++)
        for (int bit = 0; bit < 60; bit++)
            with(OP(code, UINT64_C(1) << bit), (struct told){ 10, 0 });
}

/* The numbers that such a family must meet, of words alone and of words in a sequence. */
static const int beside[] = { 10, 12, 13, 14, 15, 16, 17, 18, 19, 24, 111, 112, 113, -1 };
static const int beside_placed[] = { 10, 12, 13, 14, 15, 16, 17, 18, 19, 20, 21, 22, 24, 111, 112, 113, -1 };

#endif
