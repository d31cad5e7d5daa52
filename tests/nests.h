/* Texts of blocks: lines that are good for the waveform memory of the case, and nests of them. */
#ifndef NESTS_H
#define NESTS_H

#include "texts.h"

enum { WORDS = 65536, WAVE = 16777216, PASSES = 65536, NEST = 16 };

/* The waveform memory of the case under test. */
static uint64_t wave;

static inline void put_play(const char *name, uint64_t address, uint64_t count)
{
    put_bytes(name), put_bytes("\t"), put_decimal(address), put_bytes("\t"), put_decimal(count), put_bytes("\n");
}

static inline void put_repeat(uint64_t passes) { put_bytes("repeat\t"), put_decimal(passes), put_bytes("\n"); }
static inline void put_end(void) { put_bytes("end\n"); }

static inline void put_repeats(size_t n)
{
    while (n--)
        put_repeat(1);
}

static inline void put_ends(size_t n)
{
    while (n--)
        put_end();
}

/* Waveform memories, the allowed ones first. */
static const uint64_t waves[] = { 8, 0, 1, 2, 3, 2097151, 2097152, WAVE - 1, WAVE, WAVE + 1, ~UINT64_C(0) };
enum { ALLOWED = 9, WAVES = sizeof waves / sizeof *waves };

static inline void start_text(void)
{
    len = 0;
    wave = waves[below(2) ? 0 : below(ALLOWED)];
}

/* A play or hold that has its place in the waveform memory, at times just; nothing where none has. */
static inline void put_item(void)
{
    if (!wave)
        return;
    uint64_t hold = wave < 2 || below(2), most = hold || wave > top(21) ? top(21) : wave;
    uint64_t count = below(3) ? 2 + below(most < 6 ? most - 1 : 5) : below(2) ? most : 2 + below(most - 1);
    uint64_t last = hold ? wave - 1 : wave - count;
    put_play(hold ? "hold" : "play", below(3) ? below(last + 1) : below(2) ? last : 0, count);
}

static inline void put_items(uint64_t n)
{
    while (n--)
        put_item();
}

static inline uint64_t any_passes(void)
{
    switch (below(80)) {
    case 0: return PASSES;
    case 1: return 1 + below(PASSES);
    default: return below(10) ? 1 + below(3) : 1 + below(40);
    }
}

/* Some items, some of them repeats around such a block. */
static inline void put_block(uint64_t items, int deeper)
{
    for (; items > 0; items--)
        if (deeper && below(3) == 0) {
            put_repeat(any_passes());
            put_block(below(4), deeper - 1);
            put_end();
        } else {
            put_item();
        }
}

static inline void any_block(void)
{
    start_text();
    put_block(below(7), 6);
}

/* A nest so deep, with items before and behind its repeats; their N is as given, or any where that is 0. */
static inline void put_nest(size_t deep, uint64_t passes)
{
    put_items(below(3));
    if (!deep)
        return;
    put_repeat(passes ? passes : any_passes());
    put_nest(deep - 1, passes);
    put_end();
    put_items(below(2));
}

/* How many lines start with a letter; those of the four names start with different ones. */
static inline size_t lines_with(uint8_t letter)
{
    size_t n = 0;
    for (size_t at = 0; at < len; at = line_to(at))
        n += text[at] == letter;
    return n;
}

static inline size_t plays(void) { return lines_with('p') + lines_with('h'); }

/* The words of a block with such lines. */
static inline size_t block_size(void) { return 2 + plays() + 4 * lines_with('r'); }

static inline size_t line_count(void)
{
    size_t n = 0;
    for (size_t at = 0; at < len; at = line_to(at))
        n++;
    return n;
}

/* The line of the n-th `repeat`. */
static inline uint64_t repeat_line(size_t n)
{
    size_t line = 0;
    for (size_t at = 0; n > 0; at = line_to(at)) {
        line++;
        n -= text[at] == 'r';
    }
    return line;
}

#endif
