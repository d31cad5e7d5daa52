/* Blocks with counted repeats: document 02, request 5. All lines are judged, and the words of each part are counted, before the first word
   is written. The parts are the main line, from SYNC to the park, and the body of each repeat with its RETURN; they stand one behind the
   other in reading order. */
#include "text.h"
#include "word.h"

enum { WORDS = 65536, WAVE = 16777216, PASSES = 65536, NEST = 16 };

/* How many words each part has: the main line, and as many bodies as there can be. Those that are too many all count as the last. */
enum { BODIES = (WORDS - 2) / 4 };
static uint32_t size[1 + BODIES];

/* A line: the first letter of its name, in which the four differ, and its numbers, address and count or N. */
struct line {
    uint8_t name;
    uint64_t number[2];
};

#define CODE(code) ((uint64_t)(code) << 60)
#define HIGH MASK(56, 56)

static inline const uint8_t *shaped(const uint8_t *at, const uint8_t *end, const char *name, int numbers, struct line *l)
{
    at = letters(at, end, name);
    for (int i = 0; at && i < numbers; i++)
        at = tabbed(at, end, &l->number[i]);
    return at ? byte(at, end, '\n') : NULL;
}

/* The line at a place, of one of the four shapes. */
static inline const uint8_t *read_line(const uint8_t *at, const uint8_t *end, struct line *l)
{
    l->name = at < end ? *at : 0;
    switch (l->name) {
    case 'p':
        return shaped(at, end, "play", 2, l);
    case 'h':
        return shaped(at, end, "hold", 2, l);
    case 'r':
        return shaped(at, end, "repeat", 1, l);
    case 'e':
        return shaped(at, end, "end", 0, l);
    default:
        return NULL;
    }
}

/* The writer's numbers and 20. */
static inline uint64_t judge_play(const struct line *l, uint64_t wave)
{
    const uint64_t f[4] = { 0, l->name == 'h', l->number[1], l->number[0] };
    if (f[2] > ONES(44, 24) || f[3] > ONES(23, 0))
        return 23;
    uint64_t number = waveform_form(f[0], f[1], f[2], f[3]);
    return number ? number : placing(WAVEFORM, f, wave, 0);
}

/* The number that refuses a line of good shape where so many repeats are open. */
static inline uint64_t judge(const struct line *l, size_t depth, uint64_t wave)
{
    switch (l->name) {
    case 'r':
        return l->number[0] < 1 || l->number[0] > PASSES ? 51 : depth == NEST ? 53 : 0;
    case 'e':
        return depth ? 0 : 52;
    default:
        return judge_play(l, wave);
    }
}

/* What is counted before any word is written: the words in all, the part begun last, and the parts that are open. */
struct count {
    size_t words, part, depth, open[NEST + 1];
};

static inline void count(struct count *c, const struct line *l)
{
    switch (l->name) {
    case 'r':
        c->words += 4;
        size[c->open[c->depth]] += 3; /* LOAD_REPEAT, CALL, REPEAT */
        c->part += c->part < BODIES;
        c->open[++c->depth] = c->part;
        size[c->part] = 1; /* RETURN */
        break;
    case 'e':
        c->depth--;
        break;
    default:
        c->words++;
        size[c->open[c->depth]]++;
    }
}

/* The words being written: the part begun last, where the next one goes, and the next word of each part that is open. */
struct layout {
    uint64_t *words;
    size_t part, start, depth, next[NEST + 1];
};

static inline void put(struct layout *b, uint64_t word) { b->words[b->next[b->depth]++] = word; }

static inline void lay(struct layout *b, const struct line *l)
{
    switch (l->name) {
    case 'r':
        put(b, CODE(LOAD_REPEAT) | (l->number[0] - 1));
        put(b, CODE(CALL) | b->start);
        put(b, CODE(REPEAT) | (b->next[b->depth] - 1));
        b->next[++b->depth] = b->start;
        b->start += size[++b->part];
        break;
    case 'e':
        put(b, CODE(RETURN));
        b->depth--;
        break;
    default:
        put(b, CODE(WAVEFORM) | HIGH | (uint64_t)(l->name == 'h') << 45 | l->number[1] << 24 | l->number[0]);
    }
}

static void write_words(const uint8_t *at, const uint8_t *end, uint64_t *words)
{
    struct layout b = { words, 0, size[0], 0, { 0 } };
    struct line l;
    put(&b, CODE(SYNC) | HIGH | UINT64_C(2) << 46);
    while (at < end) {
        at = read_line(at, end, &l);
        lay(&b, &l);
    }
    put(&b, CODE(GOTO) | b.next[0]);
}

uint64_t second_block(const uint8_t *text, size_t len, uint64_t wave, uint64_t *words, size_t words_len, uint64_t told[2])
{
    const uint8_t *end = text + len, *at = text;
    struct count c = { 2, 0, 0, { 0 } };
    struct line l;
    uint64_t lines = 0, number = 0;
    told[0] = told[1] = 0;
    if (wave > WAVE)
        return 3;
    size[0] = 2; /* SYNC and the park */
    while (at < end && !number) {
        lines++;
        at = read_line(at, end, &l);
        number = at ? judge(&l, c.depth, wave) : 50;
        if (!number)
            count(&c, &l);
    }
    if (!number && c.depth) {
        lines++;
        number = 52;
    }
    if (number) {
        told[0] = lines;
        return number;
    }
    if (c.words > WORDS)
        return 54;
    if (c.words > words_len)
        return 55;
    write_words(text, end, words);
    told[1] = c.words;
    return 0;
}
