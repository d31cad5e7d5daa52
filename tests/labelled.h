/* Listings of both editions, made from one plan: words of all names with their targets, and lines with labels before some of them. What a plan
   is in one edition is what a move of the other must write. */
#ifndef LABELLED_H
#define LABELLED_H

#include "rows.h"

enum { PLANNED = 66000, LETTERS = 16, UNLABELLED = 3 };

/* A word: its row and fields, and for a jump the label that it names. */
static struct planned {
    const struct row *row;
    uint64_t f[6], label;
} plan[PLANNED + 1];
static size_t planned;

/* Lines with labels, those before the same word in their order; `at` is the word's address, or the plan's length where none follows. */
static struct defined {
    size_t at;
    uint64_t label;
} definitions[2 * PLANNED];
static size_t defined;

/* What a move is expected to write. */
static uint8_t expected[TEXT];
static size_t expected_len;

static inline void expect_text(void)
{
    for (size_t i = 0; i < len; i++)
        expected[i] = text[i];
    expected_len = len;
}

/* REPEAT, GOTO and CALL. */
static inline int is_jump(const struct row *row) { return row->code == 4 || row->code == 6 || row->code == 7; }

/* The name of a label is made from its number, in one style for a whole text: `L` and the number, or letters that spell the number in `spelt`
   places, at the front or behind, and others that fill it up to a length. In one text no two names are the same. */
enum { OURS, FRONT, BEHIND_OTHERS };
static struct {
    int where, spelt, least, most;
    uint64_t fill;
} style;

static const char letters[] = "0123456789ABCDEFGHIJKLMNOPQRSTUVWXYZabcdefghijklmnopqrstuvwxyz";
enum { ALPHABET = sizeof letters - 1 };

static inline void spell(uint64_t label)
{
    for (int i = 0; i < style.spelt; i++, label /= ALPHABET)
        text[len++] = (uint8_t)letters[label % ALPHABET];
}

static inline uint64_t mixed(uint64_t n)
{
    n = (n ^ style.fill) * UINT64_C(0x9E3779B97F4A7C15);
    return n ^ n >> 29;
}

static inline void put_label(uint64_t label)
{
    if (style.where == OURS) {
        put_bytes("L"), put_decimal(label);
        return;
    }
    int fill = style.least + (int)(mixed(label) % (uint64_t)(style.most - style.least + 1)) - style.spelt;
    if (style.where == FRONT)
        spell(label);
    for (int i = 0; i < fill; i++)
        text[len++] = (uint8_t)(style.fill ? letters[mixed(label * 31 + (uint64_t)i) % ALPHABET] : 'A');
    if (style.where == BEHIND_OTHERS)
        spell(label);
}

/* A style with names for so many labels; the rest of a name is the same in all of them or any. */
static inline void any_style(uint64_t count)
{
    int spelt = 1;
    for (uint64_t names = ALPHABET; names < count; names *= ALPHABET)
        spelt++;
    style.where = (int)below(3);
    style.spelt = below(4) ? spelt : spelt + (int)below((uint64_t)(LETTERS - spelt + 1));
    style.least = below(3) ? style.spelt : style.spelt + (int)below((uint64_t)(LETTERS - style.spelt + 1));
    style.most = below(2) ? LETTERS : style.least + (int)below((uint64_t)(LETTERS - style.least + 1));
    style.fill = below(3) ? random64() : 0;
}

static inline void our_style(void) { style.where = OURS; }

/* A line of edition 2. */
static inline void put_definition(uint64_t label) { put_bytes("label\t"), put_label(label), put_bytes("\n"); }

static inline void put_labelled_row(const struct row *row, const uint64_t f[6], uint64_t label)
{
    put_bytes(row->name);
    put_fields(f, is_jump(row) ? 2 : row->count);
    if (is_jump(row))
        put_bytes("\t"), put_label(label);
    put_bytes("\n");
}

static inline void put_edition_1(void)
{
    start_edition(1);
    for (size_t a = 0; a < planned; a++)
        put_row(a, plan[a].row, plan[a].f);
}

static inline void put_edition_2(void)
{
    size_t d = 0;
    start_edition(2);
    for (size_t a = 0; a <= planned; a++) {
        for (; d < defined && definitions[d].at == a; d++)
            put_definition(definitions[d].label);
        if (a < planned)
            put_labelled_row(plan[a].row, plan[a].f, plan[a].label);
    }
}

/* Fields as people write them, and any that are numbers: no word is asked for. */
static inline void planned_fields(struct planned *w)
{
    any_fields(w->row, w->f);
    if (below(12) == 0 && w->row->count)
        w->f[below((uint64_t)w->row->count)] = random64() >> below(64);
}

/* n words of all names; every target is one of them. */
static inline void plan_words(size_t n)
{
    planned = n;
    for (size_t a = 0; a < n; a++) {
        struct planned *w = &plan[a];
        w->row = below(3) ? any_row() : &rows[below(2) ? 6 : below(2) ? 7 : 4];
        planned_fields(w);
        if (is_jump(w->row))
            w->f[2] = below(4) ? below(n) : below(2) ? a : n - 1 - below(n < 3 ? n : 3);
        w->label = w->f[2];
    }
}

static inline void define(size_t at, uint64_t label)
{
    definitions[defined].at = at;
    definitions[defined++].label = label;
}

/* The addresses that a jump means. */
static uint8_t means[PLANNED];

static inline void mark_targets(void)
{
    for (size_t a = 0; a < planned; a++)
        means[a] = 0;
    for (size_t a = 0; a < planned; a++)
        if (is_jump(plan[a].row))
            means[plan[a].f[2]] = 1;
}

/* Each target, and no other word, has the label that a move to edition 2 gives it. */
static inline void define_targets(void)
{
    mark_targets();
    our_style();
    defined = 0;
    for (size_t a = 0; a < planned; a++) {
        plan[a].label = plan[a].f[2];
        if (means[a])
            define(a, a);
    }
}

/* Labels in any style: each target has one, two or three, whichever a jump names, and some words have labels for no jump. */
static inline void define_any(void)
{
    mark_targets();
    any_style(3 * planned + UNLABELLED);
    defined = 0;
    for (size_t a = 0; a < planned; a++) {
        uint64_t more = below(6) ? 0 : 1 + below(2);
        if (means[a] || below(8) == 0)
            define(a, a);
        for (uint64_t i = 1; i <= more && means[a]; i++)
            define(a, a + i * planned);
        for (size_t b = 0; more && b < planned; b++)
            if (is_jump(plan[b].row) && plan[b].f[2] == a && below(2))
                plan[b].label = a + (1 + below(more)) * planned;
    }
}

/* A number that no label has until it is defined, in any style. */
static inline uint64_t other_label(uint64_t k) { return 3 * planned + k % UNLABELLED; }

/* Puts a definition among the others, before those of the same word or behind them; tells where. */
static inline size_t define_at(size_t at, uint64_t label)
{
    size_t d = 0;
    while (d < defined && (definitions[d].at < at || (definitions[d].at == at && below(2))))
        d++;
    for (size_t i = defined++; i > d; i--)
        definitions[i] = definitions[i - 1];
    definitions[d].at = at;
    definitions[d].label = label;
    return d;
}

static inline void undefine(size_t d)
{
    defined--;
    for (; d < defined; d++)
        definitions[d] = definitions[d + 1];
}

/* The line of a word, and that of a definition, in edition 2. */
static inline uint64_t word_line(size_t a)
{
    size_t d = 0;
    while (d < defined && definitions[d].at <= a)
        d++;
    return 2 + a + d;
}

static inline uint64_t definition_line(size_t d) { return 2 + definitions[d].at + d; }

#endif
