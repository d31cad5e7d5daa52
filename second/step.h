/* One step: document 01, "One step", and document 02, requests 2, 3 and 6, in place on one state, for the run and for the calls of request 8.
   The single numbers of the state stand apart from its lists, so that they can stay in registers. */
#ifndef SECOND_STEP_H
#define SECOND_STEP_H

#include "word.h"

enum { WORDS = 65536, WAVE = 16777216, BUDGET = 1000000, STACK = 16, GROUP = 8, ENGINES = 6 };

struct input {
    const uint64_t *words;
    size_t n, messages_len, room;
    uint64_t wave, firmware;
    const uint8_t *messages;
    uint32_t triggers;
    uint64_t *trace;
};

struct state {
    uint64_t address, steps, used, sent, counter, reg, condition, held, depth;
};

struct lists {
    uint64_t waits[ENGINES], totals[ENGINES], back[STACK], counters[STACK];
};

/* What one dispatched word does to the engines' counts. */
static inline void count(struct lists *l, uint64_t word)
{
    uint64_t op = GET(word, 47, 46), engine;
    switch (GET(word, 63, 60)) {
    case WAVEFORM:
        if (op == 0)
            l->totals[0] += GET(word, 44, 24);
        if (op == 1)
            l->waits[0]++;
        break;
    case MARKER:
        engine = 1 + GET(word, 59, 58);
        if (op == 0)
            l->totals[engine] += GET(word, 31, 0) + 1; /* its transition word */
        if (op == 1)
            l->waits[engine]++;
        break;
    case MODULATOR:
        op = GET(word, 47, 45);
        if (op == 0)
            l->totals[5] += GET(word, 31, 0);
        if (op == 2)
            l->waits[5]++;
        break;
    case WAIT:
        for (int i = 0; i < ENGINES; i++)
            l->waits[i]++;
        break;
    }
}

/* The held words and the one at the address go out, or 43. */
static inline uint64_t send(struct state *s, struct lists *l, const struct input *in)
{
    if (s->sent + s->held + 1 > in->room)
        return 43;
    for (uint64_t a = s->address - s->held; a <= s->address; a++) {
        in->trace[s->sent++] = in->words[a];
        count(l, in->words[a]);
    }
    s->held = 0;
    s->address++;
    return 0;
}

/* H6. */
static inline int awaits_trigger(const struct lists *l, uint32_t triggers)
{
    for (int i = 0; i < ENGINES; i++)
        if (l->waits[i] > triggers)
            return 1;
    return 0;
}

static inline int compares(uint64_t code, uint64_t reg, uint64_t mask)
{
    switch (code) {
    case 0: return reg == mask;
    case 1: return reg != mask;
    case 2: return reg > mask;
    default: return reg < mask;
    }
}

/* H4: a jump that the condition lets act, or the next address; the condition is used up. */
static inline void jump(struct state *s, uint64_t to)
{
    s->address = s->condition != 1 ? to : s->address + 1;
    s->condition = 0;
}

/* H5, and 31. */
static inline uint64_t call(struct state *s, struct lists *l, uint64_t to)
{
    if (s->condition != 1) {
        if (s->depth == STACK)
            return 31;
        l->back[s->depth] = s->address + 1;
        l->counters[s->depth++] = s->counter;
    }
    jump(s, to);
    return 0;
}

/* H5, and 32. */
static inline uint64_t leave(struct state *s, struct lists *l)
{
    uint64_t to = 0;
    if (s->condition != 1) {
        if (s->depth == 0)
            return 32;
        s->depth--;
        to = l->back[s->depth];
        s->counter = l->counters[s->depth];
        l->back[s->depth] = l->counters[s->depth] = 0;
    }
    jump(s, to);
    return 0;
}

/* What a word does that form, 20, 21 and 22 let through: 0 where it moved, and else the number, with nothing altered. */
static inline uint64_t act(struct state *s, struct lists *l, const struct input *in, uint64_t word)
{
    switch (GET(word, 63, 60)) {
    case SYNC:
        if (awaits_trigger(l, in->triggers))
            return 41;
        /* and then as the others that are dispatched */
    case WAVEFORM:
    case MARKER:
    case MODULATOR:
    case WAIT:
        if (GET(word, 56, 56))
            return send(s, l, in);
        s->held++;
        break;
    case LOAD_REPEAT:
        s->counter = GET(word, 15, 0);
        break;
    case REPEAT: /* H3 */
        s->address = s->counter ? GET(word, 25, 0) : s->address + 1;
        s->counter -= s->counter != 0;
        return 0;
    case CMP:
        s->condition = compares(GET(word, 9, 8), s->reg, GET(word, 7, 0)) ? 2 : 1;
        break;
    case GOTO:
        jump(s, GET(word, 25, 0));
        return 0;
    case CALL:
        return call(s, l, GET(word, 25, 0));
    case RETURN:
        return leave(s, l);
    case LOAD_CMP:
        if (s->used >= in->messages_len)
            return 42;
        s->reg = in->messages[s->used++];
        break;
    }
    s->address++;
    return 0;
}

static inline int breaks_group(uint64_t held, uint64_t word)
{
    uint64_t code = GET(word, 63, 60);
    int engine = code == WAVEFORM || code == MARKER || code == MODULATOR;
    return held && (!engine || (held == GROUP - 1 && !GET(word, 56, 56)));
}

/* One step, in the document's order of tests; the budget is the caller's. */
static inline uint64_t step(struct state *s, struct lists *l, const struct input *in)
{
    if (s->address >= in->n)
        return 30;
    uint64_t word = in->words[s->address], number = refusal(word, in->firmware, in->wave, in->n);
    if (number)
        return number;
    return breaks_group(s->held, word) ? 22 : act(s, l, in, word);
}

/* 1, 2, 3 and 5. */
static inline uint64_t refused_input(const struct input *in, uint64_t budget)
{
    return in->n == 0 ? 1 : in->n > WORDS ? 2 : in->wave > WAVE ? 3 : budget > BUDGET ? 5 : 0;
}

/* The state as an answer tells it, behind its end, and as the host holds it. */
static inline void put_state(const struct state *s, const struct lists *l, uint64_t fields[53])
{
    const uint64_t one[4] = { s->address, s->steps, s->used, s->sent }, two[5] = { s->counter, s->reg, s->condition, s->held, s->depth };
    for (int i = 0; i < 4; i++)
        fields[i] = one[i];
    for (int i = 0; i < 5; i++)
        fields[16 + i] = two[i];
    for (int i = 0; i < ENGINES; i++)
        fields[4 + i] = l->waits[i], fields[10 + i] = l->totals[i];
    for (int i = 0; i < STACK; i++)
        fields[21 + i] = l->back[i], fields[37 + i] = l->counters[i];
}

#endif
