/* States to go on from, with their words and what the next call is given: those that runs left, those made up that pass, and damaged ones.
   Document 02, request 8, says which states no run could leave. */
#ifndef STATES_H
#define STATES_H

#include "called.h"

#define TWO_TO_32 (UINT64_C(1) << 32)
#define GREATEST (~UINT64_C(0))
#define LOW_PLAY OP(0, UINT64_C(2) << 24)

/* Messages from a place on; what stands behind the list is no message yet. */
static inline void fresh_messages(size_t from)
{
    for (size_t i = from; i < LIST; i++)
        messages[i] = (uint8_t)below(below(2) ? 4 : 256);
}

static inline struct given any_given(size_t n)
{
    const struct given g = { n, below(4), below(4) ? 200 : below(20), below(9), below(6), (uint32_t)below(3) };
    fresh_messages(0);
    return g;
}

/* A word that may be held. */
static inline uint64_t low_word(uint64_t wave)
{
    uint64_t word;
    do
        word = engine_word(wave, 0);
    while (!may_be_held(word, wave));
    return word;
}

/* A group; tells the address behind it. */
static inline size_t put_group(size_t at, uint64_t low, uint64_t wave)
{
    for (; low > 0; low--)
        words[at++] = low_word(wave);
    words[at++] = low_word(wave) | HIGH;
    return at;
}

static inline void put_noops(size_t n)
{
    for (size_t a = 0; a < n; a++)
        words[a] = ~UINT64_C(0);
}

static inline uint64_t any_comparison(void) { return OP(5, below(4) << 8 | below(4)); }

/* A sequence that goes round for ever: a counted loop around a subroutine with a group, another one under it behind a condition, messages, and
   waits for triggers; tells how many words. */
static inline size_t put_round(uint64_t wave)
{
    enum { INNER = 9 };
    const uint64_t outer[INNER] = { OP(3, below(6)), OP(7, INNER), OP(4, 1), OP(11, 0), any_comparison(), OP(6, 0), OP(9, HIGH | ENGINE_OP(2)),
        OP(2, HIGH | ENGINE_OP(1)), OP(6, 0) };
    size_t at = put_group(INNER, below(GROUP), wave), deeper = at + 3;
    copy(words, outer, INNER);
    words[at] = any_comparison();
    words[at + 1] = OP(7, deeper);
    words[at + 2] = OP(8, 0);
    words[deeper] = OP(3, below(3));
    at = put_group(deeper + 1, below(3), wave);
    words[at] = OP(4, deeper + 1);
    words[at + 1] = OP(8, 0);
    return at + 2;
}

static inline struct given any_round(void)
{
    struct given g = any_given(1);
    g.wave = 8;
    g.n = put_round(g.wave);
    return g;
}

static inline struct given any_sequence_given(void)
{
    struct given g = any_given(1 + below(below(3) ? 24 : 6));
    any_sequence(words, g.n, g.wave);
    return g;
}

/* A state that a run left. */
static inline struct given any_left(void)
{
    struct given g = below(4) ? any_round() : any_sequence_given();
    g.budget = below(80);
    start_calls();
    call(GO_ON, g);
    return g;
}

/* A count of any size, mostly small. */
static inline uint64_t any_count(void) { return below(3) ? below(4) : below(2) ? GREATEST - below(2) : random64() >> below(64); }

/* Words around a state's address: low ones below it, at times more than can be held, and mostly one that sends them. Tells how many may be
   held. */
static inline uint64_t put_held(uint64_t address, const struct given *g)
{
    uint64_t low = below(GROUP + 3);
    low = low < address ? low : address;
    for (uint64_t i = 1; i <= low; i++)
        words[address - i] = low_word(g->wave);
    if (address < g->n && below(3))
        words[address] = low_word(g->wave) | HIGH;
    return low < GROUP ? low : GROUP - 1;
}

/* The counts and the stack of a made-up state, as they may be after so many steps that are not held; often they are far from their bounds. */
static inline void make_up_rest(uint64_t s[STATE], const struct given *g, uint64_t done)
{
    uint64_t most = below(2) || done < 3 ? done : 3;
    for (int i = 0; i < ENGINES; i++) {
        s[WAITS + i] = below(3) ? below(most + 1) : most;
        s[TOTALS + i] = below(3) ? below((most << 32) + 1) : most << 32;
    }
    for (uint64_t i = 0; i < s[DEPTH]; i++) {
        s[BACK + i] = below(g->n + 1);
        s[COUNTERS + i] = any_count();
    }
    s[COUNTER] = any_count();
    s[REGISTER] = any_count();
    s[CONDITION] = below(3);
    s[USED] = below(g->messages + 1);
    s[SENT] = below(g->room + 1);
}

/* A state made up that passes; the next call is not refused. */
static inline struct given made_up(void)
{
    struct given g = any_sequence_given();
    uint64_t s[STATE] = { below(g.n + 1) }, done = below(40);
    s[HELD] = below(put_held(s[ADDRESS], &g) + 1);
    s[STEPS] = done + s[HELD];
    s[LAST_BUDGET] = s[STEPS] + below(3);
    s[LAST_TRIGGERS] = below(3);
    s[DEPTH] = below(STACK + 1);
    make_up_rest(s, &g, done);
    g.budget = s[LAST_BUDGET] + below(30);
    g.triggers = (uint32_t)(s[LAST_TRIGGERS] + below(3));
    start_calls();
    set_state(s);
    return g;
}

/* Values that a field of a state is set to: the bounds that there are, one past each, and far ones. */
enum { VALUES = 38 };
static inline uint64_t value_at(uint64_t k, int field, const struct given *g, const uint64_t s[STATE])
{
    const uint64_t done = s[STEPS] - s[HELD], now = s[field];
    const uint64_t list[VALUES] = {
        0, 1, 2, 3, 7, 8, 16, 17, 255, 256, 65535, 65536, now - 1, now + 1, s[HELD], g->n, g->n + 1, g->messages, g->messages + 1, g->room,
        g->room + 1, g->budget, g->budget + 1, g->triggers, (uint64_t)g->triggers + 1, s[STEPS], s[STEPS] + 1, done, done + 1, done << 32,
        (done << 32) + 1, s[LAST_BUDGET], s[LAST_BUDGET] + 1, TWO_TO_32 - 1, TWO_TO_32, TWO_TO_32 + 1, UINT64_C(1) << 63, GREATEST,
    };
    return list[k];
}

/* The state with some fields damaged. */
static inline void damage(uint64_t s[STATE], const uint64_t from[STATE], const struct given *g, uint64_t fields)
{
    copy(s, from, STATE);
    for (; fields > 0; fields--) {
        int field = (int)below(STATE);
        s[field] = value_at(below(VALUES), field, g, s);
    }
}

/* A state in which every field has a bound of its own: three are held of ten low words, and every entry of the stack is in use. */
enum { FULL_N = 20, FULL_LOW = 3, FULL_ADDRESS = 13, FULL_STEPS = 50, FULL_LAST = 60, FULL_HELD = 3 };
static inline struct given full_state(uint64_t s[STATE])
{
    const struct given g = { FULL_N, 5, 9, 8, 70, 3 };
    fresh_messages(0);
    for (size_t a = 0; a < FULL_N; a++)
        words[a] = a >= FULL_LOW && a < FULL_ADDRESS ? LOW_PLAY : OP(6, a);
    words[FULL_ADDRESS] = LOW_PLAY | HIGH;
    for (int i = 0; i < STATE; i++)
        s[i] = 2;
    s[ADDRESS] = FULL_ADDRESS;
    s[STEPS] = FULL_STEPS;
    s[CONDITION] = 1;
    s[HELD] = FULL_HELD;
    s[DEPTH] = STACK;
    s[LAST_BUDGET] = FULL_LAST;
    return g;
}

/* The least that a field can be in that state: as many addresses as are held above the low words, steps for the counts, and so on. */
static inline uint64_t least_of(int field)
{
    switch (field) {
    case ADDRESS: return FULL_LOW + FULL_HELD;
    case STEPS: return FULL_HELD + 2;
    case DEPTH: return STACK;
    case LAST_BUDGET: return FULL_STEPS;
    default: return 0;
    }
}

/* And the greatest. Counters and the register have no bound. */
static inline uint64_t greatest_of(int field)
{
    const uint64_t done = FULL_STEPS - FULL_HELD;
    switch (field) {
    case ADDRESS: return FULL_ADDRESS;
    case STEPS: return FULL_LAST;
    case USED: return 5;
    case SENT: return 9;
    case COUNTER:
    case REGISTER: return GREATEST;
    case CONDITION: return 2;
    case HELD: return GROUP - 1;
    case DEPTH: return STACK;
    case LAST_BUDGET: return 70;
    case LAST_TRIGGERS: return 3;
    default: return field < TOTALS ? done : field < COUNTER ? done << 32 : field < COUNTERS ? FULL_N : GREATEST;
    }
}

#endif
