/* One call in both programs, a single step or a go-on: the number, the bit, the 55 numbers of the state and the whole trace with its tail are
   compared, and held to what document 02, request 8 says of every call. What is refused is worked out here once more. */
#ifndef CALLED_H
#define CALLED_H

#include "../include/aps2.h"
#include "../second/second.h"
#include "bits.h"
#include "cases.h"

enum { WORDS = 65536, WAVE = 16777216, BUDGET = 1000000, STACK = 16, GROUP = 8, ENGINES = 6 };
enum { ROOM = 1024, BEHIND = 8 /* words of buffer behind what is lent */, LIST = 64, SHOWN = 40 };

/* Where the state has what. */
enum { ADDRESS, STEPS, USED, SENT, WAITS, TOTALS = WAITS + ENGINES, COUNTER = TOTALS + ENGINES, REGISTER, CONDITION, HELD, DEPTH, BACK };
enum { COUNTERS = BACK + STACK, LAST_BUDGET = COUNTERS + STACK, LAST_TRIGGERS, STATE };

/* The two kinds of call, in both programs. */
enum { SINGLE, GO_ON, CALLS };
typedef uint64_t calling(const uint64_t *words, size_t n, uint64_t wave, uint64_t firmware, const uint8_t *messages, size_t messages_len,
                         uint32_t triggers, uint64_t *trace, size_t room, uint64_t budget, uint64_t state[STATE], uint64_t bit[1]);
static calling *const our_calls[CALLS] = { aps2_step, aps2_go_on }, *const their_calls[CALLS] = { second_step, second_go_on };

/* What a call is given beside the state, the words and the firmware. */
struct given {
    size_t n, messages, room;
    uint64_t wave, budget;
    uint32_t triggers;
};

static uint64_t words[WORDS + 1];
static uint8_t messages[LIST];

/* State and trace as each program left them, and before the call; the bit that ours told. */
static uint64_t ours[STATE], theirs[STATE], before[STATE], our_bit[1];
static uint64_t our_trace[ROOM + BEHIND], their_trace[ROOM + BEHIND], trace_before[ROOM + BEHIND];

static inline void copy(uint64_t *to, const uint64_t *from, size_t count)
{
    for (size_t i = 0; i < count; i++)
        to[i] = from[i];
}

static inline int same(const uint64_t *a, const uint64_t *b, size_t count)
{
    for (size_t i = 0; i < count; i++)
        if (a[i] != b[i])
            return 0;
    return 1;
}

/* A low engine word that passes form and 20: the proved reader takes it apart. */
static inline int may_be_held(uint64_t word, uint64_t wave)
{
    uint64_t code = word >> 60, f[8], bit[1];
    if ((code != 0 && code != 1 && code != 10) || word & HIGH || aps2_read(word, firmware, f, bit))
        return 0;
    uint64_t op = f[3], hold = f[4], count = f[5], address = f[6];
    if (code != 0 || op == 1 || op == 2)
        return 1;
    return op == 0 && !hold ? address + count <= wave : address < wave;
}

static inline int held_are_odd(const struct given *g, const uint64_t s[STATE])
{
    if (s[HELD] >= GROUP || s[HELD] > s[STEPS] || s[HELD] > s[ADDRESS])
        return 1;
    for (uint64_t k = 1; k <= s[HELD]; k++)
        if (!may_be_held(words[s[ADDRESS] - k], g->wave))
            return 1;
    return 0;
}

static inline int stack_is_odd(const struct given *g, const uint64_t s[STATE])
{
    int odd = s[DEPTH] > STACK;
    for (uint64_t i = 0; i < STACK; i++)
        odd |= s[BACK + i] > g->n || (s[DEPTH] <= i && (s[BACK + i] != 0 || s[COUNTERS + i] != 0));
    return odd;
}

/* Numbers of 128 bits hold 2^32 times any count of steps. */
static inline int counts_are_odd(const uint64_t s[STATE])
{
    const unsigned __int128 done = s[STEPS] - s[HELD];
    int odd = 0;
    for (int i = 0; i < ENGINES; i++)
        odd |= s[WAITS + i] > done || s[TOTALS + i] > done << 32;
    return odd;
}

/* Whether no run could leave the state, by its fields. */
static inline int is_odd(const struct given *g, const uint64_t s[STATE])
{
    if (s[ADDRESS] > g->n || s[STEPS] > s[LAST_BUDGET] || s[USED] > g->messages || s[SENT] > g->room || s[CONDITION] > 2)
        return 1;
    return held_are_odd(g, s) || stack_is_odd(g, s) || counts_are_odd(s);
}

/* What a call is refused with, or 0. */
static inline uint64_t refused_with(const struct given *g, const uint64_t s[STATE])
{
    if (g->n == 0 || g->n > WORDS)
        return g->n == 0 ? 1 : 2;
    if (g->wave > WAVE || g->budget > BUDGET)
        return g->wave > WAVE ? 3 : 5;
    if (is_odd(g, s))
        return 70;
    return g->triggers < s[LAST_TRIGGERS] || g->budget < s[LAST_BUDGET] ? 71 : 0;
}

static inline int is_refusal(uint64_t number) { return (number >= 1 && number <= 5) || number == 70 || number == 71; }

/* A single step that was done ends with 0, and one that was not does nothing; a go-on never does. 40 stands just where the budget is spent. */
static inline int ends_rightly(int kind, const struct given *g, uint64_t number)
{
    uint64_t done = ours[STEPS] - before[STEPS], spent = kind == GO_ON ? ours[STEPS] : before[STEPS];
    if (ours[STEPS] < before[STEPS] || (kind == SINGLE && done > 1) || (done == 0 && !same(ours, before, LAST_BUDGET)))
        return 0;
    return (number == 0) == (kind == SINGLE && done == 1) && (number == 40) == (spent == g->budget);
}

/* What a call that is not refused keeps to: this time's budget and triggers, a state that could be left, and a trace that grew at its end. */
static inline int keeps_to_rules(int kind, const struct given *g, uint64_t number)
{
    if (ours[LAST_BUDGET] != g->budget || ours[LAST_TRIGGERS] != g->triggers || is_odd(g, ours) || ours[SENT] < before[SENT])
        return 0;
    if (!same(our_trace, trace_before, before[SENT]) || !same(our_trace + ours[SENT], trace_before + ours[SENT], g->room + BEHIND - ours[SENT]))
        return 0;
    return !is_refusal(number) && ends_rightly(kind, g, number) && tells_at(words, ours[ADDRESS], number, our_bit[0]);
}

/* And one that is: nothing is changed. */
static inline int left_all(const struct given *g)
{
    return our_bit[0] == 0 && same(ours, before, STATE) && same(our_trace, trace_before, g->room + BEHIND);
}

static inline void show_given(int kind, const struct given *g)
{
    show_number("calls");
    printf("  %s, n %llu, W %llu, firmware %llu, messages %llu, triggers %u, room %llu, budget %llu\n  words", kind == GO_ON ? "go-on" : "single step",
           (unsigned long long)g->n, (unsigned long long)g->wave, (unsigned long long)firmware, (unsigned long long)g->messages, g->triggers,
           (unsigned long long)g->room, (unsigned long long)g->budget);
    for (size_t i = 0; i < g->n && i < SHOWN; i++)
        printf(" %llx", (unsigned long long)words[i]);
    printf("\n  messages");
    for (size_t i = 0; i < g->messages && i < LIST; i++)
        printf(" %u", messages[i]);
    printf("\n");
}

/* The state before, and after in both programs, where it is not all zeros. */
static inline void show_states(void)
{
    for (int i = 0; i < STATE; i++)
        if (before[i] || ours[i] || theirs[i])
            printf("  state %d: %llu before, %llu after, other %llu\n", i, (unsigned long long)before[i], (unsigned long long)ours[i],
                   (unsigned long long)theirs[i]);
}

/* A case that is wrong: the first is shown. */
static inline void wrong(int kind, const struct given *g, const char *what, uint64_t number, uint64_t other)
{
    if (!failed) {
        show_given(kind, g);
        show_states();
        printf("  wrong: %s; number %llu, other %llu, bit %llu\n", what, (unsigned long long)number, (unsigned long long)other,
               (unsigned long long)our_bit[0]);
    }
    failed = 1;
}

/* Both programs go on from the state and the trace that are there. */
static inline uint64_t call(int kind, struct given g)
{
    uint64_t their_bit[1] = { random64() }, expected = refused_with(&g, ours);
    size_t seen = (compared % 64 ? g.room : ROOM) + BEHIND;
    our_bit[0] = random64();
    copy(before, ours, STATE);
    copy(trace_before, our_trace, seen);
    uint64_t number = our_calls[kind](words, g.n, g.wave, firmware, messages, g.messages, g.triggers, our_trace, g.room, g.budget, ours, our_bit);
    uint64_t other = their_calls[kind](words, g.n, g.wave, firmware, messages, g.messages, g.triggers, their_trace, g.room, g.budget, theirs,
                                       their_bit);
    compared++;
    meet(number);
    if (number != other || our_bit[0] != their_bit[0])
        wrong(kind, &g, "the numbers or the bits", number, other);
    else if (!same(ours, theirs, STATE))
        wrong(kind, &g, "the states", number, other);
    else if (!same(our_trace, their_trace, seen))
        wrong(kind, &g, "the traces", number, other);
    else if (expected ? number != expected || !left_all(&g) : !keeps_to_rules(kind, &g, number))
        wrong(kind, &g, expected ? "a refusal" : "what every call keeps to", number, expected);
    return number;
}

/* The same, of a call whose number and bit are known. */
static inline void expect(int kind, struct given g, struct told t)
{
    uint64_t number = call(kind, g);
    if (number != t.number || our_bit[0] != t.bit)
        wrong(kind, &g, "what is expected", number, t.number);
}

/* A state for both programs. */
static inline void set_state(const uint64_t s[STATE])
{
    copy(ours, s, STATE);
    copy(theirs, s, STATE);
}

/* The fresh state, and a trace that holds anything. */
static inline void start_calls(void)
{
    for (int i = 0; i < STATE; i++)
        ours[i] = theirs[i] = 0;
    for (size_t i = 0; i < ROOM + BEHIND; i++)
        our_trace[i] = their_trace[i] = random64();
}

/* Calls on the side: they are compared, and then all is as it was. */
static uint64_t kept[STATE], kept_trace[ROOM + BEHIND];

static inline void keep(void)
{
    copy(kept, ours, STATE);
    copy(kept_trace, our_trace, ROOM + BEHIND);
}

static inline void put_back(void)
{
    set_state(kept);
    copy(our_trace, kept_trace, ROOM + BEHIND);
    copy(their_trace, kept_trace, ROOM + BEHIND);
}

#endif
