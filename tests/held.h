/* The words of an accepted block held to its text: they are those that its lines ask for and stand where these lead, both checks accept them,
   and both runs of them dispatch what the unrolled text does, in as many steps. Where the bodies lie is not asked. */
#ifndef HELD_H
#define HELD_H

#include "../include/aps2.h"
#include "../second/second.h"
#include "nests.h"

enum { BUDGET = 1000000, NEAR = 4000 /* steps of a run that is not long */ };
#define TRACE (BUDGET + 64)

/* What both checks and both runs make of the words; `old_trace` is what both traces held. */
static uint64_t our_marks[WORDS], their_marks[WORDS];
static uint64_t our_trace[TRACE + BEHIND], their_trace[TRACE + BEHIND], old_trace[TRACE + BEHIND], unrolled[TRACE];

/* How many runs got to the park, and how many had no room. */
static uint64_t parked, stopped;

static inline void start_traces(void)
{
    for (size_t i = 0; i < TRACE + BEHIND; i++)
        our_trace[i] = their_trace[i] = old_trace[i] = random64();
}

/* As many words of each op code as the lines say, all with engine select 0, the write flag high on SYNC, play and hold only. */
static inline int counted(const uint64_t *words, size_t n)
{
    size_t repeats = lines_with('r'), codes[16] = { 0 };
    const size_t expected[16] = { [0] = plays(), [3] = repeats, [4] = repeats, [6] = 1, [7] = repeats, [8] = repeats, [9] = 1 };
    int good = n == block_size();
    for (size_t a = 0; a < n; a++) {
        uint64_t code = words[a] >> 60;
        codes[code]++;
        good &= (words[a] >> 56 & 15) == (code == 0 || code == 9);
    }
    for (int code = 0; code < 16; code++)
        good &= codes[code] == expected[code];
    return good;
}

/* The words that a walk along the text has met. */
static uint8_t taken[WORDS];

static inline int takes(const uint64_t *words, size_t n, size_t a, uint64_t word)
{
    if (a >= n || taken[a] || words[a] != word)
        return 0;
    taken[a] = 1;
    return 1;
}

/* The numbers of the line at a place of an accepted text, after its name; the place of the next line. */
static inline size_t numbers_at(size_t at, uint64_t f[3])
{
    f[0] = f[1] = f[2] = 0;
    for (int i = 0; text[at] != '\n'; at++)
        if (text[at] == '\t')
            i++;
        else if (i)
            f[i] = 10 * f[i] + (uint64_t)(text[at] - '0');
    return at + 1;
}

/* The words of an accepted text, wherever its bodies lie: SYNC; a line's words where those of the line before it lead; the park. Each word
   is met once. */
static inline int stands(const uint64_t *words, size_t n)
{
    size_t back[NEST], depth = 0, a = 1, next;
    for (size_t i = 0; i < n; i++)
        taken[i] = 0;
    int good = takes(words, n, 0, OP(9, HIGH | UINT64_C(2) << 46));
    for (size_t at = 0; good && at < len; at = next) {
        uint64_t f[3], body = a + 1 < n ? words[a + 1] & top(26) : 0, hold = text[at] == 'h';
        next = numbers_at(at, f);
        if (text[at] == 'r') {
            good = takes(words, n, a, OP(3, f[1] - 1)) && takes(words, n, a + 1, OP(7, body)) && takes(words, n, a + 2, OP(4, a + 1));
            back[depth++] = a + 3;
            a = body;
        } else if (text[at] == 'e') {
            good = takes(words, n, a, OP(8, 0));
            a = back[--depth];
        } else {
            good = takes(words, n, a++, OP(0, HIGH | hold << 45 | f[2] << 24 | f[1]));
        }
    }
    good = good && takes(words, n, a, OP(6, a));
    for (size_t i = 0; i < n; i++)
        good &= taken[i];
    return good;
}

/* Both checks accept the words for the same waveform memory, with the same marks. */
static inline int accepted(const uint64_t *words, size_t n)
{
    uint64_t place[2] = { 1, 1 }, other[2] = { 1, 1 };
    int good = aps2_check(words, n, wave, firmware, our_marks, n, place) == 0 && second_check(words, n, wave, firmware, their_marks, n, other) == 0;
    good &= place[0] == 0 && place[1] == 0 && other[0] == 0 && other[1] == 0;
    for (size_t a = 0; a < n; a++)
        good &= our_marks[a] == their_marks[a];
    return good;
}

/* Both traces hold what the unrolled text dispatches, and what they held before. They are then put back. */
static inline int same_traces(size_t sent, size_t room)
{
    int good = 1;
    for (size_t i = 0; i < room + BEHIND; i++) {
        uint64_t expected = i < sent ? unrolled[i] : old_trace[i];
        good &= our_trace[i] == expected && their_trace[i] == expected;
        our_trace[i] = their_trace[i] = old_trace[i];
    }
    return good;
}

/* What an answer must say: it stands at the park, on a GOTO to itself and with nothing left to do, just where the unrolled text has come to
   its end; where it stops before, budget or room are spent. */
static inline int answers(const uint64_t *words, size_t n, const uint64_t answer[55], uint64_t budget, const uint64_t told[4])
{
    int at_park = told[2] == told[0], good = answer[1] < n && (words[answer[1]] == OP(6, answer[1])) == at_park;
    uint64_t total = 0;
    for (size_t i = 0; i < told[3]; i++)
        total += unrolled[i] >> 60 == 0 ? unrolled[i] >> 24 & top(21) : 0;
    good &= answer[0] == (at_park || told[2] == budget ? 40 : 43);
    good &= answer[2] == (at_park ? budget : told[2]) && answer[4] == told[3] && answer[11] == total;
    parked += (uint64_t)at_park;
    stopped += (uint64_t)(answer[0] == 43);
    return good && (!at_park || (answer[17] == 0 && answer[21] == 0));
}

/* The words in both runs. */
static inline int runs(const uint64_t *words, size_t n, uint64_t budget, size_t room)
{
    static const uint8_t messages[1];
    uint64_t told[4], answer[55], other[55];
    uint32_t triggers = (uint32_t)random64();
    for (int i = 0; i < 55; i++)
        answer[i] = random64(), other[i] = random64();
    second_unrolled(text, len, budget, unrolled, room, told);
    aps2_run(words, n, wave, firmware, messages, 0, triggers, our_trace, room, budget, answer);
    second_run(words, n, wave, firmware, messages, 0, triggers, their_trace, room, budget, other);
    int good = answers(words, n, answer, budget, told);
    for (int i = 0; i < 55; i++)
        good &= answer[i] == other[i];
    return same_traces(told[3], room) && good;
}

/* Runs that just get to the park, that are a step short of it, and that go on there or have too little room; where it is too far, runs that
   go a part of the way. Few are long. */
static inline int runs_around(const uint64_t *words, size_t n)
{
    uint64_t told[4], most = below(64) ? NEAR + 2 * n : BUDGET;
    second_unrolled(text, len, 0, unrolled, 0, told);
    uint64_t steps = told[0], sent = told[1], more = steps + below(20);
    if (steps > most)
        return runs(words, n, most, most) && runs(words, n, below(NEAR), below(NEAR));
    return runs(words, n, steps, sent) && runs(words, n, steps - 1, sent + below(4)) &&
           runs(words, n, more < BUDGET ? more : BUDGET, below(sent + 2));
}

/* What is wrong with the words. */
static inline const char *wrong_words(const uint64_t *words, size_t n)
{
    return !counted(words, n) ? "the op codes and headers of our words" : !stands(words, n) ? "where our words stand"
        : !accepted(words, n) ? "the check of our words" : !runs_around(words, n) ? "a run of our words" : NULL;
}

#endif
