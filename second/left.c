/* Which states a run could leave, judged by their fields: document 02, request 8. It stands apart from pause.c, so that there the step is
   compiled as in the run. */
#include "step.h"

/* At most 16 deep, stack addresses at most n, and unused entries zero. */
static int stack_passes(uint64_t depth, const uint64_t back[STACK], const uint64_t counters[STACK], size_t n)
{
    if (depth > STACK)
        return 0;
    for (uint64_t i = 0; i < STACK; i++)
        if (back[i] > n || (i >= depth && (back[i] || counters[i])))
            return 0;
    return 1;
}

static int is_low_engine_word(uint64_t word)
{
    uint64_t code = GET(word, 63, 60);
    return (code == WAVEFORM || code == MARKER || code == MODULATOR) && !GET(word, 56, 56);
}

/* At most seven held and no more than steps: low engine words right below the address, which is at most n, that pass form and 20. */
static int held_pass(uint64_t held, uint64_t address, uint64_t steps, const uint64_t *words, size_t n, uint64_t wave, uint64_t firmware)
{
    if (held > GROUP - 1 || held > steps || held > address)
        return 0;
    for (uint64_t a = address - held; a < address; a++)
        if (!is_low_engine_word(words[a]) || refusal(words[a], firmware, wave, n))
            return 0;
    return 1;
}

/* Wait counts at most the steps less held, totals at most 2^32 times that; this may be past 64 bits, so the totals are divided. */
static int counts_pass(const uint64_t waits[ENGINES], const uint64_t totals[ENGINES], uint64_t done)
{
    for (int i = 0; i < ENGINES; i++)
        if (waits[i] > done || (totals[i] && (totals[i] - 1) >> 32 >= done))
            return 0;
    return 1;
}

int second_left(const uint64_t *words, size_t n, uint64_t wave, uint64_t firmware, size_t messages_len, size_t room, const uint64_t state[55])
{
    uint64_t address = state[0], steps = state[1], held = state[19];
    return address <= n && stack_passes(state[20], state + 21, state + 37, n) && held_pass(held, address, steps, words, n, wave, firmware) &&
           state[2] <= messages_len && state[3] <= room && steps <= state[53] && counts_pass(state + 4, state + 10, steps - held) &&
           state[18] <= 2;
}
