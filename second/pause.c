/* Pause and go on: document 02, request 8. The steps are those of the run; the state is the host's. */
#include "step.h"

/* What the host holds behind the fields that an answer tells, too. */
enum { LAST_BUDGET = 53, LAST_TRIGGERS };

static void take_state(const uint64_t fields[53], struct state *s, struct lists *l)
{
    *s = (struct state){ fields[0], fields[1], fields[2], fields[3], fields[16], fields[17], fields[18], fields[19], fields[20] };
    for (int i = 0; i < ENGINES; i++)
        l->waits[i] = fields[4 + i], l->totals[i] = fields[10 + i];
    for (int i = 0; i < STACK; i++)
        l->back[i] = fields[21 + i], l->counters[i] = fields[37 + i];
}

/* 1, 2, 3, 5, then 70 and 71. */
static uint64_t refused_call(const struct input *in, uint64_t budget, const uint64_t state[55])
{
    uint64_t number = refused_input(in, budget);
    if (number)
        return number;
    if (!second_left(in->words, in->n, in->wave, in->firmware, in->messages_len, in->room, state))
        return 70;
    return in->triggers < state[LAST_TRIGGERS] || budget < state[LAST_BUDGET] ? 71 : 0;
}

/* One call. A single step goes to a budget of one step more, and ends with 0 if it was done. */
static uint64_t go(struct input in, uint64_t budget, int single, uint64_t state[55], uint64_t bit[1])
{
    struct state s;
    struct lists l;
    uint64_t end = refused_call(&in, budget, state);
    *bit = 0;
    if (end)
        return end;
    take_state(state, &s, &l);
    uint64_t before = s.steps, most = single && before < budget ? before + 1 : budget;
    while (end == 0) {
        end = s.steps == most ? 40 : step(&s, &l, &in);
        s.steps += end == 0;
    }
    if (single && s.steps > before)
        end = 0;
    put_state(&s, &l, state);
    state[LAST_BUDGET] = budget;
    state[LAST_TRIGGERS] = in.triggers;
    return finer(end, in.words + s.address, bit);
}

uint64_t second_step(const uint64_t *words, size_t n, uint64_t wave, uint64_t firmware, const uint8_t *messages, size_t messages_len,
                     uint32_t triggers, uint64_t *trace, size_t room, uint64_t budget, uint64_t state[55], uint64_t bit[1])
{
    return go((struct input){ words, n, messages_len, room, wave, firmware, messages, triggers, trace }, budget, 1, state, bit);
}

uint64_t second_go_on(const uint64_t *words, size_t n, uint64_t wave, uint64_t firmware, const uint8_t *messages, size_t messages_len,
                      uint32_t triggers, uint64_t *trace, size_t room, uint64_t budget, uint64_t state[55], uint64_t bit[1])
{
    return go((struct input){ words, n, messages_len, room, wave, firmware, messages, triggers, trace }, budget, 0, state, bit);
}
