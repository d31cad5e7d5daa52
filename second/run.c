/* The run: document 01, "One step", from the fresh state until a step stops or the budget is spent. */
#include "step.h"

uint64_t second_run(const uint64_t *words, size_t n, uint64_t wave, uint64_t firmware, const uint8_t *messages, size_t messages_len,
                    uint32_t triggers, uint64_t *trace, size_t room, uint64_t budget, uint64_t answer[55])
{
    const struct input in = { words, n, messages_len, room, wave, firmware, messages, triggers, trace };
    struct state s = { 0 };
    struct lists l = { { 0 }, { 0 }, { 0 }, { 0 } };
    uint64_t end = refused_input(&in, budget);
    while (end == 0) {
        end = s.steps == budget ? 40 : step(&s, &l, &in);
        s.steps += end == 0;
    }
    answer[0] = finer(end, words + s.address, &answer[54]);
    put_state(&s, &l, answer + 1);
    return answer[0];
}
