/* What a block comes to: document 02, request 5, worked out from its lines alone, without the words and without a run. */
#include "second.h"

enum { LINES = 65536, NEST = 16 };

/* More is not told apart. */
#define MANY (~UINT64_C(0))

/* A line of an accepted text: the first letter of its name, and the word that it dispatches or its N. SYNC comes before all lines. */
struct line {
    uint8_t name;
    uint64_t word, passes;
};
static struct line lines[LINES];

static size_t read_lines(const uint8_t *text, size_t len)
{
    const uint8_t *at = text, *end = text + len;
    size_t n = 1;
    lines[0] = (struct line){ 's', UINT64_C(0x9100800000000000), 0 };
    for (; at < end; at++) {
        uint64_t number[3] = { 0 };
        struct line *l = &lines[n++];
        l->name = *at;
        for (int i = 0; *at != '\n'; at++)
            if (*at == '\t')
                i++;
            else if (i)
                number[i] = 10 * number[i] + (uint64_t)(*at - '0');
        l->passes = number[1];
        l->word = UINT64_C(0x0100000000000000) | (uint64_t)(l->name == 'h') << 45 | number[2] << 24 | number[1];
    }
    return n;
}

static uint64_t sum(uint64_t a, uint64_t b) { return a > MANY - b ? MANY : a + b; }
static uint64_t times(uint64_t n, uint64_t a) { return a > MANY / n ? MANY : n * a; }

/* "One for SYNC, one a play or hold, and 1 + N × (3 + the steps of its block) a repeat"; each is dispatched "as often as the product of the
   repeats around it". */
static void count(size_t n, uint64_t told[2])
{
    uint64_t steps[NEST + 1] = { 0 }, sent[NEST + 1] = { 0 }, passes[NEST + 1];
    size_t depth = 0;
    for (size_t i = 0; i < n; i++)
        switch (lines[i].name) {
        case 'r':
            passes[++depth] = lines[i].passes;
            steps[depth] = sent[depth] = 0;
            break;
        case 'e':
            steps[depth - 1] = sum(steps[depth - 1], sum(1, times(passes[depth], sum(3, steps[depth]))));
            sent[depth - 1] = sum(sent[depth - 1], times(passes[depth], sent[depth]));
            depth--;
            break;
        default:
            steps[depth] = sum(steps[depth], 1);
            sent[depth] = sum(sent[depth], 1);
        }
    told[0] = steps[0];
    told[1] = sent[0];
}

static int sends(const struct line *l) { return l->name != 'r' && l->name != 'e'; }

/* Line by line, as far as budget and room go, and a block as often as its repeat says: LOAD_REPEAT, and for each pass CALL, the block, RETURN
   and REPEAT. */
static void unroll(size_t n, uint64_t budget, uint64_t *trace, size_t room, uint64_t done[2])
{
    uint64_t steps = 0, left[NEST];
    size_t sent = 0, first[NEST], depth = 0;
    for (size_t i = 0; i < n && steps < budget && (sent < room || !sends(&lines[i])); i++)
        switch (lines[i].name) {
        case 'r':
            left[depth] = lines[i].passes;
            first[depth++] = i;
            steps += 2;
            break;
        case 'e':
            steps += 2;
            if (--left[depth - 1]) {
                i = first[depth - 1];
                steps++;
            } else {
                depth--;
            }
            break;
        default:
            trace[sent++] = lines[i].word;
            steps++;
        }
    done[0] = steps < budget ? steps : budget;
    done[1] = sent;
}

void second_unrolled(const uint8_t *text, size_t len, uint64_t budget, uint64_t *trace, size_t room, uint64_t told[4])
{
    size_t n = read_lines(text, len);
    count(n, told);
    unroll(n, budget, trace, room, told + 2);
}
