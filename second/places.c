/* The walk once more, in the plainest way: H8's sentences, place by place, over all places again and again until none is new.
   The fast check of this program and the proved one are both held to it. */
#include "word.h"

enum { STACK = 16 };

struct walk {
    const uint64_t *words;
    uint64_t *marks;
    size_t n;
    int past, grew;
};

static void reach(struct walk *w, size_t a, int depth, int held)
{
    uint64_t bit = UINT64_C(1) << (2 * depth + held);
    if (a == w->n) {
        w->past = 1;
    } else if (!(w->marks[a] & bit)) {
        w->marks[a] |= bit;
        w->grew = 1;
    }
}

static int reached(const struct walk *w, size_t a, int depth) { return (int)(w->marks[a] >> (2 * depth) & 3); }

/* Where one place leads. */
static void from(struct walk *w, size_t a, int depth, int held)
{
    uint64_t word = w->words[a], code = word == ~UINT64_C(0) ? NOOP : GET(word, 63, 60), to = GET(word, 25, 0);
    switch (code) {
    case CMP:
        reach(w, a + 1, depth, 1);
        return;
    case GOTO:
        reach(w, to, depth, 0);
        break;
    case CALL:
        if (depth < STACK)
            reach(w, to, depth + 1, 0);
        break;
    case RETURN:
        for (size_t b = 0; depth && b < w->n; b++)
            if (w->words[b] != ~UINT64_C(0) && GET(w->words[b], 63, 60) == CALL && reached(w, b, depth - 1))
                reach(w, b + 1, depth - 1, 0);
        break;
    case REPEAT:
        reach(w, to, depth, held);
        reach(w, a + 1, depth, held);
        return;
    default:
        reach(w, a + 1, depth, held);
        return;
    }
    if (held)
        reach(w, a + 1, depth, 0);
}

static void walk(struct walk *w)
{
    for (size_t a = 0; a < w->n; a++)
        w->marks[a] = 0;
    reach(w, 0, 0, 0);
    while (w->grew) {
        w->grew = 0;
        for (size_t a = 0; a < w->n; a++)
            for (int k = 0; k < 2 * (STACK + 1); k++)
                if (w->marks[a] >> k & 1)
                    from(w, a, k / 2, k % 2);
    }
}

/* The fault at the lowest address; n is the address past the last word. */
static uint64_t fault(const struct walk *w, uint64_t place[1])
{
    for (size_t a = 0; a < w->n; a++) {
        uint64_t code = w->words[a] == ~UINT64_C(0) ? NOOP : GET(w->words[a], 63, 60);
        place[0] = a;
        if (code == CALL && reached(w, a, STACK))
            return 31;
        if (code == RETURN && reached(w, a, 0))
            return 32;
    }
    place[0] = w->past ? w->n : 0;
    return w->past ? 30 : 0;
}

uint64_t second_places(const uint64_t *words, size_t n, uint64_t *marks, uint64_t place[1])
{
    struct walk w = { words, marks, n, 0, 0 };
    walk(&w);
    return fault(&w, place);
}
