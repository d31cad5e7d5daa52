/* The check: document 01, "Check" and H8, and document 02, requests 2 and 3. The walk follows each address on from where its mark grew,
   all depths of a mark at once, and keeps a list of the addresses still to be followed. */
#include "word.h"

enum { WORDS = 65536, WAVE = 16777216, STACK = 16, GROUP = 8 };

/* Bit 2d + c of a mark is depth d, with a condition where c is 1. A set of depths has its bits where c is 0. */
#define DEPTHS UINT64_C(0x155555555)
#define DEEPEST (UINT64_C(1) << 2 * STACK)
#define LISTED (UINT64_C(1) << 63) /* in a mark, only while the walk goes on: the address is to be followed */

struct walk {
    const uint64_t *words;
    uint64_t *marks;
    size_t n, calls, follows;
    uint64_t back;          /* the depths to which a reached RETURN leads */
    uint64_t number, place; /* the fault at the lowest address so far */
    uint32_t call[WORDS];   /* the CALLs that are reached */
    uint32_t follow[WORDS]; /* the addresses to be followed */
};

static int is_engine(uint64_t word)
{
    uint64_t code = GET(word, 63, 60);
    return code == WAVEFORM || code == MARKER || code == MODULATOR;
}

/* A low word passes when an engine word with the flag high comes within seven words, with only low engine words between. */
static int passes(const uint64_t *words, size_t n, size_t a)
{
    for (size_t b = a + 1; b < n && b < a + GROUP && is_engine(words[b]); b++)
        if (GET(words[b], 56, 56))
            return 1;
    return 0;
}

/* Form, 20, 21, 22 of the word at a. */
static uint64_t judge(const uint64_t *words, size_t n, uint64_t wave, uint64_t firmware, size_t a)
{
    uint64_t word = words[a], number = refusal(word, firmware, wave, n);
    if (number)
        return number;
    return is_engine(word) && !GET(word, 56, 56) && !passes(words, n, a) ? 22 : 0;
}

static uint64_t any(uint64_t mark) { return (mark | mark >> 1) & DEPTHS; }
static uint64_t held(uint64_t mark) { return mark >> 1 & DEPTHS; }

static void fault(struct walk *w, uint64_t number, size_t a)
{
    if (!w->number || a < w->place) {
        w->number = number;
        w->place = a;
    }
}

/* Whether one of these places is new at an address below n; it is then marked. */
static int grows(struct walk *w, size_t a, uint64_t places)
{
    uint64_t old = w->marks[a];
    if (!(places & ~old))
        return 0;
    if (!old && GET(w->words[a], 63, 60) == CALL)
        w->call[w->calls++] = (uint32_t)a;
    w->marks[a] = old | places;
    return 1;
}

/* Places reached by a jump: what is new is followed later. */
static void reach(struct walk *w, size_t a, uint64_t places)
{
    if (a == w->n) {
        if (places)
            fault(w, 30, a);
    } else if (grows(w, a, places) && !(w->marks[a] & LISTED)) {
        w->marks[a] |= LISTED;
        w->follow[w->follows++] = (uint32_t)a;
    }
}

/* RETURN leads to the address after every CALL reached one depth less; the CALLs reached later look at `back`. */
static void leave(struct walk *w, size_t a, uint64_t mark)
{
    uint64_t fresh = any(mark) >> 2 & ~w->back;
    if (any(mark) & 1)
        fault(w, 32, a);
    w->back |= fresh;
    for (size_t i = 0; fresh && i < w->calls; i++)
        reach(w, w->call[i] + (size_t)1, any(w->marks[w->call[i]]) & fresh);
}

/* Where the places of one address lead: the jumps are reached, and the places at the next address are returned. */
static uint64_t leads(struct walk *w, size_t a)
{
    uint64_t word = w->words[a], mark = w->marks[a] & ~LISTED;
    switch (GET(word, 63, 60)) {
    case CMP:
        return any(mark) << 1;
    case GOTO:
        reach(w, GET(word, 25, 0), any(mark));
        return held(mark);
    case CALL:
        if (any(mark) & DEEPEST)
            fault(w, 31, a);
        reach(w, GET(word, 25, 0), (any(mark) & ~DEEPEST) << 2);
        return held(mark) | (any(mark) & w->back);
    case RETURN:
        leave(w, a, mark);
        return held(mark);
    case REPEAT:
        reach(w, GET(word, 25, 0), mark);
        return mark;
    default:
        return mark;
    }
}

/* An address is followed to the next, and that to its next, as long as there is something new. */
static void walk(struct walk *w)
{
    for (size_t a = 0; a < w->n; a++)
        w->marks[a] = 0;
    reach(w, 0, 1);
    while (w->follows) {
        size_t a = w->follow[--w->follows];
        uint64_t next;
        w->marks[a] &= ~LISTED;
        do
            next = leads(w, a++);
        while (a < w->n && grows(w, a, next));
        if (a == w->n && next)
            fault(w, 30, a);
    }
}

uint64_t second_check(const uint64_t *words, size_t n, uint64_t wave, uint64_t firmware, uint64_t *marks, size_t marks_len,
                      uint64_t place[2])
{
    place[0] = place[1] = 0;
    uint64_t number = n == 0 ? 1 : n > WORDS ? 2 : wave > WAVE ? 3 : marks_len < n ? 4 : 0;
    if (number)
        return number;
    for (size_t a = 0; a < n; a++) {
        number = judge(words, n, wave, firmware, a);
        if (number) {
            place[0] = a;
            return finer(number, &words[a], &place[1]);
        }
    }
    struct walk w;
    w.words = words, w.marks = marks, w.n = n;
    w.calls = w.follows = 0;
    w.back = w.number = w.place = 0;
    walk(&w);
    place[0] = w.place;
    return w.number;
}
