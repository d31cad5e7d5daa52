/* Runs in several calls, compared with the second program call by call: series of single steps and go-ons with refused calls between, each held
   to one run at its end; states that no run could leave, and made-up ones that pass; every end of a step, and again after it. A case that
   disagrees is printed with its number and seed, so that `calls FAMILY CASE SEED` runs it again by itself. */
#include "states.h"

/* How many series ended as one run. */
static uint64_t series;

/* The trace of the series at its start, and that of one run. */
static uint64_t first_trace[ROOM + BEHIND], run_trace[ROOM + BEHIND], answer[STATE];

static void start_series(void)
{
    start_calls();
    copy(first_trace, our_trace, ROOM + BEHIND);
}

typedef uint64_t running(const uint64_t *words, size_t n, uint64_t wave, uint64_t firmware, const uint8_t *messages, size_t messages_len,
                         uint32_t triggers, uint64_t *trace, size_t room, uint64_t budget, uint64_t answer[STATE]);

/* Whether a run tells what the last call told, with its state and its trace. */
static int is_as(running *run, const struct given *g, uint64_t number)
{
    copy(run_trace, first_trace, ROOM + BEHIND);
    uint64_t end = run(words, g->n, g->wave, firmware, messages, g->messages, g->triggers, run_trace, g->room, g->budget, answer);
    return end == number && answer[0] == number && same(answer + 1, ours, LAST_BUDGET) && answer[STATE - 1] == our_bit[0] &&
           same(run_trace, our_trace, ROOM + BEHIND);
}

/* The last call of a series, a go-on that is not refused: it ends as one run with its budget, messages and triggers. */
static void end_series(struct given g)
{
    uint64_t number = call(GO_ON, g);
    if (is_refusal(number) || !is_as(aps2_run, &g, number) || !is_as(second_run, &g, number))
        wrong(GO_ON, &g, "not as one run", number, answer[0]);
    series++;
}

/* Less than the call before was given, or input that is refused. */
static struct given any_less(struct given g)
{
    switch (below(9)) {
    case 0: g.budget = below(ours[LAST_BUDGET] + 1); break;
    case 1: g.triggers = (uint32_t)below(ours[LAST_TRIGGERS] + 1); break;
    case 2: g.wave = below(2) ? WAVE + 1 : random64(); break;
    case 3: g.budget = below(2) ? BUDGET + 1 : random64(); break;
    case 4: g.n = below(2) ? 0 : WORDS + 1; break;
    case 5: g.n = 1 + below(g.n); break;
    case 6: g.room = below(g.room + 1); break;
    case 7: g.messages = below(g.messages + 1); break;
    default: g.wave = below(g.wave + 1);
    }
    return g;
}

/* A call between those of a series, mostly refused; where it is not, it is undone. */
static void call_aside(struct given g)
{
    uint64_t s[STATE], first = firmware;
    keep();
    if (below(2)) {
        damage(s, kept, &g, 1 + below(2));
        set_state(s);
    } else {
        g = any_less(g);
        firmware = below(4) ? firmware : any_firmware();
    }
    if (is_refusal(call((int)below(CALLS), g)))
        set_state(kept);
    else
        put_back();
    firmware = first;
}

/* More of what a call is given: messages at the end, triggers, and a budget that reaches a little further, or far. */
static void grow(struct given *g)
{
    uint64_t steps = ours[STEPS], budget = below(4) ? steps + below(8) : steps + below(100);
    fresh_messages(g->messages);
    if (below(3) == 0 && g->messages + 3 < LIST)
        g->messages += below(4);
    if (below(3) == 0)
        g->triggers += (uint32_t)below(3);
    if (budget > g->budget)
        g->budget = budget;
}

/* A series of calls from the fresh state. */
static void try_calls(struct given g)
{
    start_series();
    for (uint64_t calls = below(16); calls > 0; calls--) {
        grow(&g);
        if (below(3) == 0)
            call_aside(g);
        call((int)below(CALLS), g);
    }
    grow(&g);
    end_series(g);
}

static void try_random(uint64_t k)
{
    struct given g = any_sequence_given();
    if (k % 4 == 3)
        marked_sequence(words, g.n, g.wave);
    try_calls(g);
}

/* Words that may be anything, between good ones that lead to them. */
static void try_random_words(uint64_t k)
{
    struct given g = any_given(1 + below(6));
    (void)k;
    for (size_t a = 0; a < g.n; a++)
        words[a] = below(3) ? any_word(a, g.n, g.wave) : below(2) ? random64() : OP(below(3) ? 1 : 10, random64() >> 20);
    try_calls(g);
}

static void try_round(uint64_t k)
{
    (void)k;
    try_calls(any_round());
}

/* A run of many steps in a few calls. */
static void try_long(uint64_t k)
{
    static const uint64_t loops[][3] = {
        { OP(6, 0) }, { OP(3, 65535), OP(4, 1), OP(6, 0) }, { OP(7, 2), OP(6, 0), OP(8, 0) }, { OP(5, 0), OP(6, 0), OP(6, 0) },
        { OP(3, 2), OP(4, 1), OP(6, 0) },
    };
    struct given g = { 3, 0, 8, 8, 0, 0 };
    copy(words, loops[k % 5], 3);
    start_series();
    while (g.budget < BUDGET) {
        call((int)below(CALLS), g);
        g.budget += below(BUDGET / 4);
    }
    g.budget = BUDGET - below(2);
    end_series(g);
}

static void try_made_up(uint64_t k)
{
    struct given g = made_up();
    (void)k;
    for (uint64_t calls = 1 + below(6); calls > 0; calls--) {
        if (is_refusal(call((int)below(CALLS), g)))
            wrong(SINGLE, &g, "a state that passes was refused", 0, 0);
        grow(&g);
    }
}

/* A go-on does what single steps do, until one is not done. */
static void try_singly(uint64_t k)
{
    struct given g = k % 2 ? made_up() : any_left();
    uint64_t end[STATE], number, single, bit;
    g.budget += below(40);
    keep();
    number = call(GO_ON, g);
    bit = our_bit[0];
    copy(end, ours, STATE);
    copy(run_trace, our_trace, ROOM + BEHIND);
    put_back();
    do
        single = call(SINGLE, g);
    while (single == 0 && !failed);
    if (single != number || our_bit[0] != bit || !same(ours, end, STATE) || !same(our_trace, run_trace, ROOM + BEHIND))
        wrong(GO_ON, &g, "not as single steps", number, single);
}

/* Calls from a damaged state; what is kept is put back after it. */
static void call_damaged(const uint64_t s[STATE], struct given g)
{
    set_state(s);
    if (!is_refusal(call((int)below(CALLS), g)))
        put_back();
}

/* Every field with every value. */
static void try_damaged(uint64_t k)
{
    struct given g = k % 3 ? made_up() : any_left();
    uint64_t s[STATE];
    keep();
    for (int field = 0; field < STATE; field++)
        for (uint64_t v = 0; v < VALUES; v++) {
            copy(s, kept, STATE);
            s[field] = value_at(v, field, &g, kept);
            call_damaged(s, g);
        }
}

/* Several fields at once. */
static void try_pairs(uint64_t k)
{
    struct given g = k % 3 ? made_up() : any_left();
    uint64_t s[STATE];
    keep();
    for (int i = 0; i < 1000; i++) {
        damage(s, kept, &g, 2 + below(2));
        call_damaged(s, g);
    }
}

/* Calls of both kinds from a state: what they are refused with, or 0 where they are not. */
static void expect_refusal(const uint64_t s[STATE], struct given g, uint64_t number)
{
    for (int kind = 0; kind < CALLS; kind++) {
        start_calls();
        set_state(s);
        uint64_t told = call(kind, g);
        if ((is_refusal(told) ? told : 0) != number)
            wrong(kind, &g, "the refusal that is expected", told, number);
    }
}

/* Each field at its least and its greatest, and one past these. */
static void try_bound(uint64_t k)
{
    uint64_t s[STATE];
    struct given g = full_state(s);
    int field = (int)(k / 2), at_least = (int)(k % 2);
    uint64_t bound = at_least ? least_of(field) : greatest_of(field), past = at_least ? bound - 1 : bound + 1;
    s[field] = bound;
    expect_refusal(s, g, 0);
    s[field] = past;
    if (at_least ? past < bound : past > bound)
        expect_refusal(s, g, !at_least && field >= LAST_BUDGET ? 71 : 70);
}

/* Each unused entry of the stack, where the depth is any. */
static void try_unused(uint64_t k)
{
    uint64_t s[STATE], depth = k / (2 * STACK), entry = k / 2 % STACK;
    struct given g = full_state(s);
    for (uint64_t i = depth; i < STACK; i++)
        s[BACK + i] = s[COUNTERS + i] = 0;
    s[DEPTH] = depth;
    s[(k % 2 ? BACK : COUNTERS) + entry] = 1 + below(FULL_N);
    expect_refusal(s, g, entry < depth ? 0 : 70);
}

/* Steps that are not held, few and far beyond every budget, and totals around 2^32 times that, which may have no room in 64 bits. */
static const uint64_t steps_tried[] = {
    0, 1, 2, TWO_TO_32 - 2, TWO_TO_32 - 1, TWO_TO_32, TWO_TO_32 + 1, TWO_TO_32 + 2, 2 * TWO_TO_32, TWO_TO_32 << 31, GREATEST - (GROUP - 1),
};
enum { STEPS_TRIED = sizeof steps_tried / sizeof *steps_tried, TOTALS_TRIED = 9 };

static uint64_t total_tried(uint64_t k, uint64_t done)
{
    const uint64_t most = done << 32;
    const uint64_t list[TOTALS_TRIED] = { 0, 1, most - 1, most, most + 1, TWO_TO_32, 2 * TWO_TO_32, (TWO_TO_32 - 1) << 32, GREATEST };
    return list[k];
}

/* Wait counts are at most so many, totals at most 2^32 times as many. What passes with steps beyond every budget is 71. */
static void try_far(uint64_t k)
{
    const uint64_t done = steps_tried[k % STEPS_TRIED], total = total_tried(k / STEPS_TRIED % TOTALS_TRIED, done);
    const uint64_t engine = k / STEPS_TRIED / TOTALS_TRIED % ENGINES, otherwise = done < BUDGET ? 0 : 71;
    uint64_t s[STATE];
    struct given g = full_state(s);
    for (int i = WAITS; i < COUNTER; i++)
        s[i] = 0;
    s[HELD] = below(GROUP);
    s[STEPS] = done + s[HELD];
    s[LAST_BUDGET] = done < BUDGET ? s[LAST_BUDGET] : GREATEST;
    s[TOTALS + engine] = total;
    expect_refusal(s, g, done < TWO_TO_32 && total > done << 32 ? 70 : otherwise);
    s[TOTALS + engine] = 0;
    s[WAITS + engine] = done;
    expect_refusal(s, g, otherwise);
    s[WAITS + engine] = done + 1;
    expect_refusal(s, g, 70);
}

/* Words with a write flag of their own, and whether they may be held, at W 8. */
static const struct {
    uint64_t word;
    int passes;
} holdable[] = {
    { LOW_PLAY | 6, 1 }, { LOW_PLAY | 7, 0 }, { LOW_PLAY | HIGH, 0 }, { OP(0, UINT64_C(1) << 45 | UINT64_C(2) << 24 | 7), 1 },
    { OP(0, UINT64_C(1) << 45 | UINT64_C(2) << 24 | 8), 0 }, { OP(0, ENGINE_OP(1)), 1 }, { OP(0, ENGINE_OP(2)), 1 }, { OP(0, ENGINE_OP(3)), 1 },
    { OP(0, ENGINE_OP(3) | 16384), 0 }, { OP(0, HIGH | ENGINE_OP(1)), 0 }, { OP(1, 2), 1 }, { OP(1, HIGH | 2), 0 }, { OP(1, WIDE - 1), 1 },
    { OP(1, ENGINE_OP(1)), 1 }, { OP(10, NCO(1) | 2), 1 }, { OP(10, HIGH | NCO(1) | 2), 0 }, { OP(10, MODULATOR_OP(2)), 1 },
    { OP(2, HIGH | ENGINE_OP(1)), 0 }, { OP(2, ENGINE_OP(1)), 0 }, { OP(3, 2), 0 }, { OP(4, 0), 0 }, { OP(5, 0), 0 }, { OP(6, 0), 0 },
    { OP(7, 0), 0 }, { OP(8, 0), 0 }, { OP(9, HIGH | ENGINE_OP(2)), 0 }, { OP(9, ENGINE_OP(2)), 0 }, { OP(11, 0), 0 }, { OP(12, 0), 0 },
    { OP(13, 0), 0 }, { OP(14, 2), 0 }, { OP(15, 0), 0 }, { ~UINT64_C(0), 0 }, { 0, 0 },
};
enum { HOLDABLE = sizeof holdable / sizeof *holdable };

/* Each of them; words that are refused, low, with 24 by older firmware alone; and low words with unnamed bits. */
enum { HELD_TRIED = HOLDABLE + REFUSED + 3 * 16 };
static int held_at(uint64_t k, uint64_t *word)
{
    static const uint64_t engines[] = { 0, 1, 10 };
    if (k < HOLDABLE) {
        *word = holdable[k].word;
        return holdable[k].passes;
    }
    k -= HOLDABLE;
    if (k < REFUSED) {
        *word = refused[k].word & ~HIGH;
        return refused[k].number == 24 && !firmware;
    }
    do
        *word = low_word(8);
    while (*word >> 60 != engines[k % 3]);
    *word |= some_bits(engines[k % 3]);
    return 0;
}

/* One such word among those held, or right below them, where it does no harm. */
static void try_held(uint64_t k)
{
    uint64_t s[STATE], word, held = 1 + k % (GROUP - 1);
    struct given g = full_state(s);
    firmware = k / (GROUP - 1) / HELD_TRIED ? any_older() : 0;
    int passes = held_at(k / (GROUP - 1) % HELD_TRIED, &word);
    s[HELD] = held;
    for (uint64_t down = 1; down <= held + 1; down++) {
        for (size_t a = FULL_LOW; a < FULL_ADDRESS; a++)
            words[a] = low_word(g.wave);
        words[FULL_ADDRESS - down] = word;
        words[FULL_ADDRESS] = below(4) ? low_word(g.wave) | HIGH : any_word(FULL_ADDRESS, FULL_N, g.wave);
        expect_refusal(s, g, passes || down > held ? 0 : 70);
    }
}

/* Every number held at every address, where all words are low; then the first of them is a wide marker, or a play that needs a W of 6. */
enum { ADDRESSES_TRIED = 9, WAVES_TRIED = 9 };
static void try_held_at(uint64_t k)
{
    uint64_t s[STATE], address = k % ADDRESSES_TRIED, held = k / ADDRESSES_TRIED % GROUP, otherwise = held > address ? 70 : 0;
    struct given g = full_state(s);
    int first = held > 0 && held == address;
    s[ADDRESS] = address;
    s[HELD] = held;
    for (size_t a = 0; a < FULL_ADDRESS; a++)
        words[a] = OP(1, WIDE - 1);
    expect_refusal(s, g, otherwise);
    words[0] = OP(1, WIDE);
    expect_refusal(s, g, first && firmware ? 70 : otherwise);
    words[0] = LOW_PLAY | 4;
    g.wave = k / ADDRESSES_TRIED / GROUP % WAVES_TRIED;
    expect_refusal(s, g, first && g.wave < 6 ? 70 : otherwise);
}

/* What no run could leave, in the state that has every bound. */
static const struct {
    int field;
    uint64_t value;
} odd[] = {
    { ADDRESS, FULL_ADDRESS + 1 }, { ADDRESS, WORDS + 2 }, { STEPS, FULL_LAST + 1 }, { USED, 6 }, { SENT, 10 }, { WAITS, 48 },
    { TOTALS + 5, 47 * TWO_TO_32 + 1 }, { CONDITION, 3 }, { HELD, 8 }, { DEPTH, 17 }, { DEPTH, 15 }, { BACK, WORDS + 2 }, { BACK + 15, WORDS + 2 },
    { LAST_BUDGET, FULL_STEPS - 1 },
};
enum { ODD = sizeof odd / sizeof *odd, ORDERS = 4 * 4 * 4 * (ODD + 1) * 2 * 2 };

/* n, W and budget at their bounds and past them, with each of these or none, and with fewer triggers or less budget: the first is told. */
static void try_order(uint64_t k)
{
    static const size_t sizes[] = { FULL_N, WORDS, 0, WORDS + 1 };
    static const uint64_t waves[] = { 8, WAVE, WAVE + 1, GREATEST }, budgets[] = { 70, BUDGET, BUDGET + 1, GREATEST };
    uint64_t s[STATE], way = k / 64 % (ODD + 1);
    int fewer = (int)(k / 64 / (ODD + 1) % 2), less = (int)(k / 64 / (ODD + 1) / 2);
    struct given g = full_state(s);
    if (way < ODD)
        s[odd[way].field] = odd[way].value;
    g.n = sizes[k % 4];
    g.wave = waves[k / 4 % 4];
    g.budget = less && k / 16 % 4 < 2 ? 10 : budgets[k / 16 % 4];
    g.triggers = fewer ? 1 : g.triggers;
    expect_refusal(s, g, k % 4 > 1 ? k % 4 - 1 : k / 4 % 4 > 1 ? 3 : k / 16 % 4 > 1 ? 5 : way < ODD ? 70 : fewer || less ? 71 : 0);
}

/* The steps before a stop one by one, then the stop, again and again; and it is that of one run. */
static struct given stop(struct given g, uint64_t steps, struct told t)
{
    start_series();
    for (; steps > 0; steps--)
        expect(SINGLE, g, (struct told){ 0, 0 });
    for (int i = 0; i < 4; i++) {
        expect(i ? (int)below(CALLS) : SINGLE, g, t);
        g.budget += t.number == 40 ? 0 : below(2);
        g.triggers += t.number == 41 ? 0 : (uint32_t)below(2);
    }
    end_series(g);
    return g;
}

/* With more of what was awaited the step is done, and the next one is not of this kind. */
static void stop_and_more(struct given g, uint64_t steps, uint64_t number)
{
    g = stop(g, steps, (struct told){ number, 0 });
    g.budget += number == 40;
    g.triggers += number == 41;
    g.messages += number == 42;
    g.room += number == 43;
    expect(SINGLE, g, (struct told){ 0, 0 });
}

/* What is awaited behind NOOPs: budget, a trigger, a message, room for a group. */
static void try_awaited(uint64_t k)
{
    size_t at = below(6), low = k % 4 == 3 ? below(GROUP) : 0;
    struct given g = { at + GROUP, 0, 20, 8, 60, 0 };
    put_noops(g.n);
    switch (k % 4) {
    case 0:
        g.budget = at;
        break;
    case 1:
        words[at++] = OP(2, HIGH | ENGINE_OP(1));
        words[at] = OP(9, HIGH | ENGINE_OP(2));
        break;
    case 2:
        words[at] = OP(11, 0);
        break;
    default:
        put_group(at, low, g.wave);
        g.room = low;
    }
    stop_and_more(g, at + low, 40 + k % 4);
}

/* Faults behind NOOPs: past the last word, a full stack, an empty one, a jump to nowhere. */
static void try_faults(uint64_t k)
{
    static const uint64_t jumps[] = { 4, 6, 7, 12 };
    uint64_t code = jumps[below(4)];
    size_t at = below(6);
    struct given g = { at + 1 + (k % 4 ? below(4) : 0), 0, 20, 8, 60, 0 };
    const uint64_t faults[] = { ~UINT64_C(0), OP(7, at), OP(8, 0), OP(code, code == 12 ? 128 : g.n + below(2)) }, numbers[] = { 30, 31, 32, 21 };
    const size_t steps[] = { at + 1, at + STACK, at, at };
    put_noops(g.n);
    words[at] = faults[k % 4];
    stop(g, steps[k % 4], (struct told){ numbers[k % 4], 0 });
}

/* A group that is broken by a word that is no engine word, or by an eighth low one. */
static void try_broken(uint64_t k)
{
    static const uint64_t others[] = { 2, 3, 4, 5, 6, 7, 8, 9, 11, 12 };
    size_t at = below(6), low = k % 2 ? GROUP - 1 : 1 + below(GROUP - 1);
    struct given g = { at + low + 2 + below(3), 0, 20, 8, 60, 0 };
    put_noops(g.n);
    put_group(at, low, g.wave);
    words[at + low] = k % 2 ? low_word(g.wave) : below(8) ? good_of(others[below(10)]) : ~UINT64_C(0);
    stop(g, at + low, (struct told){ 22, 0 });
}

/* Refused words, behind words that were sent and words that are held, with an unnamed bit or without. */
static void try_refused(uint64_t k)
{
    const struct refused *r = &refused[k % REFUSED];
    size_t at = below(6), low = below(at + 1);
    struct given g = { at + 2, 0, 8, 8, 60, 0 };
    struct told t = { r->number, 0 };
    if (r->number == 24 && !firmware)
        firmware = any_older();
    for (size_t a = 0; a < at; a++)
        words[a] = low_word(g.wave) | (a + low < at ? HIGH : 0);
    words[at] = r->word;
    words[at + 1] = OP(6, 0);
    if (k / REFUSED % 3 == 1)
        words[at] |= some_bits(words[at] >> 60), t = told_of(words[at]);
    if (k / REFUSED % 3 == 2)
        words[at] = OP(13 + below(3), random64() >> 5), t = (struct told){ 10, 0 };
    stop(g, at, t);
}

/* The greatest steps, budget and triggers. */
static void try_greatest(uint64_t k)
{
    uint64_t s[STATE], steps = BUDGET - k % 4;
    struct given g = full_state(s);
    words[FULL_ADDRESS] = k / 4 % 2 ? LOW_PLAY | HIGH : OP(6, FULL_ADDRESS);
    s[STEPS] = steps;
    s[HELD] = k / 4 % 2 ? s[HELD] : 0;
    s[LAST_BUDGET] = g.budget = BUDGET;
    s[LAST_TRIGGERS] = k / 8 % 2 ? TWO_TO_32 : TWO_TO_32 - 1;
    g.triggers = (uint32_t)(TWO_TO_32 - 1);
    if (k / 8 % 2) {
        expect_refusal(s, g, 71);
        return;
    }
    start_calls();
    set_state(s);
    for (; steps < BUDGET; steps++)
        expect(SINGLE, g, (struct told){ 0, 0 });
    expect(SINGLE, g, (struct told){ 40, 0 });
    expect(GO_ON, g, (struct told){ 40, 0 });
    expect_refusal(s, g, 0);
}

/* As many words as there can be, and one more; addresses and stack addresses there. */
static void try_many(uint64_t k)
{
    static const size_t sizes[] = { WORDS - 1, WORDS, WORDS + 1 };
    const size_t n = sizes[k % 3];
    const uint64_t addresses[] = { 0, n - 2, n - 1, n, n + 1 };
    uint64_t s[STATE] = { addresses[k / 3 % 5] }, back = addresses[k / 15 % 5];
    struct given g = { n, 0, 8, WAVE, 20, 0 };
    for (size_t a = 0; a <= WORDS; a++)
        words[a] = LOW_PLAY | HIGH | (WAVE - 2);
    words[n - 1] = OP(8, 0);
    s[STEPS] = 3, s[LAST_BUDGET] = 3, s[DEPTH] = 2;
    s[BACK] = back;
    s[BACK + 1] = n - 1;
    expect_refusal(s, g, n > WORDS ? 2 : s[ADDRESS] > n || back > n ? 70 : 0);
    if (n > WORDS)
        return;
    words[0] = OP(6, n - 1);
    words[n - 1] = OP(5, 0);
    g.budget = 2;
    stop(g, 2, (struct told){ 40, 0 });
    g.budget = 9;
    stop(g, 2, (struct told){ 30, 0 });
}

static const struct cases families[] = {
    { "calls: random sequences in several calls", 20000, try_random },
    { "calls: random words in several calls", 6000, try_random_words },
    { "calls: loops, subroutines, messages and triggers in several calls", 12000, try_round },
    { "calls: a million steps in several calls", 10, try_long },
    { "calls: a go-on as single steps", 4000, try_singly },
    { "calls: states made up that pass", 12000, try_made_up },
    { "calls: each field at its bounds and one past them", STATE * 2, try_bound },
    { "calls: each entry of the stack that is in use or not, at every depth", (STACK + 1) * STACK * 2, try_unused },
    { "calls: counts at their bounds, also past 64 bits", STEPS_TRIED * TOTALS_TRIED * ENGINES * 2, try_far },
    { "calls: held words of every kind", HELD_TRIED * (GROUP - 1) * 2, try_held },
    { "calls: as many held at every address, W and firmware", ADDRESSES_TRIED * GROUP * WAVES_TRIED * 2, try_held_at },
    { "calls: refused in several ways at once", ORDERS, try_order },
    { "calls: every field damaged in every way", 240, try_damaged },
    { "calls: several fields damaged", 300, try_pairs },
    { "calls: what is awaited, again and again, and then more of it", 4000, try_awaited },
    { "calls: faults, again and again", 2000, try_faults },
    { "calls: broken groups, again and again", 1000, try_broken },
    { "calls: refused words, again and again", REFUSED * 3 * 20, try_refused },
    { "calls: the greatest steps, budget and triggers", 16, try_greatest },
    { "calls: 65,536 words, and one more", 3 * 5 * 5, try_many },
};
enum { FAMILIES = sizeof families / sizeof *families };

static int can_be_told(uint64_t n)
{
    int input = n <= 3 || n == 5 || n == 70 || n == 71, word = n == 10 || (n >= 111 && n <= 113) || (n >= 12 && n <= 22) || n == 24;
    return input || word || (n >= 30 && n <= 32) || (n >= 40 && n <= 43);
}

static void enough_series(void)
{
    if (series < 20000)
        failed = 1, printf("  only %llu series\n", (unsigned long long)series);
    compared = series;
    family("calls: series that ended as one run");
}

int main(int count, char **arguments)
{
    printf("seed %llu\n", (unsigned long long)seed);
    if (try_families(families, FAMILIES, count, arguments)) {
        all_met("calls: every number was met", can_be_told);
        enough_series();
    }
    return 0;
}
