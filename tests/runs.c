/* Runs for either firmware, compared with the second program field by field and word by word: the document's cases, random sequences at many
   budgets, rooms, messages and triggers around where they stop, unnamed bits, marker counts, the bounds of every input, and runs of the full
   million steps. */
#include "../include/aps2.h"
#include "../second/second.h"
#include "bits.h"

#define MOST 65537
#define ROOM 4096
#define BEHIND 8 /* words of buffer behind what is lent */
#define ANSWER 55

static uint64_t words[MOST], ours[ANSWER], theirs[ANSWER], our_trace[ROOM + BEHIND], their_trace[ROOM + BEHIND], old_trace[ROOM + BEHIND];
static uint8_t messages[64];

struct input {
    size_t n, messages, room;
    uint64_t wave, budget;
    uint32_t triggers;
};

static void show(const struct input *in)
{
    printf("  n %llu, W %llu, firmware %llu, messages %llu, triggers %u, room %llu, budget %llu; ended %llu, other %llu\n  words",
           (unsigned long long)in->n, (unsigned long long)in->wave, (unsigned long long)firmware, (unsigned long long)in->messages, in->triggers,
           (unsigned long long)in->room, (unsigned long long)in->budget, (unsigned long long)ours[0], (unsigned long long)theirs[0]);
    for (size_t i = 0; i < in->n && i < 40; i++)
        printf(" %llx", (unsigned long long)words[i]);
    for (int i = 0; i < ANSWER; i++)
        if (ours[i] != theirs[i])
            printf("\n  answer %d: %llu, other %llu", i, (unsigned long long)ours[i], (unsigned long long)theirs[i]);
    printf("\n");
}

/* The traces and their tails, as both programs left them. They are then put back, so that a word written far behind stays until all is
   looked at. */
static int same_traces(size_t seen)
{
    int good = 1;
    for (size_t i = 0; i < seen; i++) {
        good &= our_trace[i] == their_trace[i] && (i < ours[4] || our_trace[i] == old_trace[i]);
        our_trace[i] = their_trace[i] = old_trace[i];
    }
    return good;
}

static void forget_answers(void)
{
    for (int i = 0; i < ANSWER; i++)
        ours[i] = random64(), theirs[i] = random64();
}

/* Ends the comparison of two runs: their answers from a place on, the traces and their tails, and at times the whole buffers. */
static void compare(const struct input *in, int good, int from)
{
    for (int i = from; i < ANSWER; i++)
        good &= ours[i] == theirs[i];
    good &= same_traces(compared % 64 ? in->room + BEHIND : ROOM + BEHIND);
    compared++;
    meet(ours[0]);
    if (!good) {
        if (!failed)
            show(in);
        failed = 1;
    }
}

/* Both programs run. */
static uint64_t try_run(struct input in)
{
    forget_answers();
    uint64_t end = aps2_run(words, in.n, in.wave, firmware, messages, in.messages, in.triggers, our_trace, in.room, in.budget, ours);
    uint64_t other = second_run(words, in.n, in.wave, firmware, messages, in.messages, in.triggers, their_trace, in.room, in.budget, theirs);
    compare(&in, end == other && ours[0] == end && tells_at(words, ours[1], end, ours[54]), 0);
    return end;
}

static void fresh_messages(void)
{
    for (int i = 0; i < 64; i++)
        messages[i] = (uint8_t)below(below(2) ? 4 : 256);
}

/* One sequence, and then every input a little less or more than what its run came to. */
static void try_around(struct input in)
{
    try_run(in);
    uint64_t steps = ours[2], used = ours[3], sent = ours[4];
    struct input v = in;
    for (uint64_t b = steps > 2 ? steps - 2 : 0; b <= steps + 1; b++)
        v.budget = b, try_run(v);
    v = in;
    for (uint64_t r = sent > 9 ? sent - 9 : 0; r <= sent + 1 && r <= ROOM; r++)
        v.room = r, try_run(v);
    v = in;
    for (uint64_t m = used ? used - 1 : 0; m <= used + 1 && m <= 64; m++)
        v.messages = m, try_run(v);
    v = in;
    for (uint32_t t = 0; t < 4; t++)
        v.triggers = t, try_run(v);
}

static void random_runs(void)
{
    for (int k = 0; k < 6000; k++) {
        struct input in = { 1 + below(below(3) ? 24 : 6), below(20), below(3) ? 200 : below(20), below(9), below(4) ? 120 : below(6), (uint32_t)below(4) };
        fresh_messages();
        any_sequence(words, in.n, in.wave);
        firmware = any_firmware();
        try_around(in);
    }
    family_of("run: random sequences, and inputs around where they stop", (const int[]){ 24, 40, 41, 42, 43, -1 });
}

/* Every sequence of up to three words over a small alphabet. */
static void small_runs(void)
{
    static const uint64_t alphabet[] = {
        OP(0, HIGH | UINT64_C(2) << 24), OP(0, UINT64_C(2) << 24), OP(1, HIGH | UINT64_C(1) << 46), OP(10, HIGH | UINT64_C(1) << 40 | 2),
        OP(2, HIGH | UINT64_C(1) << 46), OP(9, HIGH | UINT64_C(2) << 46), OP(3, 2), OP(4, 0), OP(4, 1), OP(5, 0), OP(5, 1),
        OP(6, 0), OP(6, 2), OP(7, 0), OP(7, 1), OP(7, 2), OP(8, 0), OP(11, 0), OP(12, 0), ~UINT64_C(0), OP(13, 0), OP(1, HIGH | WIDE),
    };
    const int letters = sizeof alphabet / sizeof *alphabet;
    fresh_messages();
    for (int n = 1; n <= 3; n++)
        for (int a = 0; a < letters; a++)
            for (int b = 0; b < (n > 1 ? letters : 1); b++)
                for (int c = 0; c < (n > 2 ? letters : 1); c++) {
                    words[0] = alphabet[a], words[1] = alphabet[b], words[2] = alphabet[c];
                    firmware = any_firmware();
                    struct input in = { (size_t)n, 1, 3, 2, 40, 0 };
                    try_run(in);
                    in.triggers = 1, in.room = 40;
                    try_run(in);
                }
    family_of("run: every sequence of up to three words over a small alphabet", (const int[]){ 10, 22, 24, 30, 31, 32, 40, 41, 42, 43, -1 });
}

static void groups(void)
{
    for (uint64_t low = 0; low <= 9; low++)
        for (int after = 0; after < 14; after++)
            for (uint64_t room = 0; room <= 12; room++) {
                size_t n = 0;
                for (uint64_t i = 0; i < low; i++)
                    words[n++] = below(2) ? OP(0, (2 + below(3)) << 24 | 2 | below(2)) : OP(1, marker_count(2 + below(3)));
                words[n++] = after == 13 ? ~UINT64_C(0) : after == 0 ? OP(0, HIGH | UINT64_C(2) << 24) : after == 2 ? OP(2, HIGH | UINT64_C(1) << 46)
                    : after == 9 ? OP(9, HIGH | UINT64_C(2) << 46) : after == 10 ? OP(10, HIGH | UINT64_C(1) << 40 | 9) : OP(after, after == 1 ? HIGH | 2 : 0);
                words[n++] = OP(6, 0);
                struct input in = { n, 0, room, 8, 60, 1 };
                firmware = any_firmware();
                try_run(in);
            }
    family_of("run: groups of up to nine low words, with every kind of word after them, at every room", (const int[]){ 22, 24, 40, 43, -1 });
}

/* A damaged word where it is met at once. */
static void damaged(void)
{
    for (int k = 0; k < 20000; k++) {
        words[0] = (below(3) ? any_word(0, 3, 8) : engine_word(8, 1)) ^ UINT64_C(1) << below(64);
        if (below(2))
            words[0] ^= UINT64_C(1) << (below(2) ? 28 + below(20) : below(64));
        words[1] = OP(6, 2);
        words[2] = OP(8, 0);
        struct input in = { 3, below(2), 1, 8, 5, 0 };
        firmware = any_firmware();
        try_run(in);
    }
    family_of("run: damaged words", (const int[]){ 10, 12, 24, 111, 112, 113, -1 });
}

/* What a run tells that stops at a word: number, address, steps, trace length, held, bit. Each word before it was a step, and those that are
   not held were sent. */
static void expect_stop(const struct input *in, struct told t, uint64_t address, uint64_t held)
{
    const uint64_t expected[] = { t.number, address, address, address - held, held, t.bit };
    static const int places[] = { 0, 1, 2, 4, 20, 54 };
    try_run(*in);
    for (int i = 0; i < 6; i++)
        if (ours[places[i]] != expected[i] && !failed++)
            show(in), printf("  answer %d: %llu is expected\n", places[i], (unsigned long long)expected[i]);
}

/* A word at the first place, one between and the last, behind words that were sent or that are held; and with a budget that does not
   reach it. */
static void try_places(uint64_t word, struct told t)
{
    size_t n = 3 + below(6), places[3] = { 0, 1 + below(n - 2), n - 1 };
    for (int k = 0; k < 6; k++) {
        size_t place = places[k % 3], low = k < 3 || place == 0 ? 0 : 1 + below(place);
        for (size_t a = 0; a < n; a++)
            words[a] = a < place ? OP(0, (a + low < place ? HIGH : 0) | UINT64_C(2) << 24) : OP(6, 0);
        words[place] = word;
        struct input in = { n, 0, 8, 8, 60, 0 };
        expect_stop(&in, t, place, low);
        in.budget = place;
        if (k % 3 == 1)
            expect_stop(&in, (struct told){ 40, 0 }, place, low);
    }
}

static void try_bits(uint64_t code, uint64_t bits)
{
    uint64_t word = with_bits(GOOD, code, bits);
    firmware = any_firmware();
    try_places(word, told_of(word));
}

/* Such a word where every entry of the stack is in use, and where a run goes round it. */
static void try_late(uint64_t code, uint64_t bits)
{
    uint64_t word = with_bits(any_base(), code, bits);
    firmware = any_firmware();
    words[0] = OP(3, 1 + below(65535));
    for (size_t a = 1; a <= 16; a++)
        words[a] = OP(7, a + 1);
    words[17] = word;
    struct input in = { 18 + below(2), 0, 0, 8, 60, 0 };
    struct told t = told_of(word);
    if ((try_run(in) != t.number || ours[1] != 17 || ours[21] != 16 || ours[53] != ours[17] || ours[54] != t.bit) && !failed++)
        show(&in), printf("  %llu is expected, with bit %llu\n", (unsigned long long)t.number, (unsigned long long)t.bit);
    words[0] = OP(6, 2);
    words[1] = word;
    words[2] = OP(6, 0);
    in.n = 3;
    if ((try_run(in) != 40 || ours[54]) && !failed++)
        show(&in), printf("  40 is expected, with no bit\n");
}

/* A good word that is no engine word behind held ones: 22, and no bit; with an unnamed bit that is told first. */
static void try_breaking(uint64_t code, uint64_t bits)
{
    uint64_t word = good_of(code);
    struct input in = { 4, 0, 8, 8, 60, 0 };
    if (code == 0 || code == 1 || code == 10)
        return;
    firmware = any_firmware();
    words[0] = words[1] = OP(0, UINT64_C(2) << 24);
    words[2] = word;
    words[3] = OP(6, 0);
    expect_stop(&in, (struct told){ 22, 0 }, 2, 2);
    words[2] = word | bits;
    expect_stop(&in, told_of(words[2]), 2, 2);
}

/* Refused input comes before any word, and tells no bit. */
static void bad_words_and_bad_input(void)
{
    for (int k = 0; k < 400; k++) {
        for (size_t a = 0; a < 3; a++)
            words[a] = below(3) ? with_bits(ANYTHING, 2, some_bits(2)) : OP(1, HIGH | WIDE);
        firmware = any_firmware();
        try_run((struct input){ 0, 0, 8, 8, 60, 0 });
        try_run((struct input){ 3, 0, 8, 16777217, 60, 0 });
        try_run((struct input){ 3, 0, 8, 8, 1000001, 0 });
        try_run((struct input){ 3, 0, 8, 8, 60, 0 });
    }
    family_of("run: refused input before unnamed bits and wide counts", (const int[]){ 1, 3, 5, 24, 111, 112, 113, -1 });
}

static void unnamed(void)
{
    each_unnamed(try_bits);
    family_of_bits("run: every unnamed bit of every op code, alone, in pairs and several at once, at every place, with words held and without");
    each_unnamed(try_late);
    family_of_bits("run: unnamed bits under a full stack, and passed by");
    for (int older = 0; older < 2; older++) {
        firmware = older ? any_older() : 0;
        each_beside(try_places);
    }
    each_unnamed(try_breaking);
    family_of("run: unnamed bits beside other refusals", beside_placed);
}

/* A marker behind words that were sent and words that are held, and behind it a word that sends the group or breaks it. Where its form lets
   it through it is 22 as the eighth low word, or the word behind it is, or the run goes round. */
static void try_marker(uint64_t word, uint64_t number)
{
    static const uint64_t last[] = {
        OP(0, HIGH | UINT64_C(2) << 24), OP(1, HIGH | 2), OP(10, HIGH | NCO(1) | 2), OP(2, HIGH | ENGINE_OP(1)), OP(9, HIGH | ENGINE_OP(2)),
        OP(6, 0), ~UINT64_C(0),
    };
    for (int k = 0; k < 7; k++) {
        size_t sent = below(3), low = below(8), at = sent + low;
        struct input in = { at + 3, 0, 8 + below(40), 8, 60, 1 };
        for (size_t a = 0; a < at; a++)
            words[a] = (below(2) ? OP(0, UINT64_C(2) << 24) : OP(1, WIDE - 1)) | (a < sent ? HIGH : 0);
        words[at] = word;
        words[at + 1] = last[k];
        words[at + 2] = OP(6, 0);
        if (number)
            expect_stop(&in, (struct told){ number, 0 }, at, low);
        else if (!(word & HIGH) && low == 7)
            expect_stop(&in, (struct told){ 22, 0 }, at, low);
        else if (!(word & HIGH) && k > 2)
            expect_stop(&in, (struct told){ 22, 0 }, at + 1, low + 1);
        else
            try_run(in);
    }
}

static void markers(void)
{
    for (int k = 0; k < KINDS; k++) {
        firmware = kinds[k];
        each_marker(try_marker);
    }
    family_of("run: marker counts around 2^20, alone and in groups, for either firmware", (const int[]){ 14, 15, 16, 22, 24, 40, 41, 43, -1 });
}

/* A run for older firmware that does not end with 24 is that for the current one, in the whole answer and the whole trace. One that does has
   met a wide play, and is the current one's with a budget of as many steps. No wide play is ever sent. */
static uint64_t try_law(struct input in)
{
    forget_answers();
    firmware = any_older();
    uint64_t end = aps2_run(words, in.n, in.wave, firmware, messages, in.messages, in.triggers, our_trace, in.room, in.budget, ours);
    uint64_t budget = end == 24 ? ours[2] : in.budget;
    uint64_t current = aps2_run(words, in.n, in.wave, 0, messages, in.messages, in.triggers, their_trace, in.room, budget, theirs);
    int good = ours[0] == end && theirs[0] == current && current == (end == 24 ? 40 : end) && (end != 24 || is_wide(words[ours[1]]));
    for (size_t i = 0; i < ours[4] && i < ROOM; i++)
        good &= !is_wide(our_trace[i]);
    compare(&in, good, 1);
    return end;
}

static void laws(void)
{
    uint64_t sent = 0;
    for (int k = 0; k < 30000; k++) {
        struct input in = { 1 + below(16), below(20), below(3) ? 200 : below(20), below(9), below(4) ? 120 : below(20), (uint32_t)below(4) };
        fresh_messages();
        marked_sequence(words, in.n, in.wave);
        if (try_law(in) != 24)
            sent += ours[12] + ours[13] + ours[14] + ours[15] >= WIDE - 1;
    }
    if (sent < 1000 && !failed)
        failed = 1, printf("  only %llu runs sent a marker\n", (unsigned long long)sent);
    family_of("run: for older firmware as for the current one, up to a wide count", (const int[]){ 20, 21, 22, 24, 30, 31, 32, 40, 41, 42, 43, -1 });
}

static void nests(void)
{
    for (size_t deep = 14; deep <= 18; deep++)
        for (int back = 0; back < 3; back++) {
            size_t n = 0;
            for (; n < deep; n++)
                words[n] = OP(7, n + 1);
            if (back)
                words[n++] = OP(5, back == 1 ? 0 : 1);
            words[n++] = OP(8, 0);
            words[n++] = OP(8, 0);
            firmware = any_firmware();
            struct input in = { n, 0, 4, 0, 100, 0 };
            try_around(in);
        }
    family("run: nests of calls around the stack's depth");
}

static void bounds(void)
{
    for (size_t i = 0; i < MOST; i++)
        words[i] = OP(0, HIGH | UINT64_C(2) << 24 | 16777214);
    static const size_t sizes[] = { 0, 1, 65535, 65536, 65537 };
    static const uint64_t waves[] = { 0, 16777215, 16777216, 16777217, ~UINT64_C(0) }, budgets[] = { 0, 1, 2, 1000000, 1000001, ~UINT64_C(0) };
    for (int i = 0; i < 5; i++)
        for (int j = 0; j < 5; j++)
            for (int k = 0; k < 6; k++) {
                struct input in = { sizes[i], 0, ROOM, waves[j], budgets[k], (uint32_t)random64() };
                firmware = any_firmware();
                try_run(in);
                in.room = 0;
                try_run(in);
            }
    words[65535] = OP(6, 65535);
    words[0] = OP(6, 65535);
    struct input far = { 65536, 0, 0, 0, 9, 0 };
    try_run(far);
    words[0] = OP(6, 65536);
    try_run(far);
    family("run: every input at its bounds and past them");
}

static void long_runs(void)
{
    static const uint64_t loops[][5] = {
        { OP(6, 0) },
        { OP(3, 65535), OP(4, 1), OP(6, 0) },
        { OP(7, 2), OP(6, 0), OP(8, 0) },
        { OP(5, 0), OP(6, 0), OP(6, 0) },
        { OP(2, HIGH | UINT64_C(1) << 46), OP(6, 0) },
    };
    static const size_t sizes[] = { 1, 3, 3, 3, 2 };
    for (int k = 0; k < 5; k++) {
        for (size_t i = 0; i < sizes[k]; i++)
            words[i] = loops[k][i];
        struct input in = { sizes[k], 0, ROOM, 8, 1000000, 7 };
        firmware = any_firmware();
        try_run(in);
        in.budget = 999999;
        try_run(in);
    }
    family("run: the full million steps");
}

/* A word for an engine (waveform, markers 0 to 3, modulator), its write flag low, and what it adds to that engine's total: H7 with document 02,
   request 6, worked out from the count that is asked for. Waits, a prefetch and a phase add nothing. */
static uint64_t word_for(int engine, int plays, uint64_t count, uint64_t *adds)
{
    static const uint64_t idle[] = { MODULATOR_OP(1) | NCO(3), MODULATOR_OP(2), MODULATOR_OP(3) | NCO(1) | 9, MODULATOR_OP(4), MODULATOR_OP(7) | NCO(2) | 9 };
    const uint64_t longest = UINT64_C(0x1FFFFF), select = engine_select();
    if (engine == 0 && count > longest)
        count = longest;
    *adds = !plays ? 0 : engine == 0 || engine == 5 ? count : count + 1;
    if (engine == 0)
        return OP(0, select | (plays ? below(2) << 45 | count << 24 : (1 + below(3)) << 46));
    if (engine == 5)
        return OP(10, select | (plays ? NCO(1) << below(2) | count : idle[below(5)]));
    return OP(1, (uint64_t)(engine - 1) << 58 | (plays ? below(32) << 32 | count : (1 + below(2)) << 46));
}

/* A sequence that goes round: the totals are those of one round, times the rounds. */
static void try_pulses(size_t n, const uint64_t round[6], uint64_t rounds)
{
    words[n] = OP(6, 0);
    struct input in = { n + 1, 0, ROOM, 16777216, (n + 1) * rounds, 0 };
    uint64_t end = try_run(in);
    for (int k = 0; k < 6; k++)
        if ((end != 40 || ours[11 + k] != round[k] * rounds) && !failed++)
            show(&in), printf("  total %d: %llu, where %llu is expected\n", k, (unsigned long long)ours[11 + k], (unsigned long long)(round[k] * rounds));
}

/* Each engine's plays and waits alone, with every count. One that older firmware does not take is for the current one. */
static void lone_pulses(void)
{
    for (int k = 0; k < 6 * 2 * (FIT - 2); k++) {
        int engine = k / 2 % 6, plays = k % 2;
        uint64_t count = count_at(2 + (uint64_t)k / 12), round[6] = { 0 };
        words[0] = word_for(engine, plays, count, &round[engine]) | HIGH;
        firmware = count < WIDE ? any_firmware() : 0;
        try_pulses(1, round, 1 + below(2000));
    }
}

/* Many of them, in groups. */
static void grouped_pulses(void)
{
    for (int k = 0; k < 3000; k++) {
        uint64_t round[6] = { 0 }, adds, wide = below(2);
        size_t n = 1 + below(40), low = 0;
        for (size_t a = 0; a < n; a++) {
            int engine = (int)below(6);
            words[a] = word_for(engine, below(4) != 0, wide ? count_at(2 + below(FIT - 2)) : 2 + below(WIDE - 2), &adds);
            round[engine] += adds;
            low = a + 1 == n || low == 7 || below(2) ? 0 : low + 1;
            words[a] |= low ? 0 : HIGH;
        }
        firmware = wide ? 0 : any_firmware();
        try_pulses(n, round, 1 + below(90));
    }
}

static void pulses(void)
{
    lone_pulses();
    grouped_pulses();
    family_of("run: totals, with one quad-sample more for a marker's play", (const int[]){ 40, -1 });
}

/* A case of document 01: what is expected at some places of the answer. */
static void expect(struct input in, const uint64_t *case_words, const uint64_t *places, size_t count)
{
    for (size_t i = 0; i < in.n; i++)
        words[i] = case_words[i];
    try_run(in);
    for (size_t i = 0; i < count; i++)
        if (ours[places[2 * i]] != places[2 * i + 1] && !failed++)
            printf("  answer %llu: %llu, and the document says %llu\n", (unsigned long long)places[2 * i], (unsigned long long)ours[places[2 * i]], (unsigned long long)places[2 * i + 1]);
}

#define EXPECT(in, list, ...) \
    do { \
        const uint64_t places[] = { __VA_ARGS__ }; \
        expect((struct input)in, list, places, sizeof places / sizeof *places / 2); \
    } while (0)
#define INPUT(...) { __VA_ARGS__ }

static void cases(void)
{
    static const uint64_t p1[] = { UINT64_C(0x9100800000000000), UINT64_C(0x2100400000000000), UINT64_C(0x0100000004000001), UINT64_C(0x6000000000000000) };
    static const uint64_t p5[] = { UINT64_C(0x3000000000000002), UINT64_C(0x0100000004000001), UINT64_C(0x4000000000000001), UINT64_C(0x6000000000000003) };
    static const uint64_t p12[] = { OP(11, 0), OP(6, 0) };
    static const uint64_t eight[] = { OP(0, UINT64_C(2) << 24), OP(0, UINT64_C(2) << 24), OP(0, UINT64_C(2) << 24), OP(0, UINT64_C(2) << 24),
        OP(0, UINT64_C(2) << 24), OP(0, UINT64_C(2) << 24), OP(0, UINT64_C(2) << 24), OP(0, UINT64_C(2) << 24) };
    static const uint64_t short_play[] = { OP(0, HIGH | UINT64_C(1) << 24) }, play[] = { OP(0, HIGH | UINT64_C(2) << 24) }, not_noop[] = { ~UINT64_C(0) - 1 };
    EXPECT(INPUT(4, 0, 8, 5, 10, 0), p1, 0, 41, 1, 0, 2, 4, 4, 3, 11, 4, 5, 1, 6, 1, 7, 1, 8, 1, 9, 1, 10, 1);
    EXPECT(INPUT(4, 0, 8, 5, 10, 1), p1, 0, 41, 2, 8, 4, 6, 11, 8);
    EXPECT(INPUT(4, 0, 8, 5, 8, 1), p1, 0, 40, 2, 8);
    EXPECT(INPUT(4, 0, 8, 5, 7, 0), p5, 0, 40, 1, 3, 4, 3, 11, 12, 17, 0);
    messages[0] = 7;
    EXPECT(INPUT(2, 1, 8, 0, 10, 0), p12, 0, 42, 2, 2, 18, 7);
    EXPECT(INPUT(1, 0, 8, 9, 10, 0), short_play, 0, 16);
    EXPECT(INPUT(1, 0, 8, 9, 10, 0), play, 0, 30, 1, 1, 4, 1);
    EXPECT(INPUT(1, 0, 8, 9, 10, 0), not_noop, 0, 10);
    EXPECT(INPUT(8, 0, 8, 9, 10, 0), eight, 0, 22, 1, 7, 20, 7);
    EXPECT(INPUT(1, 0, 8, 9, 1000001, 0), play, 0, 5, 1, 0, 2, 0);
}

static void worked(void)
{
    firmware = 0;
    cases();
    firmware = any_older();
    cases();
    family("run: the cases of document 01, for either firmware");
}

static int can_end(uint64_t n)
{
    int input = (n >= 1 && n <= 3) || n == 5, word = n == 10 || (n >= 111 && n <= 113) || (n >= 12 && n <= 22) || n == 24;
    return input || word || (n >= 30 && n <= 32) || (n >= 40 && n <= 43);
}

static void nothing_behind(void)
{
    ours[4] = 0;
    if (!same_traces(ROOM + BEHIND))
        failed = 1, printf("  something was written behind a trace\n");
}

int main(void)
{
    printf("seed %llu\n", (unsigned long long)seed);
    for (size_t i = 0; i < ROOM + BEHIND; i++)
        our_trace[i] = their_trace[i] = old_trace[i] = random64();
    worked();
    small_runs();
    groups();
    damaged();
    unnamed();
    markers();
    pulses();
    laws();
    bad_words_and_bad_input();
    nests();
    bounds();
    random_runs();
    long_runs();
    nothing_behind();
    all_met("run: every end was met", can_end);
    return 0;
}
