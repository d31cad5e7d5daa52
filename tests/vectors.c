/* Cases from a separate implementation, one to a line on standard input, compared with the proved code.
   The first line names the kind, as `kinds` has them. Lists are parted by commas, `-` is the empty list, words are hexadecimal. Every case but
   a block or a move has its firmware, which is passed on. */
#include "../include/aps2.h"
#include "check.h"

static int next = ' ';

/* The next number of the line, in base 10 or 16; 2^64 - 1 stands for all that are more. */
static uint64_t number(int base)
{
    uint64_t n = 0, digit;
    while (next == ' ' || next == ',' || next == '\n')
        next = getchar();
    for (;; next = getchar()) {
        if (next >= '0' && next <= '9')
            digit = (uint64_t)(next - '0');
        else if (base == 16 && next >= 'a' && next <= 'f')
            digit = (uint64_t)(next - 'a' + 10);
        else
            return n;
        n = n > (~UINT64_C(0) - digit) / (uint64_t)base ? ~UINT64_C(0) : n * (uint64_t)base + digit;
    }
}

static int more(void)
{
    while (next == ' ' || next == '\n')
        next = getchar();
    return next != -1;
}

/* The next list of the line into `list`; tells how many. */
static size_t numbers(int base, uint64_t *list, size_t most)
{
    size_t n = 0;
    while (next == ' ')
        next = getchar();
    if (next == '-') {
        next = getchar();
        return 0;
    }
    for (;;) {
        uint64_t x = number(base);
        if (n < most)
            list[n++] = x;
        if (next != ',')
            return n;
        next = getchar();
    }
}

static void disagree(uint64_t line)
{
    if (!failed)
        printf("  line %llu\n", (unsigned long long)line);
    failed = 1;
}

static void read_cases(void)
{
    while (more()) {
        uint64_t word = number(16), firmware = number(10), expected = number(10), fields[8], bit[1] = { 99 };
        int good = aps2_read(word, firmware, fields, bit) == expected;
        for (int i = 0; i < 8; i++)
            good &= number(10) == fields[i];
        good &= number(10) == bit[0];
        compared++;
        meet(expected);
        if (!good)
            disagree(compared);
    }
    family_of("vectors: read", (const int[]){ 0, 10, 12, 13, 14, 15, 16, 17, 18, 19, 24, 111, 112, 113, -1 });
}

static void write_cases(void)
{
    while (more()) {
        uint64_t fields[8], word[1];
        for (int i = 0; i < 8; i++)
            fields[i] = number(10);
        uint64_t firmware = number(10), expected = number(10), given = aps2_write(fields, firmware, word);
        int good = given == expected;
        good &= number(16) == word[0];
        compared++;
        meet(expected);
        if (!good)
            disagree(compared);
    }
    family_of("vectors: write", (const int[]){ 0, 10, 13, 14, 15, 16, 17, 18, 23, 24, -1 });
}

#define MOST 4096

static uint64_t words[MOST], listed[MOST], dispatched[MOST], trace[MOST];
static uint8_t messages[MOST];

static void run_cases(void)
{
    while (more()) {
        uint64_t wave = number(10), firmware = number(10), answer[55], expected[55];
        for (int i = 0; i < 55; i++)
            answer[i] = 99;
        size_t n = numbers(16, words, MOST), m = numbers(10, listed, MOST);
        for (size_t i = 0; i < m; i++)
            messages[i] = (uint8_t)listed[i];
        uint64_t triggers = number(10), room = number(10), budget = number(10);
        size_t fields = numbers(10, expected, 55), sent = numbers(16, dispatched, MOST);
        for (size_t i = 0; i < MOST; i++)
            trace[i] = i * 3 + 1;
        int good = fields == 55;
        good &= aps2_run(words, n, wave, firmware, messages, m, (uint32_t)triggers, trace, room, budget, answer) == expected[0];
        for (int i = 0; i < 55; i++)
            good &= answer[i] == expected[i];
        for (size_t i = 0; i < MOST; i++)
            good &= trace[i] == (i < sent ? dispatched[i] : i * 3 + 1);
        compared++;
        meet(expected[0]);
        if (!good)
            disagree(compared);
    }
    family_of("vectors: run", (const int[]){ 15, 16, 24, 40, 112, 113, -1 });
}

/* Marks are hexadecimal, and all 1 before. */
static void check_cases(void)
{
    while (more()) {
        uint64_t wave = number(10), firmware = number(10), place[2] = { 99, 99 };
        size_t n = numbers(16, words, MOST), room = number(10);
        uint64_t expected = number(10), at = number(10), bit = number(10);
        size_t marks = numbers(16, listed, MOST);
        for (size_t i = 0; i < MOST; i++)
            trace[i] = 1;
        int good = aps2_check(words, n, wave, firmware, trace, room, place) == expected && place[0] == at && place[1] == bit && marks == room;
        for (size_t i = 0; i < MOST; i++)
            good &= trace[i] == (i < marks ? listed[i] : 1);
        compared++;
        meet(expected);
        if (!good)
            disagree(compared);
    }
    family_of("vectors: check", (const int[]){ 0, 24, 111, 112, 113, -1 });
}

#define TEXT 700000

static uint8_t raw[TEXT], expected_text[TEXT], text[TEXT];

/* The next bytes of the line, two hexadecimal digits each; tells how many. */
static size_t hexadecimal(uint8_t *list)
{
    size_t n = 0;
    while (next == ' ')
        next = getchar();
    if (next == '-')
        next = getchar();
    for (; (next >= '0' && next <= '9') || (next >= 'a' && next <= 'f'); next = getchar()) {
        uint8_t digit = (uint8_t)(next <= '9' ? next - '0' : next - 'a' + 10);
        list[n / 2] = (uint8_t)(n % 2 ? list[n / 2] << 4 | digit : digit);
        n += n / 2 < TEXT - 1;
    }
    return n / 2;
}

/* The number of each `BAD` line. */
static void meet_bad(const uint8_t *listing, size_t len)
{
    for (size_t i = 0; i + 3 < len; i++) {
        if (listing[i] != 'B' || listing[i + 1] != 'A' || listing[i + 2] != 'D')
            continue;
        uint64_t n = 0;
        for (i += 4; i < len && listing[i] >= '0' && listing[i] <= '9'; i++)
            n = n * 10 + (listing[i] - '0');
        meet(n);
    }
}

static void listing_cases(void)
{
    while (more()) {
        size_t n = hexadecimal(raw);
        uint64_t firmware = number(10);
        size_t length = hexadecimal(expected_text);
        int good = aps2_listing(raw, n, firmware, text, TEXT) == length;
        for (size_t i = 0; i < length; i++)
            good &= text[i] == expected_text[i];
        compared++;
        meet_bad(expected_text, length);
        if (!good)
            disagree(compared);
    }
    family_of("vectors: listing", (const int[]){ 10, 11, 12, 13, 14, 15, 16, 17, 18, 24, -1 });
}

/* Words after are the whole buffer, which is all 1 before. */
static void read_listing_cases(void)
{
    while (more()) {
        size_t n = hexadecimal(text);
        uint64_t firmware = number(10);
        size_t room = number(10);
        uint64_t expected = number(10), line = number(10), count = number(10), told[2];
        size_t after = numbers(16, listed, MOST);
        for (size_t i = 0; i < MOST; i++)
            words[i] = 1;
        int good = aps2_read_listing(text, n, firmware, words, room, told) == expected && told[0] == line && told[1] == count && after == room;
        for (size_t i = 0; i < MOST; i++)
            good &= words[i] == (i < after ? listed[i] : 1);
        compared++;
        meet(expected);
        if (!good)
            disagree(compared);
    }
    family_of("vectors: read_listing", (const int[]){ 0, 23, 24, 60, 61, 62, 63, 64, -1 });
}

#define BUDGET 1000000
#define ROOM 70200 /* words of a block, and more behind */

static uint64_t block[ROOM], sent[BUDGET];

/* A run of our words gets to the park, a GOTO to itself, after these steps and not one before, having dispatched so many words; where that is
   beyond the budget it goes a part of the way. The first words that it dispatches are those listed. */
static int runs(size_t n, uint64_t wave, uint64_t steps, uint64_t many, size_t first)
{
    uint64_t answer[55], budget = steps < BUDGET ? steps : BUDGET;
    int good = aps2_run(block, n, wave, 0, messages, 0, 0, sent, BUDGET, budget - 1, answer) == 40;
    good &= answer[1] < n && block[answer[1]] != (UINT64_C(6) << 60 | answer[1]);
    good &= aps2_run(block, n, wave, 0, messages, 0, 0, sent, BUDGET, budget, answer) == 40 && answer[4] <= many;
    if (steps <= BUDGET)
        good &= answer[1] < n && block[answer[1]] == (UINT64_C(6) << 60 | answer[1]) && answer[4] == many;
    for (size_t i = 0; i < first && i < answer[4]; i++)
        good &= sent[i] == listed[i];
    return good;
}

/* The rest of a line, of which the text was read. How the words are laid out is ours; behind them the buffer is all 1, as before. */
static void block_case(size_t len)
{
    uint64_t wave = number(10), room = number(10), expected = number(10), line = number(10), count = number(10), told[2];
    uint64_t steps = number(10), many = number(10);
    size_t first = numbers(16, listed, MOST);
    for (size_t i = 0; i < ROOM; i++)
        block[i] = 1;
    int good = aps2_block(text, len, wave, block, room, told) == expected && told[0] == line && told[1] == count;
    for (size_t i = count; i < ROOM; i++)
        good &= block[i] == 1;
    if (good && expected == 0)
        good = runs(count, wave, steps, many, first);
    compared++;
    meet(expected);
    if (!good)
        disagree(compared);
}

static void block_cases(void)
{
    while (more())
        block_case(hexadecimal(text));
    family_of("vectors: block", (const int[]){ 0, 3, 16, 20, 23, 50, 51, 52, 53, 55, -1 });
}

/* Copies of a piece of text, and what follows them. */
static void block_long_cases(void)
{
    while (more()) {
        size_t piece = hexadecimal(raw), copies = number(10), len = 0;
        for (; copies > 0; copies--)
            for (size_t i = 0; i < piece && len < TEXT; i++)
                text[len++] = raw[i];
        for (size_t i = 0, behind = hexadecimal(raw); i < behind && len < TEXT; i++)
            text[len++] = raw[i];
        block_case(len);
    }
    family_of("vectors: block_long", (const int[]){ 0, 3, 20, 50, 52, 54, 55, -1 });
}

#define BEHIND 64 /* bytes behind those that are lent */

/* Moves between the editions. The lent bytes are all 7e before; behind what is written they stay so. */
static void move_cases(uint64_t (*move)(const uint8_t *, size_t, uint8_t *, size_t, uint64_t[2]))
{
    while (more()) {
        size_t len = hexadecimal(raw), room = number(10);
        uint64_t expected = number(10), line = number(10), count = number(10), told[2] = { 99, 99 };
        size_t written = hexadecimal(expected_text);
        for (size_t i = 0; i < room + BEHIND; i++)
            text[i] = 0x7e;
        int good = move(raw, len, text, room, told) == expected && told[0] == line && told[1] == count && count == written && written <= room;
        for (size_t i = 0; i < room + BEHIND; i++)
            good &= text[i] == (i < written ? expected_text[i] : 0x7e);
        compared++;
        meet(expected);
        if (!good)
            disagree(compared);
    }
}

static void to_labels_cases(void)
{
    move_cases(aps2_to_labels);
    family_of("vectors: to_labels", (const int[]){ 0, 21, 60, 61, 62, 63, 64, -1 });
}

static void to_addresses_cases(void)
{
    move_cases(aps2_to_addresses);
    family_of("vectors: to_addresses", (const int[]){ 0, 60, 61, 63, 64, 65, 66, 67, -1 });
}

enum { STATE = 55 };

/* A line of calls: what a call is given, and what is expected of it. */
struct call {
    uint64_t which, wave, firmware, triggers, budget, number, bit, before[STATE], after[STATE];
    size_t n, messages, room;
    int goes_on;
};
static uint64_t trace_before[MOST], trace_after[MOST];

/* The next word of the line, `step` or `go`: whether it is the second. */
static int goes_on(void)
{
    while (next == ' ')
        next = getchar();
    int second = next == 'g';
    while (next >= 'a' && next <= 'z')
        next = getchar();
    return second;
}

/* The next list of the line, of so many numbers; `=` stands for the one that is given. */
static int numbers_or(const uint64_t *given, size_t count, int base, uint64_t *list, size_t most)
{
    while (next == ' ')
        next = getchar();
    if (next != '=')
        return numbers(base, list, most) == count;
    next = getchar();
    for (size_t i = 0; i < count; i++)
        list[i] = given[i];
    return 1;
}

/* Tells whether its lists are as long as they must be. */
static int read_call(struct call *c)
{
    c->which = number(10);
    c->goes_on = goes_on();
    c->wave = number(10);
    c->firmware = number(10);
    c->n = numbers(16, words, MOST);
    c->messages = numbers(10, listed, MOST);
    for (size_t i = 0; i < c->messages; i++)
        messages[i] = (uint8_t)listed[i];
    c->triggers = number(10);
    c->room = numbers(16, trace_before, MOST);
    c->budget = number(10);
    int good = numbers(10, c->before, STATE) == STATE;
    c->number = number(10);
    c->bit = number(10);
    good &= numbers_or(c->before, STATE, 10, c->after, STATE);
    return numbers_or(trace_before, c->room, 16, trace_after, MOST) && good;
}

/* The state and the trace, with what is behind it, are these. */
static int stands(const uint64_t state[STATE], const uint64_t expected[STATE], const uint64_t *trace_expected, size_t room)
{
    int good = 1;
    for (int i = 0; i < STATE; i++)
        good &= state[i] == expected[i];
    for (size_t i = 0; i < MOST; i++)
        good &= trace[i] == (i < room ? trace_expected[i] : 1);
    return good;
}

/* Lines in a row with the same case are calls in a row: each starts from what our call before it left, which the line must say, too. */
static void calls_cases(void)
{
    uint64_t last = 0, state[STATE], bit[1];
    while (more()) {
        struct call c;
        int good = read_call(&c);
        if (compared == 0 || c.which != last) {
            for (int i = 0; i < STATE; i++)
                state[i] = c.before[i];
            for (size_t i = 0; i < MOST; i++)
                trace[i] = i < c.room ? trace_before[i] : 1;
        }
        good &= stands(state, c.before, trace_before, c.room);
        bit[0] = 99;
        good &= (c.goes_on ? aps2_go_on : aps2_step)(words, c.n, c.wave, c.firmware, messages, c.messages, (uint32_t)c.triggers, trace, c.room,
                                                     c.budget, state, bit) == c.number;
        good &= bit[0] == c.bit && stands(state, c.after, trace_after, c.room);
        last = c.which;
        compared++;
        meet(c.number);
        if (!good)
            disagree(compared);
    }
    family_of("vectors: calls", (const int[]){ 0, 1, 3, 5, 17, 20, 22, 24, 30, 31, 32, 40, 41, 42, 43, 70, 71, 112, 113, -1 });
}

static const struct {
    const char *name;
    void (*cases)(void);
} kinds[] = {
    { "read", read_cases }, { "write", write_cases }, { "check", check_cases },
    { "run", run_cases }, { "listing", listing_cases }, { "read_listing", read_listing_cases },
    { "block", block_cases }, { "block_long", block_long_cases }, { "to_labels", to_labels_cases }, { "to_addresses", to_addresses_cases },
    { "calls", calls_cases },
};

static int same(const char *a, const char *b)
{
    while (*a && *a == *b)
        a++, b++;
    return *a == *b;
}

int main(void)
{
    char kind[16] = { 0 };
    for (size_t i = 0; (next = getchar()) != '\n' && next != -1; i++)
        if (i < sizeof kind - 1)
            kind[i] = (char)next;
    for (size_t k = 0; k < sizeof kinds / sizeof *kinds; k++)
        if (same(kind, kinds[k].name)) {
            kinds[k].cases();
            return 0;
        }
    printf("FAIL vectors: no kind %s\n", kind);
    return 1;
}
