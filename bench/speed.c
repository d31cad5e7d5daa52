/* How long ours and the second program take for the same work on the same input.
   They are called in turn, many times and with cleared buffers; the best time of each counts, and the answers must agree. */
#include "../include/aps2.h"
#include "../second/second.h"
#include "../tests/lines.h"
#include "../tests/sequences.h"

enum { WORDS = 65536, FEWER = 4096, STEPS = 1000000, LISTED = 2048, WAVE = 16, MEMORY = 1 << 24, NEST = 16, ROUNDS = 12, TIMES = 4 };
enum { LABELS = 30000 }; /* of WORDS words */
enum { PART = 1000 }; /* the steps of one go-on */

#define PLAY OP(0, HIGH | UINT64_C(2) << 24)
#define REPEAT(to) OP(4, (uint64_t)(to))
#define GOTO(to) OP(6, (uint64_t)(to))
#define CALL(to) OP(7, (uint64_t)(to))
#define RETURN OP(8, 0)

struct moment {
    long seconds, nanoseconds;
};
int clock_gettime(int clock, struct moment *now);

static double now(void)
{
    struct moment m;
    clock_gettime(1, &m); /* the clock that nobody sets */
    return (double)m.seconds * 1e9 + (double)m.nanoseconds;
}

/* What both are given, and what each gives back; `lent` is the marks, the trace or the words read, and `room` says how much
   of it is lent. Both stand at the start of a page, so that neither is slowed by where the linker put it. */
static uint64_t words[WORDS], firmware;
static uint8_t raw[8 * LISTED], text[HEADER + LINE * WORDS];
static size_t n, room, text_len;
struct answer {
    uint64_t lent[STEPS], number, fields[8], bit[1], place[2], answer[55], told[2];
} __attribute__((aligned(4096)));
static struct answer ours, theirs;

static void our_reading(void)
{
    for (size_t a = 0; a < n; a++)
        ours.number += aps2_read(words[a], firmware, ours.fields, ours.bit);
}

static void their_reading(void)
{
    for (size_t a = 0; a < n; a++)
        theirs.number += second_read(words[a], firmware, theirs.fields, theirs.bit);
}

static void our_check(void) { ours.number = aps2_check(words, n, WAVE, firmware, ours.lent, room, ours.place); }
static void their_check(void) { theirs.number = second_check(words, n, WAVE, firmware, theirs.lent, room, theirs.place); }
static void our_run(void) { ours.number = aps2_run(words, n, WAVE, firmware, NULL, 0, 0, ours.lent, room, STEPS, ours.answer); }
static void their_run(void) { theirs.number = second_run(words, n, WAVE, firmware, NULL, 0, 0, theirs.lent, room, STEPS, theirs.answer); }

/* The same steps in many go-ons, told as one run tells them. */
static void tell_as_run(struct answer *a, const uint64_t state[55])
{
    a->answer[0] = a->number;
    for (int i = 0; i < 53; i++)
        a->answer[1 + i] = state[i];
    a->answer[54] = a->bit[0];
}

static void our_go_ons(void)
{
    uint64_t state[55] = { 0 };
    for (uint64_t budget = PART; budget <= STEPS; budget += PART)
        ours.number = aps2_go_on(words, n, WAVE, firmware, NULL, 0, 0, ours.lent, room, budget, state, ours.bit);
    tell_as_run(&ours, state);
}

static void their_go_ons(void)
{
    uint64_t state[55] = { 0 };
    for (uint64_t budget = PART; budget <= STEPS; budget += PART)
        theirs.number = second_go_on(words, n, WAVE, firmware, NULL, 0, 0, theirs.lent, room, budget, state, theirs.bit);
    tell_as_run(&theirs, state);
}

/* Our own one run, in the place of the second program. */
static void our_one_run(void) { theirs.number = aps2_run(words, n, WAVE, firmware, NULL, 0, 0, theirs.lent, room, STEPS, theirs.answer); }

static void our_listing(void) { ours.number = aps2_listing(raw, 8 * n, firmware, (uint8_t *)ours.lent, 8 * room); }
static void their_listing(void) { theirs.number = second_listing(raw, 8 * n, firmware, (uint8_t *)theirs.lent, 8 * room); }

static void our_read_listing(void) { ours.number = aps2_read_listing(text, text_len, firmware, ours.lent, room, ours.told); }
static void their_read_listing(void) { theirs.number = second_read_listing(text, text_len, firmware, theirs.lent, room, theirs.told); }

/* How the words of a block are laid out is each program's own: they are lent the room of n words, and of the lent words none are compared. */
static void our_block(void) { ours.number = aps2_block(text, text_len, MEMORY, ours.lent, n, ours.told); }
static void their_block(void) { theirs.number = second_block(text, text_len, MEMORY, theirs.lent, n, theirs.told); }

static void our_to_labels(void) { ours.number = aps2_to_labels(text, text_len, (uint8_t *)ours.lent, 8 * room, ours.told); }
static void their_to_labels(void) { theirs.number = second_to_labels(text, text_len, (uint8_t *)theirs.lent, 8 * room, theirs.told); }
static void our_to_addresses(void) { ours.number = aps2_to_addresses(text, text_len, (uint8_t *)ours.lent, 8 * room, ours.told); }
static void their_to_addresses(void) { theirs.number = second_to_addresses(text, text_len, (uint8_t *)theirs.lent, 8 * room, theirs.told); }

/* Plays, and a GOTO back to the first. */
static void straight(void)
{
    for (size_t a = 0; a < n; a++)
        words[a] = PLAY;
    words[n - 1] = GOTO(0);
}

/* All kinds of words in no order, and the same ones in every round. */
static void mixed(void)
{
    seed = 1;
    any_sequence(words, n, WAVE);
}

/* The words as bytes, most significant first. */
static void as_bytes(void)
{
    for (size_t i = 0; i < 8 * n; i++)
        raw[i] = (uint8_t)(words[i / 8] >> (56 - 8 * (i % 8)));
}

static void listed_plays(void)
{
    straight();
    as_bytes();
}

static void listed_mixed(void)
{
    mixed();
    as_bytes();
}

/* The listing of the words, with a play for each that is refused. */
static void text_of_words(void)
{
    uint64_t fields[8], bit[1];
    text_len = put_header(text);
    for (size_t a = 0; a < n; a++)
        text_len += put_line(text + text_len, a, second_read(words[a], firmware, fields, bit) ? PLAY : words[a], firmware);
}

static void text_mixed(void)
{
    mixed();
    text_of_words();
}

static int jumps(uint64_t word) { return word >> 60 == 4 || word >> 60 == 6 || word >> 60 == 7; }

/* The same with as many jumps as there are labels, evenly among the other words, each to an address of its own, here and there in the text. */
static void text_with_jumps(void)
{
    size_t k = 0;
    mixed();
    for (size_t a = 0; a < n; a++) {
        words[a] = jumps(words[a]) ? PLAY : words[a];
        if ((a + 1) * LABELS / WORDS > k)
            words[a] = OP(k % 3 ? 5 + k % 3 : 4, k * 40503 % n), k++;
    }
    text_of_words();
}

/* The same with labels. Where `alike` is 0 they are ours; else they have sixteen letters, and three of them, from `alike` on, tell them apart. */
static void put_labels(size_t alike)
{
    static const char letters[] = "0123456789ABCDEFGHIJKLMNOPQRSTUVWXYZabcdefghijklmnopqrstuvwxyz";
    const uint8_t *from = (const uint8_t *)theirs.lent;
    text_with_jumps();
    their_to_labels();
    text_len = 0;
    for (size_t i = 0; i < theirs.told[1];) {
        uint64_t label = 0;
        text[text_len++] = from[i++];
        if (!alike || from[i - 1] != '\t' || from[i] != 'L')
            continue;
        for (i++; from[i] >= '0' && from[i] <= '9'; i++)
            label = 10 * label + (uint64_t)(from[i] - '0');
        for (size_t letter = 1; letter <= 16; letter++)
            if (letter >= alike && letter < alike + 3)
                text[text_len++] = (uint8_t)letters[label % (sizeof letters - 1)], label /= sizeof letters - 1;
            else
                text[text_len++] = 'A';
    }
}

static void labelled(void) { put_labels(0); }
static void alike_last(void) { put_labels(1); }
static void alike_first(void) { put_labels(14); }

/* A line of a block, with the numbers that its name has. */
static void put_item(const char *name, int numbers, uint64_t first, uint64_t second)
{
    while (*name)
        text[text_len++] = (uint8_t)*name++;
    for (int i = 0; i < numbers; i++) {
        text[text_len++] = '\t';
        text_len += put_number(text + text_len, i ? second : first);
    }
    text[text_len++] = '\n';
}

static void put_plays(size_t count)
{
    for (; count > 0; count--)
        put_item(below(2) ? "play" : "hold", 2, below(MEMORY / 2), 2 + below(2000));
}

/* A block of n words: plays and holds, one after the other. */
static void flat_block(void)
{
    seed = 1;
    text_len = 0;
    put_plays(n - 2);
}

/* Nests as deep as can be, two plays or holds before and two behind each repeat in them, as many as there is room for, and then plays. */
static void nested_block(void)
{
    size_t size = 8 * NEST, nests = (n - 2) / size;
    seed = 1;
    text_len = 0;
    for (size_t i = 0; i < nests; i++) {
        for (size_t deep = 0; deep < NEST; deep++)
            put_item("repeat", 1, 1 + below(WORDS), 0), put_plays(2);
        for (size_t deep = 0; deep < NEST; deep++)
            put_plays(2), put_item("end", 0, 0, 0);
    }
    put_plays(n - 2 - nests * size);
}

/* From the last address down to the first, one GOTO after another. */
static void backward(void)
{
    for (size_t a = 1; a < n; a++)
        words[a] = GOTO(a - 1);
    words[0] = GOTO(n - 1);
}

/* Nests of calls, each to the stack's end and back, one after another; plays where no nest has room. */
static void nests(void)
{
    straight();
    for (size_t from = 0; from + 2 * NEST + 1 < n; from += 2 * NEST + 1) {
        for (size_t a = from; a < from + 2 * NEST; a += 2) {
            words[a] = CALL(a + 2);
            words[a + 1] = RETURN;
        }
        words[from + 1] = GOTO(from + 2 * NEST + 1);
        words[from + 2 * NEST] = RETURN;
    }
}

/* Every address at every depth, with a condition and without. */
static void everything(void)
{
    straight();
    words[0] = REPEAT(2);
    words[1] = OP(5, 0);
    words[n - 2] = REPEAT(0);
    words[n - 1] = CALL(0);
}

/* A REPEAT that jumps onto itself. */
static void tight(void)
{
    words[0] = OP(3, 65535);
    words[1] = REPEAT(1);
    words[2] = GOTO(0);
}

/* Marker plays with the greatest count that older firmware takes, for each marker engine in turn. */
static void markers(void)
{
    straight();
    for (size_t a = 0; a + 1 < n; a++)
        words[a] = OP(1, (uint64_t)(a % 4) << 58 | HIGH | (WIDE - 1));
}

/* The same, every second word one for the modulator: modulate, and update frame. */
static void modulated(void)
{
    markers();
    for (size_t a = 1; a + 1 < n; a += 2)
        words[a] = OP(10, HIGH | UINT64_C(1) << 40 | (a % 4 == 1 ? 2 : UINT64_C(7) << 45));
}

/* A line of the table: who works, on what, with how much lent, the number of words or steps that share the time, and the firmware. A line
   with `fewer` does the work of the line before it on fewer words, and shows how the time grows. A line `go-on-run` has our own one run in the
   place of the second program's go-ons, and shows what the pauses cost. */
struct line {
    const char *name;
    void (*ours)(void), (*theirs)(void), (*fill)(void);
    size_t n, room;
    double count;
    int fewer;
    uint64_t firmware;
    double our_best, their_best;
};

#define READ(family, fill) { "read " family, our_reading, their_reading, fill, WORDS, 0, WORDS, 0, 0, 1e18, 1e18 }
#define CHECK(family, fill) \
    { "check " family, our_check, their_check, fill, WORDS, WORDS, WORDS, 0, 0, 1e18, 1e18 }, \
    { "check-growth " family, our_check, their_check, fill, FEWER, FEWER, FEWER, 1, 0, 1e18, 1e18 }
#define RUN(family, fill, n, firmware) { "run " family, our_run, their_run, fill, n, STEPS, STEPS, 0, firmware, 1e18, 1e18 }
#define GO_ON(family, fill, n) \
    { "go-on " family, our_go_ons, their_go_ons, fill, n, STEPS, STEPS, 0, 0, 1e18, 1e18 }, \
    { "go-on-run " family, our_go_ons, our_one_run, fill, n, STEPS, STEPS, 0, 0, 1e18, 1e18 }

#define LIST(family, fill) { "listing " family, our_listing, their_listing, fill, LISTED, 8 * LISTED, LISTED, 0, 0, 1e18, 1e18 }
#define READ_LISTING(name, n, fewer) { name, our_read_listing, their_read_listing, text_mixed, n, n, n, fewer, 0, 1e18, 1e18 }

#define BLOCK(family, fill) \
    { "block " family, our_block, their_block, fill, WORDS, 0, WORDS, 0, 0, 1e18, 1e18 }, \
    { "block-growth " family, our_block, their_block, fill, FEWER, 0, FEWER, 1, 0, 1e18, 1e18 }

#define MOVE(name, ours, theirs, fill, n, fewer) { name, ours, theirs, fill, n, 8 * n, n, fewer, 0, 1e18, 1e18 }
#define TO_LABELS(family, fill) \
    MOVE("to-labels " family, our_to_labels, their_to_labels, fill, WORDS, 0), \
    MOVE("to-labels-growth " family, our_to_labels, their_to_labels, fill, FEWER, 1)
#define TO_ADDRESSES(family, fill) \
    MOVE("to-addresses " family, our_to_addresses, their_to_addresses, fill, WORDS, 0), \
    MOVE("to-addresses-growth " family, our_to_addresses, their_to_addresses, fill, FEWER, 1)

static struct line lines[] = {
    READ("plays", straight),
    READ("mixed", mixed),
    CHECK("straight", straight),
    CHECK("backward", backward),
    CHECK("nests", nests),
    CHECK("everything", everything),
    RUN("plays", straight, WORDS, 0),
    RUN("tight", tight, 3, 0),
    RUN("calls", nests, 2 * NEST + 2, 0),
    RUN("modulated", modulated, WORDS, 0),
    RUN("markers-older", markers, WORDS, 1),
    GO_ON("plays", straight, WORDS),
    GO_ON("tight", tight, 3),
    LIST("plays", listed_plays),
    LIST("mixed", listed_mixed),
    READ_LISTING("read-listing mixed 2048", LISTED, 0),
    READ_LISTING("read-listing mixed 65536", WORDS, 0),
    READ_LISTING("read-listing-growth mixed", LISTED, 1),
    BLOCK("flat", flat_block),
    BLOCK("nested", nested_block),
    TO_LABELS("mixed", text_with_jumps),
    TO_ADDRESSES("mixed", labelled),
    TO_ADDRESSES("alike-first", alike_first),
    TO_ADDRESSES("alike-last", alike_last),
};
enum { LINES = sizeof lines / sizeof *lines };

static void clear(uint64_t *numbers, size_t count)
{
    for (size_t i = 0; i < count; i++)
        numbers[i] = 0;
}

static int same(const uint64_t *a, const uint64_t *b, size_t count)
{
    for (size_t i = 0; i < count; i++)
        if (a[i] != b[i])
            return 0;
    return 1;
}

static int agree(void)
{
    return ours.number == theirs.number && same(ours.place, theirs.place, 2) && same(ours.fields, theirs.fields, 8) &&
           same(ours.bit, theirs.bit, 1) && same(ours.answer, theirs.answer, 55) && same(ours.told, theirs.told, 2) &&
           same(ours.lent, theirs.lent, room);
}

static double once(struct answer *answer, void (*work)(void))
{
    answer->number = 0;
    clear(answer->place, 2);
    clear(answer->fields, 8);
    clear(answer->bit, 1);
    clear(answer->answer, 55);
    clear(answer->told, 2);
    clear(answer->lent, room);
    double start = now();
    work();
    return now() - start;
}

static void measure(struct line *l)
{
    n = l->n;
    room = l->room;
    firmware = l->firmware;
    l->fill();
    for (int k = 0; k < TIMES; k++) {
        double a = once(&ours, l->ours), b = once(&theirs, l->theirs);
        l->our_best = a < l->our_best ? a : l->our_best;
        l->their_best = b < l->their_best ? b : l->their_best;
    }
    if ((!agree() || ours.told[0]) && !failed++)
        printf("FAIL %s: the answers differ, or a line was refused\n", l->name);
}

static void show(const struct line *l)
{
    double ours = l->our_best / l->count, theirs = l->their_best / l->count;
    if (l->fewer) {
        ours = l[-1].our_best / l->our_best;
        theirs = l[-1].count / l->count;
    }
    printf("%s\t%.1f\t%.1f\t%.2f\n", l->name, ours, theirs, ours / theirs);
}

/* The rounds lie apart in time, so that a slow moment of the machine does not fall on one line alone. */
int main(void)
{
    for (int round = 0; round < ROUNDS; round++)
        for (int i = 0; i < LINES; i++)
            measure(&lines[i]);
    for (int i = 0; i < LINES; i++)
        show(&lines[i]);
    return failed != 0;
}
