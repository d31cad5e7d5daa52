/* Checks for either firmware, compared with the second program: the number, its place, its bit, and every mark, the tail included; flow also
   with the plain walk over places. The document's cases, random sequences, all small ones, groups, nests to the stack's end, conditions
   before jumps, unnamed bits, marker counts, and the bounds of every input. A sequence that is accepted is then run, and must not fault. */
#include "../include/aps2.h"
#include "../second/second.h"
#include "bits.h"

#define MOST 65540
#define SMALL 64 /* words up to which flow is also compared with the plain walk over places */

#define PLAY OP(0, HIGH | UINT64_C(2) << 24)
#define LOW OP(0, UINT64_C(2) << 24)

static uint64_t words[MOST], ours[MOST], theirs[MOST], our_place[2], their_place[2], trace[256], answer[55];
static uint8_t messages[8] = { 0, 1, 2, 3, 0, 200, 1, 255 };

static void show_case(size_t n, uint64_t wave, size_t room)
{
    printf("  n %llu, W %llu, firmware %llu, room %llu\n  words", (unsigned long long)n, (unsigned long long)wave, (unsigned long long)firmware,
           (unsigned long long)room);
    for (size_t i = 0; i < n && i < 40; i++)
        printf(" %llx", (unsigned long long)words[i]);
    printf("\n");
}

static void show_answer(const char *whose, uint64_t number, const uint64_t place[2])
{
    printf("  %s: %llu at %llu, bit %llu\n", whose, (unsigned long long)number, (unsigned long long)place[0], (unsigned long long)place[1]);
}

static uint64_t try_check(size_t n, uint64_t wave, size_t room)
{
    for (int i = 0; i < 2; i++)
        our_place[i] = random64(), their_place[i] = random64();
    for (size_t i = 0; i < room + 2; i++)
        ours[i] = theirs[i] = random64();
    uint64_t number = aps2_check(words, n, wave, firmware, ours, room, our_place);
    uint64_t other = second_check(words, n, wave, firmware, theirs, room, their_place);
    int good = number == other && our_place[0] == their_place[0] && our_place[1] == their_place[1];
    good = good && tells_at(words, our_place[0], number, our_place[1]);
    for (size_t i = 0; i < room + 2; i++)
        good &= ours[i] == theirs[i];
    if (good && n <= SMALL && (number == 0 || (number >= 30 && number <= 32))) {
        good = second_places(words, n, theirs, their_place) == number && our_place[0] == their_place[0];
        for (size_t i = 0; i < n; i++)
            good &= ours[i] == theirs[i];
    }
    compared++;
    meet(number);
    if (!good && !failed) {
        failed = 1;
        show_case(n, wave, room);
        show_answer("ours", number, our_place);
        show_answer("second", other, their_place);
    }
    return number;
}

/* What check accepts never faults in a run for the same firmware. */
static void try_accepted(size_t n, uint64_t wave)
{
    for (int k = 0; k < 4; k++) {
        uint64_t end = aps2_run(words, n, wave, firmware, messages, below(9), (uint32_t)below(3), trace, below(257), below(400), answer);
        if ((end < 40 || end > 43) && !failed) {
            failed = 1;
            printf("  accepted, and a run ended with %llu\n", (unsigned long long)end);
        }
    }
}

/* The document's own cases, each with the number and the place that it tells. */
struct worked {
    size_t n;
    uint64_t wave, number, place, words[8];
};

static const struct worked cases[] = {
    { 4, 5, 0, 0, { 0x9100800000000000, 0x2100400000000000, 0x0100000004000001, 0x6000000000000000 } },
    { 4, 4, 20, 2, { 0x9100800000000000, 0x2100400000000000, 0x0100000004000001, 0x6000000000000000 } },
    { 1, 0, 32, 0, { 0x8000000000000000 } },
    { 1, 0, 30, 1, { 0xFFFFFFFFFFFFFFFF } },
    { 1, 0, 31, 0, { 0x7000000000000000 } },
    { 3, 0, 0, 0, { 0x7000000000000002, 0x6000000000000001, 0x8000000000000000 } },
    { 2, 0, 30, 2, { 0x5000000000000000, 0x6000000000000000 } },
    { 1, 0, 12, 0, { 0x2100000000000000 } },
    { 2, 9, 16, 0, { 0x0100000001000000, 0x6000000000000000 } },
    { 2, 9, 0, 0, { 0x0100000002000000, 0x6000000000000000 } },
    { 1, 0, 10, 0, { 0xFFFFFFFFFFFFFFFE } },
    { 8, 9, 22, 0, { 0x0000000002000000, 0x0000000002000000, 0x0000000002000000, 0x0000000002000000,
                     0x0000000002000000, 0x0000000002000000, 0x0000000002000000, 0x0000000002000000 } },
};
enum { CASES = sizeof cases / sizeof *cases };

static void worked(void)
{
    for (size_t k = 0; k < 2 * CASES; k++) {
        const struct worked *c = &cases[k % CASES];
        uint64_t place[2] = { 99, 99 };
        firmware = k < CASES ? 0 : any_older();
        for (size_t i = 0; i < c->n; i++)
            words[i] = c->words[i];
        try_check(c->n, c->wave, c->n);
        if ((aps2_check(words, c->n, c->wave, firmware, ours, c->n, place) != c->number || place[0] != c->place || place[1]) && !failed)
            failed = 1, printf("  case %llu is not as told\n", (unsigned long long)k);
    }
    if (try_check(65537, 0, 65537) != 2)
        failed = 1;
    family_of("check: the cases of document 01, for either firmware", (const int[]){ 0, 2, 12, 16, 20, 22, 30, 31, 32, -1 });
}

static void random_checks(void)
{
    uint64_t accepted = 0;
    for (int k = 0; k < 60000; k++) {
        size_t n = 1 + below(below(3) ? 24 : 6);
        uint64_t wave = below(9);
        any_sequence(words, n, wave);
        firmware = any_firmware();
        if (try_check(n, wave, n + below(3)) == 0)
            try_accepted(n, wave), accepted++;
    }
    failed |= accepted < 1000;
    family_of("check: random sequences, and runs of those that are accepted", (const int[]){ 0, 20, 21, 22, 24, 30, 31, 32, -1 });
}

/* Every sequence of up to four words over a small alphabet. */
static void small_checks(void)
{
    static const uint64_t alphabet[] = {
        OP(0, HIGH | UINT64_C(2) << 24), OP(0, UINT64_C(2) << 24), OP(4, 0), OP(4, 2), OP(5, 0), OP(6, 0), OP(6, 1), OP(6, 3), OP(7, 0), OP(7, 1),
        OP(7, 2), OP(7, 3), OP(8, 0), ~UINT64_C(0), OP(1, HIGH | WIDE),
    };
    const int letters = sizeof alphabet / sizeof *alphabet;
    for (int n = 1; n <= 4; n++)
        for (int k = 0; k < (n > 1 ? letters : 1) * (n > 2 ? letters : 1) * (n > 3 ? letters : 1); k++)
            for (int first = 0; first < letters; first++) {
                words[0] = alphabet[first], words[1] = alphabet[k % letters];
                words[2] = alphabet[k / letters % letters], words[3] = alphabet[k / letters / letters];
                firmware = any_firmware();
                if (try_check((size_t)n, 2, (size_t)n) == 0)
                    try_accepted((size_t)n, 2);
            }
    family_of("check: every sequence of up to four words over a small alphabet", (const int[]){ 0, 21, 22, 24, 30, 31, 32, -1 });
}

static void groups(void)
{
    for (size_t low = 0; low <= 10; low++)
        for (int after = 0; after < 16; after++)
            for (int damaged = 0; damaged < 12; damaged++) {
                for (size_t i = 0; i < low; i++)
                    words[i] = below(2) ? LOW : OP(1, marker_count(2));
                words[low] = OP(after, after == 0 ? HIGH | UINT64_C(2) << 24 : after == 1 ? HIGH | 2 : after == 10 ? HIGH | UINT64_C(1) << 40 | 2 : 0);
                words[low + 1] = OP(6, 0);
                if (damaged)
                    words[below(low + 2)] ^= UINT64_C(1) << below(64);
                firmware = any_firmware();
                try_check(low + 2 - (damaged == 1), 8, low + 2);
            }
    family_of("check: groups of up to ten low words, with every op code after them", (const int[]){ 0, 10, 22, 24, 111, 112, 113, -1 });
}

/* Calls one deeper each, to the stack's end and one past it, with returns and conditions between. */
static void nests(void)
{
    for (int deep = 1; deep <= 18; deep++)
        for (int k = 0; k < 60; k++) {
            size_t n = 0;
            for (int d = 0; d < deep; d++) {
                if (below(3) == 0)
                    words[n++] = OP(5, below(4) << 8);
                words[n] = OP(7, n + 2);
                n++;
                words[n++] = OP(below(8) ? 8 : 6, 0);
            }
            words[n++] = OP(below(4) ? 8 : 6, 0);
            if (below(3) == 0)
                words[1 + below(n - 1)] = any_word(1, n, 4);
            firmware = any_firmware();
            if (try_check(n, 4, n) == 0)
                try_accepted(n, 4);
        }
    family_of("check: nests of calls to the stack's end and past it", (const int[]){ 0, 31, 32, -1 });
}

/* A condition, or none, or one over another, before each kind of jump to each address, at the first and the last depths. */
static void conditions(void)
{
    static const int depths[] = { 0, 1, 15, 16 };
    static const int jumps[] = { 4, 6, 7, 8 };
    for (int d = 0; d < 4; d++)
        for (int j = 0; j < 4; j++)
            for (int compares = 0; compares <= 2; compares++)
                for (int between = 0; between < 3; between++)
                    for (size_t to = 0; to < (size_t)depths[d] + 6; to++) {
                        size_t n = 0;
                        for (int k = 0; k < depths[d]; k++, n++)
                            words[n] = OP(7, n + 1);
                        for (int k = 0; k < compares; k++)
                            words[n++] = OP(5, below(4) << 8);
                        size_t length = n + (between != 0) + 2, target = to % length;
                        if (between)
                            words[n++] = between == 1 ? ~UINT64_C(0) : OP(4, target);
                        words[n++] = OP(jumps[j], jumps[j] == 8 ? 0 : target);
                        words[n++] = OP(below(2) ? 6 : 8, 0);
                        firmware = any_firmware();
                        if (try_check(n, 0, n) == 0)
                            try_accepted(n, 0);
                    }
    family_of("check: conditions before each kind of jump", (const int[]){ 0, 30, 31, 32, -1 });
}

/* The words under test are checked, and what is told must be this. */
static void expect(size_t n, size_t place, struct told t)
{
    uint64_t number = try_check(n, 8, n + below(3));
    if ((number != t.number || our_place[0] != place || our_place[1] != t.bit) && !failed)
        failed = 1, printf("  %llu at %llu is expected, with bit %llu\n", (unsigned long long)t.number, (unsigned long long)place,
                           (unsigned long long)t.bit);
}

/* A word at the first place, one between and the last; the words behind it may be refused too, and do not count. */
static void try_places(uint64_t word, struct told t)
{
    size_t n = 3 + below(7), places[3] = { 0, 1 + below(n - 2), n - 1 };
    for (int k = 0; k < 3; k++) {
        for (size_t a = 0; a < n; a++)
            words[a] = a > places[k] && below(4) == 0 ? with_bits(ANYTHING, 10, some_bits(10)) : PLAY;
        words[places[k]] = word;
        expect(n, places[k], t);
    }
}

/* A word behind low ones, and behind it one that sends them or none. The low ones pass where it is an engine word and it or the next sends
   them, and its own number is told; else the first of them is refused. */
static void try_group(uint64_t word, struct told t)
{
    size_t low = 1 + below(6);
    uint64_t code = word >> 60, next = below(2) ? PLAY : OP(6, 0);
    for (size_t a = 0; a < low; a++)
        words[a] = LOW;
    words[low] = word;
    words[low + 1] = next;
    if ((code == 0 || code == 1 || code == 10) && ((word | next) & HIGH))
        expect(low + 2, low, t);
    else
        expect(low + 2, 0, (struct told){ 22, 0 });
}

static void try_bits(uint64_t code, uint64_t bits)
{
    uint64_t word = with_bits(GOOD, code, bits);
    firmware = any_firmware();
    try_places(word, told_of(word));
}

static void try_bits_in_group(uint64_t code, uint64_t bits)
{
    uint64_t word = with_bits(any_base(), code, bits);
    firmware = any_firmware();
    try_group(word, told_of(word));
}

static void unnamed(void)
{
    each_unnamed(try_bits);
    family_of_bits("check: every unnamed bit of every op code, alone, in pairs and several at once, at every place");
    each_unnamed(try_bits_in_group);
    family_of("check: unnamed bits behind low words", (const int[]){ 22, 111, 112, 113, -1 });
    for (int older = 0; older < 2; older++) {
        firmware = older ? any_older() : 0;
        each_beside(try_places);
        each_beside(try_group);
    }
    family_of("check: unnamed bits beside other refusals", beside_placed);
}

/* A marker at the first place, one between and the last before a play, in plays that go round. */
static void try_marker(uint64_t word, uint64_t number)
{
    size_t n = 5 + below(6), places[3] = { 0, 1 + below(n - 4), n - 3 };
    for (int k = 0; k < 3; k++) {
        for (size_t a = 0; a < n; a++)
            words[a] = a < n - 1 ? PLAY : OP(6, 0);
        words[places[k]] = word;
        expect(n, number ? places[k] : 0, (struct told){ number, 0 });
    }
}

/* A marker behind low words, and behind it low ones, if it is low itself, and a word that sends the group or breaks it. A group that is not
   sent within seven words is 22 at its first word, whose form comes before that. */
static void try_marker_group(uint64_t word, uint64_t number)
{
    static const uint64_t last[] = {
        PLAY, OP(1, HIGH | 2), OP(10, HIGH | NCO(1) | 2), OP(2, HIGH | ENGINE_OP(1)), OP(9, HIGH | ENGINE_OP(2)), OP(6, 0), ~UINT64_C(0),
    };
    for (int k = 0; k < 7; k++) {
        size_t low = below(8), n = low + 1 + (word & HIGH ? 0 : below(3)), sent = word & HIGH ? low : k < 3 ? n : 8;
        for (size_t a = 0; a < n; a++)
            words[a] = below(2) ? LOW : OP(1, WIDE - 1);
        words[low] = word;
        words[n] = last[k];
        words[n + 1] = OP(6, 0);
        if (number && (low == 0 || sent < 8))
            expect(n + 2, low, (struct told){ number, 0 });
        else
            expect(n + 2, 0, (struct told){ sent < 8 ? 0 : 22, 0 });
    }
}

static void markers(void)
{
    for (int k = 0; k < KINDS; k++) {
        firmware = kinds[k];
        each_marker(try_marker);
        each_marker(try_marker_group);
    }
    family_of("check: marker counts around 2^20 at every place and in groups, for either firmware", (const int[]){ 0, 14, 15, 16, 22, 24, -1 });
}

static size_t first_wide(size_t n)
{
    size_t a = 0;
    while (a < n && !is_wide(words[a]))
        a++;
    return a;
}

/* What older firmware makes of a sequence follows from what the current one makes of it: the first wide play is 24 where no word before it
   is refused, nor its own form, and the marks stay; else number, place, bit and marks are the same. */
static uint64_t try_law(size_t n, uint64_t wave)
{
    uint64_t before[SMALL + 2];
    for (size_t i = 0; i < n + 2; i++)
        ours[i] = theirs[i] = before[i] = random64();
    firmware = any_older();
    uint64_t current = aps2_check(words, n, wave, 0, theirs, n + 1, their_place);
    uint64_t older = aps2_check(words, n, wave, firmware, ours, n + 1, our_place);
    size_t wide = first_wide(n), refused = current == 0 || (current >= 30 && current <= 32) ? n : their_place[0];
    int stops = wide < n && (wide < refused || (wide == refused && current == 22));
    int good = current != 24 && older == (stops ? 24 : current) && our_place[0] == (stops ? wide : their_place[0]);
    good &= our_place[1] == (stops ? 0 : their_place[1]);
    for (size_t i = 0; i < n + 2; i++)
        good &= ours[i] == (stops ? before[i] : theirs[i]);
    compared++;
    meet(older);
    if (!good && !failed) {
        failed = 1;
        show_case(n, wave, n + 1);
        show_answer("older", older, our_place);
        show_answer("current", current, their_place);
    }
    return older;
}

static void laws(void)
{
    uint64_t accepted = 0;
    for (int k = 0; k < 30000; k++) {
        size_t n = 1 + below(16);
        uint64_t wave = below(9);
        marked_sequence(words, n, wave);
        accepted += try_law(n, wave) == 0;
    }
    if (accepted < 1000 && !failed)
        failed = 1, printf("  only %llu were accepted\n", (unsigned long long)accepted);
    family_of("check: what older firmware accepts the current one accepts with the same marks, and all else but 24 is the same",
              (const int[]){ 0, 20, 21, 22, 24, 30, 31, 32, -1 });
}

/* Refused input comes before any word, and tells no bit. */
static void bad_words_and_bad_input(void)
{
    for (int k = 0; k < 400; k++) {
        size_t n = 1 + below(4);
        for (size_t a = 0; a < n; a++)
            words[a] = below(3) ? with_bits(ANYTHING, 2, some_bits(2)) : OP(1, HIGH | WIDE);
        firmware = any_firmware();
        try_check(0, 8, n);
        try_check(n, 16777217, n);
        try_check(n, 8, n - 1);
        try_check(n, 8, n);
    }
    family_of("check: refused input before unnamed bits and wide counts", (const int[]){ 1, 3, 4, 24, 111, 112, 113, -1 });
}

static void bounds(void)
{
    static const size_t lengths[] = { 0, 1, 2, 65535, 65536, 65537 };
    static const uint64_t waves[] = { 0, 2, UINT64_C(16777216), UINT64_C(16777217), ~UINT64_C(0) };
    for (size_t i = 0; i < 65538; i++)
        words[i] = OP(0, HIGH | UINT64_C(2) << 24);
    for (int l = 0; l < 6; l++)
        for (int v = 0; v < 5; v++)
            for (int less = -1; less <= 1; less++) {
                if (lengths[l])
                    words[lengths[l] - 1] = OP(6, 0);
                firmware = any_firmware();
                try_check(lengths[l], waves[v], lengths[l] == 0 && less < 0 ? 0 : lengths[l] + (size_t)less);
                if (lengths[l])
                    words[lengths[l] - 1] = OP(0, HIGH | UINT64_C(2) << 24);
            }
    family_of("check: the bounds of every input", (const int[]){ 0, 1, 2, 3, 4, 20, -1 });
}

int main(void)
{
    printf("seed %llu\n", (unsigned long long)seed);
    worked();
    random_checks();
    small_checks();
    groups();
    nests();
    conditions();
    unnamed();
    markers();
    laws();
    bad_words_and_bad_input();
    bounds();
    return 0;
}
