/* Listings for either firmware, compared with the second program byte by byte, with buffers that just hold them, are one short, empty or
   longer; those of refused words and of markers also with what document 02, requests 2 and 3, makes of each.
   With `show` it writes what the second program lists of standard input, and with `make N` N bytes of words to list. */
#include "../include/aps2.h"
#include "bits.h"
#include "lines.h"

#define MOST 20000
#define ROOM 160000
#define BEHIND 64 /* bytes of buffer behind what is lent */

int putchar(int c);

static uint8_t bytes[MOST], ours[ROOM], theirs[ROOM], old[ROOM], expected[ROOM], page[ROOM];

static void lay(size_t at, uint64_t word)
{
    for (int i = 0; i < 8; i++)
        bytes[at + (size_t)i] = (uint8_t)(word >> (56 - 8 * i));
}

/* A word of every op code, mostly good, now and then a marker with a count around 2^20, and now and then one bit damaged. */
static uint64_t listed_word(void)
{
    if (below(20) == 0)
        return OP(1, engine_select() | HIGH | below(32) << 32 | counts[below(COUNTS)]);
    uint64_t word = below(4) ? any_word(below(50), 50, 40) : OP(below(16), below(8) ? random64() >> 8 & random64() : 0);
    return below(12) ? word : word ^ UINT64_C(1) << below(64);
}

static void fill(void)
{
    for (size_t at = 0; at + 8 <= MOST; at += 8)
        lay(at, listed_word());
}

/* A line of a listing; what is no character that is printed is shown as a question mark. */
static void show_line(const char *whose, const uint8_t *listing, size_t from, size_t len)
{
    printf("  %s: ", whose);
    for (size_t at = from; at < len && at < from + LINE && listing[at] != '\n'; at++)
        putchar(listing[at] == '\t' || (listing[at] >= ' ' && listing[at] <= '~') ? listing[at] : '?');
    putchar('\n');
}

/* The first line in which two listings differ, from each. */
static void show_lines(size_t our_len, size_t their_len)
{
    size_t from = 0;
    for (size_t at = 0; at < our_len && at < their_len && ours[at] == theirs[at]; at++)
        from = ours[at] == '\n' ? at + 1 : from;
    show_line("ours", ours, from, our_len);
    show_line("second", theirs, from, their_len);
}

/* Both programs list; the listings and what is behind them are compared, and at times the whole buffers. They are then put back, so that a
   byte written far behind stays until all is looked at. */
static void try_list(size_t len, size_t room)
{
    size_t n = aps2_listing(bytes, len, firmware, ours, room), m = second_listing(bytes, len, firmware, theirs, room);
    size_t seen = compared % 64 && room + BEHIND < ROOM ? room + BEHIND : ROOM, written = n > room ? 0 : n;
    int good = n == m;
    for (size_t i = 0; i < seen; i++)
        good &= ours[i] == theirs[i] && (i < written || ours[i] == old[i]);
    compared++;
    if (!good && !failed) {
        failed = 1;
        printf("  %llu bytes, firmware %llu, room %llu: %llu, second %llu\n", (unsigned long long)len, (unsigned long long)firmware,
               (unsigned long long)room, (unsigned long long)n, (unsigned long long)m);
        show_lines(n < room ? n : room, m < room ? m : room);
    }
    for (size_t i = 0; i < seen; i++)
        ours[i] = theirs[i] = old[i];
}

static void rooms(size_t len)
{
    size_t n = second_listing(bytes, len, firmware, page, 0);
    try_list(len, n);
    try_list(len, n - 1);
    try_list(len, n + 1 + below(50));
    try_list(len, 0);
}

static void compare(void)
{
    static const size_t lengths[] = { 0, 1, 7, 8, 9, 15, 16, 2047 * 8, 16383, 16384, 16385, 16391, 16392, 16393, 16400, 19999 };
    for (size_t k = 0; k < sizeof lengths / sizeof *lengths; k++) {
        fill();
        firmware = 0;
        rooms(lengths[k]);
        firmware = any_older();
        rooms(lengths[k]);
    }
    family("listing: lengths around every bound, for either firmware");
    for (int k = 0; k < 300; k++) {
        size_t len = 8 * below(below(6) ? 40 : 2049);
        fill();
        firmware = any_firmware();
        rooms(len);
    }
    for (int code = 0; code < 16; code++)
        for (int bit = 0; bit < 64; bit++) {
            lay(0, OP(code, HIGH) ^ UINT64_C(1) << bit);
            lay(8, ~UINT64_C(0) ^ UINT64_C(1) << bit);
            firmware = 0;
            rooms(16);
            firmware = any_older();
            rooms(16);
        }
    family("listing: random words, every op code and damaged ones, rooms around the length");
}

/* A listing for one firmware, and what it must be: it is put together until it is full, and then compared. */
static size_t put_words, expected_len;

static void compare_put(void)
{
    if (put_words == 0)
        return;
    size_t len = second_listing(bytes, 8 * put_words, firmware, page, ROOM);
    int good = len == expected_len;
    for (size_t i = 0; i < len; i++)
        good &= page[i] == expected[i];
    if (!good && !failed)
        failed = 1, printf("  the second program lists words otherwise, for firmware %llu\n", (unsigned long long)firmware);
    rooms(8 * put_words);
    compared += put_words;
    put_words = expected_len = 0;
}

static void put_tabbed(uint64_t v)
{
    expected[expected_len++] = '\t';
    expected_len += put_number(expected + expected_len, v);
}

/* A word goes into the listing, and the start of its line: address and name. */
static void put_word(uint64_t word, const char *name)
{
    if (put_words == 0)
        expected_len = put_header(expected);
    lay(8 * put_words, word);
    expected_len += put_number(expected + expected_len, put_words++);
    expected[expected_len++] = '\t';
    while (*name)
        expected[expected_len++] = (uint8_t)*name++;
}

static void put_end(void)
{
    expected[expected_len++] = '\n';
    if (put_words == 2048)
        compare_put();
}

/* A refused word: `BAD`, number, and for an unnamed bit 11, number, bit. */
static void put_bad(uint64_t word, struct told t)
{
    put_word(word, "BAD");
    if (t.number >= 111)
        put_tabbed(11);
    put_tabbed(t.number);
    if (t.number >= 111)
        put_tabbed(t.bit), told_bits[word >> 60][t.bit]++;
    meet(t.number);
    put_end();
}

/* A marker, with its fields where it is good. */
static void put_marker(uint64_t word, uint64_t number)
{
    static const int fields[6][2] = { { 59, 58 }, { 56, 56 }, { 47, 46 }, { 36, 33 }, { 32, 32 }, { 31, 0 } };
    if (number) {
        put_bad(word, (struct told){ number, 0 });
        return;
    }
    put_word(word, "MARKER");
    for (int i = 0; i < 6; i++)
        put_tabbed(word << (63 - fields[i][0]) >> (63 - fields[i][0] + fields[i][1]));
    put_end();
}

static void put_unnamed(uint64_t code, uint64_t bits)
{
    uint64_t good = with_bits(GOOD, code, bits), any = with_bits(any_base(), code, bits);
    if (put_words == 0)
        firmware = any_firmware();
    put_bad(good, told_of(good));
    put_bad(any, told_of(any));
}

/* What is refused for its placing alone is listed as a good word, and left out here. */
static void put_beside(uint64_t word, struct told t)
{
    if (t.number != 20 && t.number != 21)
        put_bad(word, t);
}

static void compare_refused(void)
{
    each_unnamed(put_unnamed);
    compare_put();
    family_of_bits("listing: every unnamed bit of every op code, alone, in pairs and several at once");
    for (int older = 0; older < 2; older++) {
        firmware = older ? any_older() : 0;
        each_beside(put_beside);
        compare_put();
    }
    family_of("listing: unnamed bits beside other refusals", beside);
}

/* The last look is at the whole buffers. */
static void compare_markers(void)
{
    for (int k = 0; k < KINDS; k++) {
        firmware = kinds[k];
        each_marker(put_marker);
        compare_put();
    }
    try_list(8, ROOM);
    family_of("listing: marker counts around 2^20 in every op, for either firmware", (const int[]){ 14, 15, 16, 24, -1 });
}

static void show(void)
{
    size_t len = 0;
    for (int c = getchar(); c != -1; c = getchar()) {
        if (len == MOST)
            len -= 8;
        bytes[len++] = (uint8_t)c;
    }
    size_t n = second_listing(bytes, len, 0, page, ROOM);
    for (size_t i = 0; i < n; i++)
        putchar(page[i]);
}

int main(int count, char **words)
{
    if (count == 1) {
        printf("seed %llu\n", (unsigned long long)seed);
        for (size_t i = 0; i < ROOM; i++)
            ours[i] = theirs[i] = old[i] = (uint8_t)random64();
        compare();
        compare_refused();
        compare_markers();
    } else if (words[1][0] == 's') {
        show();
    } else {
        size_t len = 0;
        for (const char *s = words[2]; *s; s++)
            len = len * 10 + (size_t)(*s - '0');
        fill();
        for (size_t i = 0; i < len; i++)
            putchar(bytes[i % MOST]);
    }
    return 0;
}
