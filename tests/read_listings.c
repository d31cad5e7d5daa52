/* Listings read back for either firmware, compared with the second program: the number, the line, how many words, and the whole buffer with
   its tail. A case is made from its number and a seed. One that disagrees is printed with both, so that `read_listings FAMILY CASE SEED`
   runs it again by itself, and with its text where that is short. */
#include "../include/aps2.h"
#include "../second/second.h"
#include "bits.h"
#include "cases.h"
#include "rows.h"

#define MOST 3000 /* words */

#define LENT (MOST + 64)
#define UNIT uint64_t
#define UNIT_NAME "word"
#include "lent.h"

static uint64_t words[MOST];

static void show_case(size_t room)
{
    show_number("read_listings");
    printf("  firmware %llu, %llu bytes, room %llu\n", (unsigned long long)firmware, (unsigned long long)len, (unsigned long long)room);
    show_text();
}

/* Both programs read the text; the answers, the buffers and their tails are compared. */
static uint64_t try_read(size_t room)
{
    uint64_t told[2], second_told[2];
    lend(room, told, second_told);
    tempt();
    uint64_t number = aps2_read_listing(text, len, firmware, ours, room, told);
    uint64_t second = second_read_listing(text, len, firmware, theirs, room, second_told);
    int good = number == second && told[0] == second_told[0] && told[1] == second_told[1] && (!number || !told[1]);
    good = good && untouched(ours, told[1], room) && same_buffers(room);
    compared++;
    meet(number);
    if (!good && !failed) {
        failed = 1;
        show_case(room);
        show_answer("ours", number, told);
        show_answer("second", second, second_told);
        show_difference(room);
    }
    return number;
}

/* Every name, and one field of it at every edge, beside others that are zero, one, an instruction's, or any. */
static void try_edge(uint64_t k)
{
    const struct row *row = &rows[k % ROWS];
    uint64_t at = k / ROWS % 6, e = k / ROWS / 6 % EDGES, others = k / ROWS / 6 / EDGES, f[6] = { 0 };
    size_t ahead = below(3);
    if (others == 3)
        any_fields(row, f);
    else if (others == 2)
        good_fields(row, f);
    else
        for (int i = 0; i < 6; i++)
            f[i] = others;
    if (at < (uint64_t)row->count)
        f[at] = edge(e, row->width[at]);
    start_text(ahead);
    put_row(ahead, row, f);
    try_read(room_around(ahead + 1));
}

/* Every name with none to seven fields: zeros, ones, or an instruction's and zeros behind. */
static void try_count(uint64_t k)
{
    const struct row *row = &rows[k % ROWS];
    uint64_t count = k / ROWS % 8, values = k / ROWS / 8, f[8] = { 0 };
    size_t ahead = below(3);
    if (values == 2)
        good_fields(row, f);
    else
        for (int i = 0; i < 8; i++)
            f[i] = values;
    start_text(ahead);
    put_decimal(ahead), put_bytes("\t"), put_bytes(row->name);
    put_fields(f, (int)count);
    put_bytes("\n");
    try_read(ahead + 1);
}

/* Addresses out of turn, also by numbers whose low bits are zero. */
static const uint64_t shifts[] = {
    1, 2, 10, 1 << 8, 1 << 16, 1 << 26, UINT64_C(1) << 31, UINT64_C(1) << 32, UINT64_C(1) << 48, UINT64_C(1) << 53, UINT64_C(1) << 63, ~UINT64_C(0),
};
#define SHIFTS (sizeof shifts / sizeof *shifts)

static void try_address(uint64_t k)
{
    const struct row *row = &rows[k % ROWS];
    uint64_t f[6];
    size_t ahead = k / ROWS / SHIFTS;
    good_fields(row, f);
    start_text(ahead);
    put_row(ahead + shifts[k / ROWS % SHIFTS], row, f);
    put_word(ahead + 1, good_word());
    try_read(ahead + 2);
}

/* Some lines, each with any fields. */
static void try_fields(uint64_t k)
{
    uint64_t f[6];
    size_t n = 1 + k % 3;
    start_text(0);
    for (size_t a = 0; a < n; a++) {
        const struct row *row = any_row();
        any_fields(row, f);
        put_row(a, row, f);
    }
    try_read(room_around(n));
}

/* Words of all kinds as they are listed, those that fail form as `BAD`. */
static void try_listed(uint64_t k)
{
    size_t n = below(k % 10 ? 12 : 80);
    start_text(0);
    for (size_t a = 0; a < n; a++)
        put_word(a, k % 2 ? good_word() : any_listed());
    try_read(room_around(n));
    try_read(n);
}

/* A `BAD` line, as a word with unnamed bits is listed, or with other fields, or none: 63 where it stands in turn, else 62, and 61 without
   its line feed. Whether there is room for a word is not asked. */
static const char *const behind_bad[] = {
    "", "\t", "\t11", "\t111", "\t112\t55", "\t11\t112", "\t11\t113\t0\t0", "\t011\t+113\tx", "\t12\t0", "\t24",
};
#define BEHIND_BAD (sizeof behind_bad / sizeof *behind_bad)

static void try_bad(uint64_t k)
{
    static const uint64_t expected[] = { 63, 62, 61 };
    uint64_t flaw = k % 3, which = k / 3 % (CODES + BEHIND_BAD);
    size_t ahead = below(4), address = ahead + (flaw == 1);
    start_text(ahead);
    if (which < CODES)
        put_word(address, with_bits(any_base(), which, some_bits(which)));
    else
        put_decimal(address), put_bytes("\tBAD"), put_bytes(behind_bad[which - CODES]), put_bytes("\n");
    if (flaw == 2)
        len--;
    else if (below(2))
        put_word(ahead + 1, any_listed());
    if (try_read(ahead + below(3)) != expected[flaw] && !failed)
        failed = 1, show_case(ahead), printf("  %llu is expected\n", (unsigned long long)expected[flaw]);
}

/* A marker asked for, behind good lines, with room for its word or not. */
static void try_asked(const uint64_t f[6], uint64_t number)
{
    size_t ahead = below(3), room = below(3) ? ahead + 1 : ahead;
    uint64_t expected = number ? number : room == ahead ? 64 : 0;
    start_text(ahead);
    put_row(ahead, &rows[1], f);
    if (try_read(room) != expected && !failed)
        failed = 1, show_case(room), printf("  %llu is expected\n", (unsigned long long)expected);
}

static void try_markers(uint64_t k)
{
    firmware = kinds[k % KINDS];
    each_asked(try_asked);
}

static void try_damages(uint64_t count)
{
    size_t n = 1 + below(8);
    start_text(n);
    for (uint64_t i = 0; i < count; i++)
        damage(HEADER);
    try_read(room_around(n));
    try_read(n + 3);
}

static void try_damage(uint64_t k) { (void)k, try_damages(1); }
static void try_more_damages(uint64_t k) { try_damages(2 + k % 4); }

/* A number that is not plain, or around 2^64, in place of the address, of every field, and of a field too many. */
static void try_number(uint64_t k)
{
    const struct row *row = &rows[k % ROWS];
    const char *number = numbers[k / ROWS % NUMBERS];
    int place = (int)(k / ROWS / NUMBERS), extra = place > row->count;
    uint64_t f[6];
    size_t ahead = below(3);
    good_fields(row, f);
    start_text(ahead);
    if (place == 0)
        put_bytes(number);
    else
        put_decimal(ahead);
    put_bytes("\t"), put_bytes(row->name);
    for (int i = 1; i <= row->count + extra; i++) {
        put_bytes("\t");
        if (i == place || i > row->count)
            put_bytes(number);
        else
            put_decimal(f[i - 1]);
    }
    put_bytes("\n");
    if (below(2))
        put_word(ahead + 1, good_word());
    try_read(ahead + 2);
}

/* Every start of the header line, and headers that are almost right, each alone and with lines behind. */
static void try_header(uint64_t k)
{
    size_t n = k / ODD_HEADERS % 3;
    put_odd_header(k % ODD_HEADERS, 1);
    for (size_t a = 0; a < n; a++)
        put_word(a, good_word());
    try_read(room_around(n));
}

/* A name spelt so, with the fields of the name, a single one or none; its address right or not; its line feed there or not. */
static void try_name(uint64_t k)
{
    const struct row *row = &rows[k % ROWS];
    uint64_t spelling = k / ROWS % SPELLINGS, fields = k / ROWS / SPELLINGS % 3, flaw = k / ROWS / SPELLINGS / 3, f[6];
    size_t ahead = below(3);
    good_fields(row, f);
    start_text(ahead);
    put_decimal(flaw == 1 ? ahead + 1 : ahead), put_bytes("\t");
    put_spelt(spelling, row, f, fields);
    if (flaw != 2)
        put_bytes("\n");
    if (flaw == 3)
        put_word(ahead + 1, good_word());
    try_read(room_around(ahead + 1));
}

/* Fields of a row that its form refuses, where it refuses any. */
static void bad_fields(const struct row *row, uint64_t f[6])
{
    uint64_t word[1], number = 0;
    for (int tries = 0; tries < 100 && (number < 13 || number > 19) && number != 24; tries++) {
        any_fields(row, f);
        number = written(row, f, word);
    }
}

/* A line that is wrong in any of eight ways at once, each a bit of k, and every other time in none that are 61; at times with a line behind
   it that may be wrong too. */
static void try_order(uint64_t k)
{
    static const char *const addresses[] = { "", "00", "01", "+0", "18446744073709551616", "x" };
    const struct row *row = any_row();
    size_t ahead = below(3);
    uint64_t f[6];
    if (k & 512)
        k &= ~UINT64_C(4 | 32 | 64);
    good_fields(row, f);
    if (k & 1)
        bad_fields(row, f);
    if (k & 2 && row->count) {
        uint64_t i = below((uint64_t)row->count);
        f[i] = top(row->width[i]) + 1 + below(3);
    }
    start_text(ahead);
    if (k & 4)
        put_bytes(addresses[below(6)]);
    else
        put_decimal(k & 8 ? ahead + 1 + below(2) : ahead);
    put_bytes("\t"), put_name(k & 16 ? 1 + below(SPELLINGS - 1) : 0, row->name);
    put_fields(f, row->count);
    if (k & 32)
        put_bytes(below(2) ? "\t0" : "\t");
    if (!(k & 64))
        put_bytes("\n");
    if (k & 128)
        put_word(ahead + below(3), good_word());
    try_read(k & 256 ? ahead : ahead + 2);
}

/* Every room from none to more than enough, also where a line is bad before or behind the word that does not fit. */
static void try_rooms(uint64_t k)
{
    size_t n = below(k % 10 ? 12 : 60);
    start_text(n);
    if (k % 2)
        damage(HEADER);
    for (size_t room = 0; room <= n + 2; room++)
        try_read(room);
}

/* More words than the listing program takes. */
static void try_long(uint64_t k)
{
    static const size_t lengths[] = { 2047, 2048, 2049, 2050, MOST - 1, MOST };
    size_t n = lengths[k % 6];
    start_text(n);
    try_read(n);
    try_read(n - 1);
    try_read(k % 2 ? 0 : n + 7);
    damage(HEADER);
    try_read(n + 1);
    try_read(2048);
}

static void try_byte(uint64_t k)
{
    start_text(0);
    put_bytes("0\tCMP\t1\t0\t3\t255\n1\tNOOP\n2\tWAIT\t0\t1\n");
    stray_byte(k);
    try_read(k % 5 ? 3 : 2);
}

/* Bytes in no order behind the header. */
static void try_bytes(uint64_t k)
{
    static const char bytes[] = "0011\t\t\t\t\n\n\nNOOPCMP2 \r";
    start_text(0);
    if (k % 3)
        put_bytes(k % 3 == 1 ? "0\t" : "0\tNOOP\n1\t");
    for (size_t n = below(12); n > 0; n--)
        add(len, k % 5 ? (uint8_t)bytes[below(sizeof bytes - 1)] : odd_byte());
    try_read(room_around(3));
}

/* Words that pass form are listed, read back, and are the same, but for the payload of RETURN and LOAD_CMP. */
static void try_back(uint64_t k)
{
    static uint8_t bytes[8 * 2048];
    size_t n = k % 100 ? below(40) : 2048 - below(2), room = n + below(4);
    uint64_t told[2], unused[2];
    for (size_t i = 0; i < 8 * n; i++) {
        if (i % 8 == 0)
            words[i / 8] = good_word();
        bytes[i] = (uint8_t)(words[i / 8] >> (56 - 8 * (i % 8)));
    }
    len = second_listing(bytes, 8 * n, firmware, text, TEXT);
    lend(room, told, unused);
    tempt();
    uint64_t number = aps2_read_listing(text, len, firmware, ours, room, told);
    int good = number == 0 && told[0] == 0 && told[1] == n && untouched(ours, n, room);
    for (size_t i = 0; i < n; i++) {
        uint64_t code = words[i] >> 60;
        good &= ours[i] == (code == 8 || code == 11 ? words[i] >> 56 << 56 : words[i]);
    }
    compared++;
    if (!good && !failed) {
        failed = 1;
        show_case(room);
        show_answer("ours", number, told);
    }
}

static const struct cases families[] = {
    { "read listing: every name, each field at its edges and past them", ROWS * 6 * EDGES * 4, try_edge },
    { "read listing: every name with every number of fields", ROWS * 8 * 3, try_count },
    { "read listing: addresses out of turn", ROWS * SHIFTS * 12, try_address },
    { "read listing: lines of all names, with any fields", 20000, try_fields },
    { "read listing: random words as they are listed, and BAD ones", 4000, try_listed },
    { "read listing: BAD lines, of unnamed bits and with other fields", 3 * (CODES + BEHIND_BAD) * 30, try_bad },
    { "read listing: marker counts around 2^20 and past 32 bits in every op, for either firmware", 2 * KINDS, try_markers },
    { "read listing: one damage", 8000, try_damage },
    { "read listing: several damages", 4000, try_more_damages },
    { "read listing: numbers around 2^64, and not plain, at every place", ROWS * NUMBERS * 7, try_number },
    { "read listing: headers", ODD_HEADERS * 3 * 4, try_header },
    { "read listing: names that are none", ROWS * SPELLINGS * 3 * 4, try_name },
    { "read listing: wrong in several ways at once", 512 * 16, try_order },
    { "read listing: every room, none to more than enough", 600, try_rooms },
    { "read listing: more than 2,048 words", 18, try_long },
    { "read listing: every byte at every place", 512 * 50, try_byte },
    { "read listing: bytes in no order", 6000, try_bytes },
    { "read listing: what is listed comes back", 1500, try_back },
};
#define FAMILIES (sizeof families / sizeof *families)

static int can_be_told(uint64_t n) { return n == 0 || (n >= 13 && n <= 19) || n == 23 || n == 24 || (n >= 60 && n <= 64); }

int main(int count, char **arguments)
{
    if (try_families(families, FAMILIES, count, arguments))
        all_met("read listing: every number was met", can_be_told);
    return 0;
}
