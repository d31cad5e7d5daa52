/* Reading and writing for either firmware, compared with the second program: every op code with every field at its edges and past them,
   every single-bit damage of valid words, unnamed bits, marker counts, and random words; what is read is also written back. */
#include "../include/aps2.h"
#include "../second/second.h"
#include "bits.h"

/* The width of each field that a row of the table can have, the header's first; rows by op code. */
static const int header_low[4] = { 60, 58, 57, 56 };
static const int rows[16][4][2] = {
    { { 47, 46 }, { 45, 45 }, { 44, 24 }, { 23, 0 } }, { { 47, 46 }, { 36, 33 }, { 32, 32 }, { 31, 0 } },
    { { 47, 46 } }, { { 15, 0 } }, { { 25, 0 } }, { { 9, 8 }, { 7, 0 } }, { { 25, 0 } }, { { 25, 0 } },
    { { 55, 0 } }, { { 47, 46 } }, { { 47, 45 }, { 43, 40 }, { 31, 0 } }, { { 55, 0 } }, { { 25, 0 } },
    { { 55, 0 } }, { { 55, 0 } }, { { 55, 0 } },
};
static const int row_count[16] = { 4, 4, 1, 1, 1, 2, 1, 1, 1, 1, 3, 1, 1, 1, 1, 1 };

/* Numbers worth trying in a field of w bits: the ends, the powers that rules speak of, and their neighbours. */
#define EDGES 16
static uint64_t edge(int k, int w)
{
    uint64_t top = w == 64 ? ~UINT64_C(0) : (UINT64_C(1) << w) - 1;
    switch (k) {
    case 0: return 0;
    case 1: return 1;
    case 2: return 2;
    case 3: return 3;
    case 4: return top;
    case 5: return top - 1;
    case 6: return top / 2;
    case 7: return top / 2 + 1;
    case 8: return 127;
    case 9: return 128;
    case 10: return 16384;
    case 11: return 16385;
    case 12: return (UINT64_C(1) << 30) - 1;
    case 13: return UINT64_C(1) << 30;
    case 14: return 4 + below(60);
    default: return random64();
    }
}

static uint64_t in_field(uint64_t value, int hi, int lo) { return value << (63 - (hi - lo)) >> (63 - (hi - lo)) << lo; }

static void show(const char *what, uint64_t number, const uint64_t f[8])
{
    printf("  %s %llu:", what, (unsigned long long)number);
    for (int i = 0; i < 8; i++)
        printf(" %llu", (unsigned long long)f[i]);
    printf("\n");
}

static void fill(uint64_t f[8])
{
    for (int i = 0; i < 8; i++)
        f[i] = random64();
}

static int same(const uint64_t a[8], const uint64_t b[8])
{
    for (int i = 0; i < 8; i++)
        if (a[i] != b[i])
            return 0;
    return 1;
}

static uint64_t writes;

/* How often each number was given in writing. */
static uint64_t ever_writing[MET];

static void all_met_both_ways(void)
{
    for (int n = 0; n < MET; n++) {
        int both = n == 0 || n == 10 || (n >= 13 && n <= 19) || n == 24;
        int reading = both || n == 12 || (n >= 111 && n <= 113), writing = both || n == 23;
        if ((ever[n] > 0) != reading || (ever_writing[n] > 0) != writing)
            failed = 1, printf("  number %d: read %llu times, written %llu times\n", n, (unsigned long long)ever[n], (unsigned long long)ever_writing[n]);
        compared += (uint64_t)(reading + writing);
    }
    family("word: every number was met");
}

/* What is written for this firmware follows from what is written for the current one. */
static int follows_in_writing(const uint64_t fields[8], uint64_t number, uint64_t word)
{
    uint64_t plain[1], current = aps2_write(fields, 0, plain);
    int wide = fields[0] == 1 && fields[3] == 0 && fields[6] >= WIDE;
    return current != 24 && number == number_for(current, wide) && word == (number ? 0 : plain[0]);
}

/* Both programs write what is asked for; tells the number. */
static uint64_t try_write(const uint64_t fields[8])
{
    uint64_t ours[1] = { random64() }, theirs[1] = { random64() };
    uint64_t n = aps2_write(fields, firmware, ours), m = second_write(fields, firmware, theirs);
    writes++;
    ever_writing[n < MET ? n : MET - 1]++;
    if (n != m || ours[0] != theirs[0] || !follows_in_writing(fields, n, ours[0])) {
        if (!failed)
            show("write", n, fields), printf("  firmware %llu, ours %llx, second %llu %llx\n", (unsigned long long)firmware,
                                             (unsigned long long)ours[0], (unsigned long long)m, (unsigned long long)theirs[0]);
        failed = 1;
    }
    return n;
}

/* What is read for this firmware follows from what is read for the current one. */
static int follows(uint64_t word, uint64_t number)
{
    uint64_t fields[8], bit[1], current = aps2_read(word, 0, fields, bit);
    return current != 24 && number == number_for(current, is_wide(word));
}

/* Both programs read a word; an accepted word is written back. */
static uint64_t try_read(uint64_t word)
{
    uint64_t ours[8], theirs[8], our_bit[1] = { random64() }, their_bit[1] = { random64() }, back[1];
    fill(ours);
    fill(theirs);
    uint64_t n = aps2_read(word, firmware, ours, our_bit), m = second_read(word, firmware, theirs, their_bit);
    compared++;
    meet(n);
    int good = n == m && same(ours, theirs) && our_bit[0] == their_bit[0] && tells(word, n, our_bit[0]) && follows(word, n);
    if (good && n == 0) {
        uint64_t code = word >> 60, kept = code == 8 || code == 11 ? word >> 56 << 56 : word;
        good = aps2_write(ours, firmware, back) == 0 && back[0] == kept && try_write(ours) == 0;
    }
    if (!good) {
        if (!failed)
            printf("  word %llx, firmware %llu, bit %llu, second %llu\n", (unsigned long long)word, (unsigned long long)firmware,
                   (unsigned long long)our_bit[0], (unsigned long long)their_bit[0]),
                show("ours", n, ours), show("second", m, theirs);
        failed = 1;
    }
    return n;
}

/* A word read for either firmware. */
static void try_both(uint64_t word)
{
    firmware = 0;
    try_read(word);
    firmware = any_older();
    try_read(word);
}

/* A word of an op code, each field with an edge of its own: digits of `pick` in base EDGES, or random ones. */
static uint64_t word_of(int code, uint64_t pick, uint64_t header)
{
    uint64_t w = (uint64_t)code << 60;
    for (int i = 1; i < 4; i++)
        w |= (header >> (i - 1) & (i == 1 ? 3 : 1)) << header_low[i];
    for (int i = 0; i < row_count[code]; i++, pick /= EDGES)
        w |= in_field(edge(pick % EDGES, rows[code][i][0] - rows[code][i][1] + 1), rows[code][i][0], rows[code][i][1]);
    return w;
}

static void read_edges(void)
{
    for (int code = 0; code < 16; code++) {
        uint64_t all = 1;
        for (int i = 0; i < row_count[code]; i++)
            all *= EDGES;
        for (uint64_t pick = 0; pick < all; pick++)
            for (uint64_t header = 0; header < 4; header++)
                try_both(word_of(code, pick, header == 3 ? 0xB : header == 2 ? 0x8 : header ? 0x9 : 0));
    }
    try_both(~UINT64_C(0));
    try_both(0);
    family("read: every op code, every field at its edges, for either firmware");
}

static void read_damaged(void)
{
    for (int n = 0; n < 3000;) {
        uint64_t w = n % 100 == 0 ? ~UINT64_C(0) : word_of(below(13), random64(), below(16) & 0xB);
        firmware = any_firmware();
        if (try_read(w))
            continue;
        n++;
        for (int bit = 0; bit < 64; bit++)
            try_read(w ^ UINT64_C(1) << bit);
    }
    family("read: every single-bit damage of valid words");
}

static void read_random(void)
{
    for (int n = 0; n < 100000; n++) {
        uint64_t w = random64(), few = random64() & random64() & random64();
        firmware = any_firmware();
        try_read(w);
        try_read(few);
        try_read((w & ~(UINT64_C(15) << 60)) | below(13) << 60);
        try_read(few & ~(UINT64_C(0x2FFFF) << 40));
    }
    family("read: random words");
}

static void try_unnamed(uint64_t code, uint64_t bits)
{
    firmware = any_firmware();
    for (int base = 0; base < BASES; base++)
        try_read(with_bits(base, code, bits));
}

/* A word that is judged by its placing reads well. */
static void try_beside(uint64_t word, struct told t)
{
    if (try_read(word) != (t.number == 20 || t.number == 21 ? 0 : t.number) && !failed)
        failed = 1, printf("  word %llx is not refused with %llu\n", (unsigned long long)word, (unsigned long long)t.number);
}

static void read_unnamed(void)
{
    each_unnamed(try_unnamed);
    family_of_bits("read: every unnamed bit of every op code, alone, in pairs and several at once");
    for (int n = 0; n < 40000; n++) {
        uint64_t code = below(CODES);
        firmware = any_firmware();
        try_read(with_bits(n % BASES, code, some_bits(code)));
    }
    family_of_bits("read: random words with unnamed bits");
    for (int older = 0; older < 2; older++) {
        firmware = older ? any_older() : 0;
        each_beside(try_beside);
        for (int n = 0; n < 2000; n++)
            try_read(random64() | OP(13 + below(3), UINT64_C(1) << 57));
    }
    family_of("read: unnamed bits beside other refusals", beside);
}

static void try_marker(uint64_t word, uint64_t number)
{
    if (try_read(word) != number && !failed)
        failed = 1, printf("  word %llx, firmware %llu: %llu is expected\n", (unsigned long long)word, (unsigned long long)firmware,
                           (unsigned long long)number);
    try_read(word | some_bits(1));
}

static void read_markers(void)
{
    for (int k = 0; k < KINDS; k++) {
        firmware = kinds[k];
        each_marker(try_marker);
    }
    family_of("read: marker counts around 2^20 in every op, for either firmware", (const int[]){ 0, 14, 15, 16, 24, 111, 112, 113, -1 });
}

static void write_edges(void)
{
    for (int code = 0; code < 18; code++)
        for (int n = 0; n < 8000; n++) {
            uint64_t f[8] = { code == 16 ? 255 : code == 17 ? random64() : (uint64_t)code, edge(below(n % 4 ? 4 : EDGES), 2) };
            f[2] = n % 7 ? below(2) : edge(below(EDGES), 1);
            int row = code < 16 ? code : 0;
            for (int i = 0; i < row_count[row]; i++) {
                int w = rows[row][i][0] - rows[row][i][1] + 1, k = below(EDGES);
                f[3 + i] = edge(k, w);
                if (k >= 8 && below(8))
                    f[3 + i] = in_field(f[3 + i], w - 1, 0);
                if (below(40) == 0)
                    f[3 + i] = (UINT64_C(1) << w) + below(2);
            }
            if (n % 9 == 0)
                f[3 + below(5)] = below(2) ? 1 : random64();
            if (row == 2 || row == 9 || row == 8 || row == 11 || row > 12)
                f[3] = n % 3 ? 0 : f[3];
            firmware = any_firmware();
            try_write(f);
        }
    compared = writes;
    family("write: every op code, every field at its edges and past them, for either firmware");
}

static void try_asked(const uint64_t f[6], uint64_t number)
{
    const uint64_t fields[8] = { 1, f[0], f[1], f[2], f[3], f[4], f[5] };
    if (try_write(fields) != number && !failed)
        failed = 1, show("expected", number, fields);
}

static void write_markers(void)
{
    writes = 0;
    for (int k = 0; k < KINDS; k++) {
        firmware = kinds[k];
        each_asked(try_asked);
    }
    compared = writes;
    family("write: marker counts around 2^20 and past 32 bits in every op, for either firmware");
}

int main(void)
{
    printf("seed %llu\n", (unsigned long long)seed);
    read_edges();
    read_damaged();
    read_random();
    read_unnamed();
    read_markers();
    writes = 0;
    write_edges();
    write_markers();
    all_met_both_ways();
    return 0;
}
