/* Blocks compared with the second program: the number, the line, how many words, and the whole buffer behind them. Where the bodies lie is
   each program's own, so the words of an accepted text are held to the text. A case is made from its number and a seed. One that disagrees is
   printed with both, so that `blocks FAMILY CASE SEED` runs it again by itself, and with its text where that is short. */
#include "cases.h"
#include "held.h"

#define LENT (WORDS + 64)
#define UNIT uint64_t
#define UNIT_NAME "word"
#include "lent.h"

/* The line that was told. */
static uint64_t told_line;

static void show_case(size_t room)
{
    show_number("blocks");
    printf("  W %llu, %llu bytes, room %llu\n", (unsigned long long)wave, (unsigned long long)len, (unsigned long long)room);
    show_text();
}

/* Both programs make words of the text; the answers, the buffers and their tails are compared. */
static uint64_t try_block(size_t room)
{
    uint64_t told[2], second_told[2];
    lend(room, told, second_told);
    tempt();
    uint64_t number = aps2_block(text, len, wave, ours, room, told), second = second_block(text, len, wave, theirs, room, second_told);
    int good = number == second && told[0] == second_told[0] && told[1] == second_told[1] && (number ? !told[1] : !told[0] && told[1] <= room);
    const char *wrong = !good ? "the answers" : !untouched(ours, told[1], room) || !untouched(theirs, told[1], room) ? "what is behind the words"
        : number ? NULL : !stands(theirs, told[1]) ? "the second program's words" : wrong_words(ours, told[1]);
    compared++;
    meet(number);
    told_line = told[0];
    if (wrong && !failed) {
        failed = 1;
        show_case(room);
        show_answer("ours", number, told);
        show_answer("second", second, second_told);
        printf("  wrong: %s\n", wrong);
    }
    return number;
}

/* The same, of a text whose number and line are known. */
static void expect(size_t room, uint64_t number, uint64_t line)
{
    if ((try_block(room) != number || told_line != line) && !failed)
        failed = 1, show_case(room), printf("  %llu at line %llu is expected\n", (unsigned long long)number, (unsigned long long)line);
}

static void try_empty(uint64_t k)
{
    size_t room = k / WAVES;
    len = 0;
    wave = waves[k % WAVES];
    expect(room, wave > WAVE ? 3 : room < 2 ? 55 : 0, 0);
}

/* Every text of up to five lines out of seven. */
static const char *const few[] = { "play\t0\t2\n", "hold\t7\t3\n", "repeat\t1\n", "repeat\t3\n", "end\n", "repeat\t0\n", "play\t7\t2\n" };
enum { FEW = sizeof few / sizeof *few, TEXTS_OF_FEW = 1 + 7 + 49 + 343 + 2401 + 16807 };

static void try_few(uint64_t k)
{
    len = 0;
    wave = 8;
    for (; k > 0; k = (k - 1) / FEW)
        put_bytes(few[(k - 1) % FEW]);
    try_block(room_around(20));
}

static void try_random(uint64_t k)
{
    (void)k;
    any_block();
    try_block(room_around(block_size()));
}

/* Nests up to two deeper than is allowed. */
static void try_nest(uint64_t k)
{
    static const uint64_t passes[] = { 1, 2, 3, PASSES, 0 };
    size_t deep = k % (NEST + 3), room;
    start_text();
    put_nest(deep, passes[k / (NEST + 3) % 5]);
    room = block_size() + below(3);
    if (deep > NEST)
        expect(room, 53, repeat_line(NEST + 1));
    else
        expect(room, 0, 0);
}

/* N at its ends and past them, under a few repeats or as many as are allowed, around nothing or an item, closed or not. */
static const uint64_t around[] = {
    0, 1, 2, 3, PASSES - 1, PASSES, PASSES + 1, 2 * PASSES, UINT64_C(1) << 32, (UINT64_C(1) << 32) + 1, UINT64_C(1) << 63, ~UINT64_C(0),
};
enum { AROUND = sizeof around / sizeof *around };

static void try_passes(uint64_t k)
{
    static const size_t depths[] = { 0, 1, NEST - 1, NEST };
    uint64_t passes = around[k % AROUND], items = k / AROUND / 4 % 2, closed = k / AROUND / 8 % 2;
    size_t depth = depths[k / AROUND % 4];
    start_text();
    put_repeats(depth);
    put_repeat(passes);
    put_items(items);
    if (closed)
        put_ends(depth + 1);
    if (passes < 1 || passes > PASSES)
        expect(block_size(), 51, depth + 1);
    else if (depth == NEST)
        expect(block_size(), 53, depth + 1);
    else
        expect(block_size(), closed ? 0 : 52, closed ? 0 : line_count() + 1);
}

/* The writer's numbers and 20, in the document's words. */
static uint64_t play_number(uint64_t hold, uint64_t address, uint64_t count)
{
    if (address > top(24) || count > top(21))
        return 23;
    return count < 2 ? 16 : (hold ? address < wave : address + count <= wave) ? 0 : 20;
}

/* Plays and holds with address and count at the ends of their widths, of the waveform memory, and past them, at any depth. */
enum { COUNTS_TRIED = 14, ADDRESSES_TRIED = 16 };

static uint64_t count_tried(uint64_t k)
{
    const uint64_t list[COUNTS_TRIED] = {
        0, 1, 2, 3, wave - 1, wave, wave + 1, top(21) - 1, top(21), top(21) + 1, top(22), UINT64_C(1) << 32, (UINT64_C(1) << 32) + 2, ~UINT64_C(0),
    };
    return list[k];
}

static uint64_t address_tried(uint64_t k, uint64_t count)
{
    const uint64_t list[ADDRESSES_TRIED] = {
        0, 1, wave - count - 1, wave - count, wave - count + 1, wave - 2, wave - 1, wave, wave + 1, top(24) - 1, top(24), top(24) + 1, top(25),
        UINT64_C(1) << 32, ~UINT64_C(0), 0 - count,
    };
    return list[k];
}

static void try_edge(uint64_t k)
{
    size_t depth = below(NEST + 1);
    len = 0;
    wave = waves[k % WAVES];
    uint64_t count = count_tried(k / WAVES % COUNTS_TRIED), address = address_tried(k / WAVES / COUNTS_TRIED % ADDRESSES_TRIED, count);
    uint64_t hold = k / WAVES / COUNTS_TRIED / ADDRESSES_TRIED, number = play_number(hold, address, count);
    put_repeats(depth);
    put_play(hold ? "hold" : "play", address, count);
    put_ends(depth);
    if (wave > WAVE)
        expect(block_size(), 3, 0);
    else
        expect(block_size(), number, number ? depth + 1 : 0);
}

/* The four shapes. */
static const struct shape {
    const char *name;
    int numbers;
} shapes[] = { { "play", 2 }, { "hold", 2 }, { "repeat", 1 }, { "end", 0 } };
enum { SHAPES = sizeof shapes / sizeof *shapes };

/* A line of a shape, spelt so, with so many numbers; one of them may be given as it is to be written. It ends without its line feed. */
static void put_shape(const struct shape *shape, uint64_t spelling, int numbers, int place, const char *number)
{
    put_name(spelling, shape->name);
    for (int i = 0; i < numbers; i++) {
        put_bytes("\t");
        if (i == place)
            put_bytes(number);
        else
            put_decimal(i == 1 ? 2 : 1);
    }
}

/* A text in which a line stands that is good when it has its shape. */
static void put_before(const struct shape *shape)
{
    start_text();
    wave = 8;
    put_items(below(3));
    if (shape == &shapes[3])
        put_repeat(2);
}

static void put_behind(const struct shape *shape)
{
    if (shape == &shapes[2])
        put_end();
    put_items(below(3));
}

/* A number that is not plain, or around 2^64, at every place of a line and behind it. */
static void try_number(uint64_t k)
{
    const struct shape *shape = &shapes[k % SHAPES];
    int place = (int)(k / SHAPES / NUMBERS % 4), count = place < shape->numbers ? shape->numbers : place + 1;
    put_before(shape);
    put_shape(shape, 0, count, place, numbers[k / SHAPES % NUMBERS]);
    put_bytes("\n");
    put_behind(shape);
    try_block(room_around(block_size()));
}

/* A name that is none, with the numbers of the name, one more or fewer; its line feed there or not. */
static void try_name(uint64_t k)
{
    const struct shape *shape = &shapes[k % SHAPES];
    uint64_t spelling = k / SHAPES % SPELLINGS, flaw = k / SHAPES / SPELLINGS / 3 % 3;
    int more = (int)(k / SHAPES / SPELLINGS % 3) - 1;
    put_before(shape);
    put_shape(shape, spelling, shape->numbers + more, -1, "");
    if (flaw)
        put_bytes("\n");
    if (flaw == 2)
        put_behind(shape);
    try_block(room_around(block_size()));
}

/* Lines that have no shape, wherever they stand, and whatever else is wrong behind them. */
static const char *const misshapen[] = {
    "", "\t", " ", "\r", "#", "# note", "play", "play\t", "play\t0", "play\t0\t", "play\t0\t2\t", "play\t0\t2\t0", "play\t\t2", "play\t\t0\t2",
    "play\t0\t\t2", "\tplay\t0\t2", " play\t0\t2", "play \t0\t2", "play\t 0\t2", "play\t0 \t2", "play\t0\t 2", "play\t0\t2 ", "play 0 2", "play\t0 2",
    "play\t00\t2", "play\t0\t02", "play\t+0\t2", "play\t0\t+2", "play\t-0\t2", "play\t0\t-2", "play\t0x0\t2", "play\t0\t2.0", "play\t0\t2\r",
    "play\t0\t18446744073709551616", "play\t18446744073709551616\t2", "play\t0\t18446744073709551618", "play\t0\t99999999999999999999999999",
    "PLAY\t0\t2", "Play\t0\t2", "plaY\t0\t2", "pla\t0\t2", "plays\t0\t2", "p\t0\t2", "pray\t0\t2", "hold", "hold\t0", "hold\t0\t2\t2", "hold\t0\t2\t",
    "hold\t00\t2", "HOLD\t0\t2", "Hold\t0\t2", "hol\t0\t2", "holds\t0\t2", "h\t0\t2", "held\t0\t2", "hold\t0\t18446744073709551616", "\thold\t0\t2",
    "repeat", "repeat\t", "repeat\t1\t", "repeat\t1\t1", "repeat 1", "repeat\t 1", "repeat\t1 ", "repeat\t01", "repeat\t065536", "repeat\t+1",
    "repeat\t-1", "repeat\t0x1", "repeat\t1\r", "repeat\t18446744073709551616", "repeat\t18446744073709551617", "repeat\t36893488147419103233",
    "REPEAT\t1", "Repeat\t1", "repea\t1", "repeats\t1", "rep\t1", "r\t1", "repeal\t1", "\trepeat\t1", " repeat\t1", "end\t", "end\t0", "end\t1",
    "end ", " end", "\tend", "end\r", "END", "End", "ends", "en", "e", "enD", "endend", "wait", "sync", "SYNC\t0\t1", "aps2-listing\t1",
    "repeat\t1\tend", "play\t0\t2;", "\xef\xbb\xbfplay\t0\t2",
};
enum { MISSHAPEN = sizeof misshapen / sizeof *misshapen };

static void try_misshapen(uint64_t k)
{
    size_t place = k / MISSHAPEN % 3, depth = below(NEST + 1);
    start_text();
    put_items(place ? 1 + below(3) : 0);
    put_repeats(place ? depth : 0);
    uint64_t line = line_count() + 1;
    put_bytes(misshapen[k % MISSHAPEN]);
    if (place < 2)
        put_bytes("\n"), put_items(below(3)), put_ends(below(NEST)), put_bytes(below(2) ? misshapen[below(MISSHAPEN)] : "");
    else if (*misshapen[k % MISSHAPEN] == 0 || below(2))
        put_bytes("\n");
    expect(room_around(block_size()), 50, line);
}

/* Ways to be wrong at once: those of a line, sixteen repeats open before it or few, a bad line before or behind it, no room, W too large. */
enum { SHAPE_WRONG = 1, NUMBER_WRONG = 2, COUNT_WRONG = 4, PLACE_WRONG = 8, FULL = 16, NO_FEED = 32, BAD_BEFORE = 64, BAD_BEHIND = 128,
       NO_ROOM = 256, W_WRONG = 512, WAYS = 1024 };

/* A play or hold wrong in these ways, without its line feed; W is 8. */
static void put_wrong_play(const char *name, uint64_t ways)
{
    uint64_t address = ways & PLACE_WRONG ? 8 + below(3) : 0, count = ways & COUNT_WRONG ? below(2) : 2 + below(3);
    if (ways & NUMBER_WRONG) {
        if (ways & COUNT_WRONG || below(2))
            address |= UINT64_C(1) << (24 + below(40));
        else
            count |= UINT64_C(1) << (21 + below(43));
    }
    put_play(name, address, count);
    len--;
}

/* The number of a line of good shape with so many repeats open. */
static uint64_t wrong_number(uint64_t shape, uint64_t ways, size_t open)
{
    if (shape == 2)
        return ways & NUMBER_WRONG ? 51 : open == NEST ? 53 : 0;
    if (shape == 3)
        return open ? 0 : 52;
    return ways & NUMBER_WRONG ? 23 : ways & COUNT_WRONG ? 16 : ways & PLACE_WRONG ? 20 : 0;
}

static void try_order(uint64_t k)
{
    static const uint64_t out_of_range[] = { 0, PASSES + 1, ~UINT64_C(0) };
    uint64_t shape = k % SHAPES, ways = k / SHAPES % WAYS, line;
    size_t open = ways & FULL ? NEST : below(2);
    start_text();
    wave = 8;
    if (ways & BAD_BEFORE)
        put_bytes("hold\t8\t2\n");
    put_repeats(open);
    line = line_count() + 1;
    if (shape < 2)
        put_wrong_play(shapes[shape].name, ways);
    else if (shape == 2)
        put_repeat(ways & NUMBER_WRONG ? out_of_range[below(3)] : 1 + below(3)), len--;
    else
        put_bytes("end");
    if (ways & SHAPE_WRONG)
        put_bytes(below(2) ? "\t0" : " ");
    if (!(ways & NO_FEED))
        put_bytes("\n");
    if (!(ways & NO_FEED) && ways & BAD_BEHIND)
        put_bytes(below(2) ? "end\t\n" : "play\t0\t1");
    if (ways & W_WRONG)
        wave = waves[ALLOWED + below(WAVES - ALLOWED)];
    uint64_t number = ways & (SHAPE_WRONG | NO_FEED) ? 50 : wrong_number(shape, ways, open);
    size_t room = ways & NO_ROOM ? 0 : block_size();
    if (wave > WAVE)
        expect(room, 3, 0);
    else if (ways & BAD_BEFORE)
        expect(room, 20, 1);
    else if (number)
        expect(room, number, line);
    else
        try_block(room);
}

/* Repeats without `end` and the reverse, also where the last line feed is missing or there is no room. */
static void try_balance(uint64_t k)
{
    uint64_t number = 0, line = 0, depth = 0;
    start_text();
    for (uint64_t i = 1, n = below(14); i <= n && !number; i++)
        if (below(5) < 2) {
            put_repeat(1 + below(3));
            depth++;
        } else if (below(3) && (depth || below(4) == 0)) {
            put_end();
            number = depth ? 0 : 52;
            line = i;
            depth -= depth != 0;
        } else {
            put_repeat(1), put_end(), i++;
        }
    if (number && below(2))
        put_bytes(below(2) ? "end" : "repeat\t1\nend\nend\n");
    size_t room = k % 2 ? block_size() + below(3) : below(block_size());
    if (!number && len && k % 3 == 0)
        len--, number = 50, line = line_count();
    else if (!number && depth)
        number = 52, line = line_count() + 1;
    else if (!number)
        number = room < block_size() ? 55 : 0, line = 0;
    expect(room, number, line);
}

static void try_rooms(uint64_t k)
{
    any_block();
    if (k % 3 == 0)
        damage(0);
    for (size_t room = 0, n = block_size(); room <= n + 2 && n < 60; room++)
        try_block(room);
}

static void try_damages(uint64_t count)
{
    any_block();
    for (uint64_t i = 0; i < count; i++)
        damage(0);
    try_block(room_around(block_size()));
}

static void try_damage(uint64_t k) { (void)k, try_damages(1); }
static void try_more_damages(uint64_t k) { try_damages(2 + k % 4); }

static void try_byte(uint64_t k)
{
    len = 0;
    wave = 8;
    put_bytes("repeat\t2\nplay\t0\t2\nhold\t7\t3\nend\n");
    stray_byte(k);
    try_block(k % 5 ? 8 : 7);
}

/* Pieces of lines in no order. */
static void try_pieces(uint64_t k)
{
    static const char *const pieces[] = {
        "play\t", "hold\t", "repeat\t", "end", "end\n", "play", "repeat", "\t", "\t", "\n", "\n", "0", "2", "2\n", "7", "65536", "1\n", "0\t2\n", " ",
        "\r\n",
    };
    start_text();
    for (uint64_t n = 1 + below(k % 2 ? 4 : 14); n > 0; n--)
        put_bytes(pieces[below(sizeof pieces / sizeof *pieces)]);
    try_block(room_around(block_size()));
}

/* A text of just so many words: plays, holds, empty repeats, repeats around a hold, nests, or all of these. */
enum { FILLS = 6 };

static void fill(uint64_t what, size_t words)
{
    static const size_t sizes[FILLS] = { 1, 1, 4, 5, 4 * NEST + 1, 1 };
    while (words > 0) {
        uint64_t kind = what < FILLS - 1 ? what : below(FILLS - 1);
        kind = sizes[kind] > words ? below(2) : kind;
        words -= sizes[kind];
        if (kind < 2) {
            put_play(kind ? "hold" : "play", below(wave - 1), 2);
        } else {
            size_t deep = kind == 4 ? NEST : 1;
            for (size_t i = 0; i < deep; i++)
                put_repeat(1 + (below(8) == 0));
            put_bytes(kind == 2 ? "" : "hold\t0\t2\n");
            put_ends(deep);
        }
    }
}

/* Texts of just as many words as there can be, of one more and of many more, with any room; whole, or with a bad end, which comes before 54
   and 55. */
enum { LENGTHS = 3 };

static void try_long(uint64_t k)
{
    static const struct {
        const char *text;
        uint64_t number;
    } ends[] = { { "", 0 }, { "", 50 }, { "repeat\t1\n", 52 }, { "end\n", 52 }, { "x", 50 }, { "play\t8\t2\n", 20 } };
    static const size_t lengths[LENGTHS] = { WORDS, WORDS + 1, 2 * WORDS + 2 }, rooms[] = { WORDS, WORDS - 1, 0, LENT };
    uint64_t end = k / FILLS / LENGTHS % 2 ? 1 + below(5) : 0;
    size_t words = lengths[k / FILLS % LENGTHS], room = rooms[below(4)];
    len = 0;
    wave = 8;
    fill(k % FILLS, words - 2);
    put_bytes(ends[end].text);
    if (end == 1)
        len--; /* the last line feed */
    if (end)
        expect(room, ends[end].number, line_count() + (end == 2));
    else
        expect(room, words > WORDS ? 54 : room < words ? 55 : 0, 0);
}

static const struct cases families[] = {
    { "block: the empty text", WAVES * 5, try_empty },
    { "block: every text of up to five lines out of seven", TEXTS_OF_FEW, try_few },
    { "block: random nests", 5000, try_random },
    { "block: nests of every depth, up to two too deep", (NEST + 3) * 5 * 12, try_nest },
    { "block: N at its ends and past them, at every depth, closed or not", AROUND * 4 * 2 * 2 * 3, try_passes },
    { "block: address, count and W at their ends and past them", WAVES * COUNTS_TRIED * ADDRESSES_TRIED * 2, try_edge },
    { "block: numbers around 2^64, and not plain, at every place", SHAPES * NUMBERS * 4 * 2, try_number },
    { "block: names that are none", SHAPES * SPELLINGS * 3 * 3 * 2, try_name },
    { "block: lines without shape", MISSHAPEN * 3 * 3, try_misshapen },
    { "block: wrong in several ways at once", SHAPES * WAYS * 2, try_order },
    { "block: repeat without end, end without repeat", 4000, try_balance },
    { "block: every room, none to more than enough", 300, try_rooms },
    { "block: one damage", 4000, try_damage },
    { "block: several damages", 3000, try_more_damages },
    { "block: every byte at every place", 512 * 32, try_byte },
    { "block: pieces of lines in no order", 4000, try_pieces },
    { "block: 65,536 words, one more and many more", FILLS * LENGTHS * 2 * 2, try_long },
};
enum { FAMILIES = sizeof families / sizeof *families };

static int can_be_told(uint64_t n) { return n == 0 || n == 3 || n == 16 || n == 20 || n == 23 || (n >= 50 && n <= 55); }

static void enough_runs(void)
{
    if (parked < 5000 || stopped < 1000)
        failed = 1, printf("  %llu runs got to the park, %llu had no room\n", (unsigned long long)parked, (unsigned long long)stopped);
    compared = parked;
    family("block: runs that got to the park");
}

int main(int count, char **arguments)
{
    start_traces();
    if (try_families(families, FAMILIES, count, arguments)) {
        all_met("block: every number was met", can_be_told);
        enough_runs();
    }
    return 0;
}
