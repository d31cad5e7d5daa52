/* Moves between the two editions of the listing, compared with the second program: the number, the line, how many bytes, and the whole buffer
   with its tail; where the text was made from a plan, with what the plan says too. A case is made from its number and a seed. One that disagrees
   is printed with both, so that `labels FAMILY CASE SEED` runs it again by itself, and with its text where that is short. */
#include "../include/aps2.h"
#include "../second/second.h"
#include "cases.h"
#include "labelled.h"

#define LENT TEXT
#define UNIT uint8_t
#define UNIT_NAME "byte"
#include "lent.h"

enum { MANY = 65536 };

/* The two moves. */
enum { TO_LABELS, TO_ADDRESSES };
typedef uint64_t move(const uint8_t *text, size_t len, uint8_t *out, size_t out_len, uint64_t told[2]);
static move *const our_move[] = { aps2_to_labels, aps2_to_addresses }, *const their_move[] = { second_to_labels, second_to_addresses };

/* What was told last. */
static uint64_t told_line, told_bytes;

static void show_case(int way, size_t room)
{
    show_number("labels");
    printf("  %s, %llu bytes, room %llu\n", way == TO_LABELS ? "to labels" : "to addresses", (unsigned long long)len, (unsigned long long)room);
    show_text();
}

/* Both programs move the text; the answers, the buffers and their tails are compared. */
static uint64_t try_move(int way, size_t room)
{
    uint64_t told[2], second_told[2];
    lend(room, told, second_told);
    tempt();
    uint64_t number = our_move[way](text, len, ours, room, told), second = their_move[way](text, len, theirs, room, second_told);
    int good = number == second && told[0] == second_told[0] && told[1] == second_told[1] && (number ? !told[1] : !told[0] && told[1] <= room);
    good = good && untouched(ours, told[1], room) && same_buffers(room);
    compared++;
    meet(number);
    told_line = told[0];
    told_bytes = good ? told[1] : 0;
    if (!good && !failed) {
        failed = 1;
        show_case(way, room);
        show_answer("ours", number, told);
        show_answer("second", second, second_told);
        show_difference(room);
    }
    return number;
}

/* The same, of a text whose number and line are known. */
static void expect(int way, size_t room, uint64_t number, uint64_t line)
{
    if ((try_move(way, room) != number || told_line != line) && !failed)
        failed = 1, show_case(way, room), printf("  %llu at line %llu is expected\n", (unsigned long long)number, (unsigned long long)line);
}

/* The same, of a text of which it is known what becomes of it. */
static void expect_moved(int way, size_t room)
{
    expect(way, room, room < expected_len ? 64 : 0, 0);
    int good = room < expected_len || told_bytes == expected_len;
    for (size_t i = 0; good && i < told_bytes; i++)
        good = ours[i] == expected[i];
    if (!good && !failed)
        failed = 1, show_case(way, room), printf("  other bytes are expected\n");
}

/* Bytes enough for what becomes of a short text, and rooms around what is expected. */
static size_t enough(void) { return 3 * len + 600; }
static size_t room_for_expected(void) { return below(3) ? expected_len + below(9) : room_around(expected_len); }

/* What is planned from edition 1 to 2 with our labels, and back; there is enough room, or a byte is missing. */
static void try_there_and_back(int missing)
{
    define_targets();
    put_edition_2(), expect_text(), put_edition_1();
    expect_moved(TO_LABELS, missing ? expected_len - 1 : room_for_expected());
    if (defined > MANY)
        return;
    put_edition_1(), expect_text(), put_edition_2();
    expect_moved(TO_ADDRESSES, missing ? expected_len - 1 : room_for_expected());
}

static void try_words(uint64_t k)
{
    plan_words(below(k % 20 ? 14 : 120));
    try_there_and_back(k % 10 == 1);
}

/* Any labels to edition 1, from there to edition 2 with our labels, and back. */
static void try_labels(uint64_t k)
{
    plan_words(below(k % 20 ? 10 : 70));
    define_any();
    put_edition_1(), expect_text(), put_edition_2();
    expect_moved(TO_ADDRESSES, room_for_expected());
    if (k % 4 == 0)
        try_there_and_back(0);
}

/* A target below n, at n and past it, also by numbers whose low bits are zero, behind other words; PREFETCH may have any number. */
static void try_target(uint64_t k)
{
    static const uint64_t past[] = { 0, 1, 2, 10, 65536, UINT64_C(1) << 26, UINT64_C(1) << 32, UINT64_C(1) << 48, UINT64_C(1) << 63 };
    enum { PAST = sizeof past / sizeof *past };
    static const int targeted[] = { 4, 6, 7, 12 };
    uint64_t which = k / 4 % (PAST + 2);
    size_t n = 1 + below(12), at = below(n);
    plan_words(n);
    plan[at].row = &rows[targeted[k % 4]];
    planned_fields(&plan[at]);
    plan[at].f[2] = which < PAST ? n + past[which] : which == PAST ? n - 1 : ~UINT64_C(0);
    put_edition_1();
    uint64_t line = which != PAST && k % 4 < 3 ? at + 2 : 0;
    if (k / 4 / (PAST + 2) % 3 == 1)
        put_bytes("x\n"), line = line && which ? line : n + 2;
    expect(TO_LABELS, line && below(5) == 0 ? 0 : enough(), !line ? 0 : line == n + 2 ? 61 : 21, line);
}

static void any_letters(uint8_t *name, size_t n)
{
    for (size_t i = 0; i < n; i++)
        name[i] = (uint8_t)letters[below(ALPHABET)];
}

/* A line that ends with a label. */
static void put_with(const char *start, const uint8_t *name, size_t n)
{
    put_bytes(start);
    for (size_t i = 0; i < n; i++)
        text[len++] = name[i];
    put_bytes("\n");
}

/* A label of every length from none to two too many, where it is defined, where it is jumped to, or in both. */
static void try_length(uint64_t k)
{
    static const char *const jump[] = { "REPEAT\t0\t1\t", "GOTO\t3\t0\t", "CALL\t0\t0\t" };
    size_t n = k % (LETTERS + 3), where = k / (LETTERS + 3) % 3;
    uint8_t name[LETTERS + 3];
    any_letters(name, n);
    start_edition(2);
    put_with("label\t", where == 1 ? (const uint8_t *)"A" : name, where == 1 ? 1 : n);
    put_bytes("NOOP\n");
    put_with(jump[below(3)], where == 0 ? (const uint8_t *)"A" : name, where == 0 ? 1 : n);
    if (n < 1 || n > LETTERS)
        expect(TO_ADDRESSES, enough(), 61, where == 1 ? 4 : 2);
    else if (where == 2)
        expect(TO_ADDRESSES, enough(), 0, 0);
    else
        try_move(TO_ADDRESSES, enough());
}

/* A label that is almost the same: one letter changed, one more or fewer, or the other case; its length. */
enum { CHANGES = 9 };

static size_t change(uint8_t *name, size_t n, uint64_t how)
{
    size_t at = how == 1 ? n - 1 : how == 2 ? 0 : below(n);
    switch (how) {
    case 0:
    case 1:
    case 2: name[at] = name[at] == 'x' ? 'y' : 'x'; return n;
    case 3: name[at] = name[at] >= 'A' ? name[at] ^ 0x20 : 'z'; return n;
    case 4: return n - 1;
    case 5: name[n] = name[n - 1]; return n + 1;
    case 6: name[n] = 'A'; return n + 1;
    case 7:
        for (size_t i = n++; i > 0; i--)
            name[i] = name[i - 1];
        return n;
    default: return n;
    }
}

/* Two such labels are jumped to, and both are defined or one only. */
static void try_almost(uint64_t k)
{
    uint8_t one[LETTERS], other[LETTERS + 1];
    size_t n = below(3) ? 1 + below(LETTERS) : LETTERS, m;
    any_letters(one, n);
    for (size_t i = 0; i < n; i++)
        other[i] = one[i];
    m = change(other, n, k % CHANGES);
    start_edition(2);
    put_bytes("NOOP\n");
    put_with("label\t", one, n);
    put_with("GOTO\t0\t0\t", one, n);
    if (k / CHANGES % 2)
        put_with("label\t", other, m);
    put_with("CALL\t0\t0\t", other, m);
    try_move(TO_ADDRESSES, enough());
}

/* A plan with a jump at least, and labels in any style; the jump's address. */
static size_t plan_a_jump(void)
{
    plan_words(1 + below(12));
    size_t a = below(planned);
    plan[a].row = &rows[below(2) ? 6 : 7];
    planned_fields(&plan[a]);
    plan[a].f[2] = plan[a].label = below(planned);
    define_any();
    return a;
}

static void try_twice(uint64_t k)
{
    (void)k;
    plan_a_jump();
    size_t d = below(defined), again = define_at(definitions[d].at + below(planned - definitions[d].at), definitions[d].label);
    put_edition_2();
    expect(TO_ADDRESSES, enough(), 65, definition_line(again > d ? again : d + 1));
}

static void try_undefined(uint64_t k)
{
    size_t a = plan_a_jump();
    plan[a].label = other_label(k);
    put_edition_2();
    expect(TO_ADDRESSES, enough(), 67, word_line(a));
}

/* One to three labels behind the last word, or without any; they are defined, also where a jump names them. */
static void try_no_word(uint64_t k)
{
    size_t a = plan_a_jump(), first;
    if (k % 4 == 0)
        planned = defined = 0;
    else if (k % 4 == 1)
        plan[a].label = other_label(0);
    first = defined;
    for (uint64_t i = 0; i <= k / 4 % 3; i++)
        define(planned, other_label(i));
    put_edition_2();
    expect(TO_ADDRESSES, enough(), 66, definition_line(first));
}

/* Labels defined twice, not defined, at the end, or for no jump; two to four of these at once, and at times a damage. */
static void try_wrong_labels(uint64_t k)
{
    plan_words(1 + below(12));
    define_any();
    for (uint64_t i = 2 + k % 3; i > 0; i--) {
        size_t d = defined ? below(defined) : 0;
        switch (below(6)) {
        case 0:
            if (defined)
                define_at(below(planned + 1), definitions[d].label);
            break;
        case 1:
            if (defined)
                undefine(d);
            break;
        case 2: define_at(planned, other_label(i)); break;
        case 3: plan[below(planned)].label = other_label(i); break;
        case 4: define_at(below(planned), other_label(i)); break;
        default:
            if (defined)
                define_at(planned, definitions[d].label);
        }
    }
    put_edition_2();
    if (below(3) == 0)
        damage(HEADER);
    try_move(TO_ADDRESSES, enough());
}

/* Every text of up to four lines out of eight, and, as k goes on, without its last line feed. */
static const char *const few[] = {
    "label\tA\n", "label\tB\n", "GOTO\t0\t0\tA\n", "CALL\t0\t0\tB\n", "NOOP\n", "label\n", "\n", "GOTO\t0\t0\n",
};
static const char *const few_numbered[] = {
    "GOTO\t0\t0\t0\n", "CALL\t0\t0\t1\n", "REPEAT\t0\t0\t2\n", "NOOP\n", "PREFETCH\t0\t0\t9\n", "BAD\t10\n", "GOTO\t0\t0\n", "\n",
};
enum { FEW = 8, TEXTS_OF_FEW = 1 + 8 + 64 + 512 + 4096, SHORT_OF_FEW = 1 + 8 + 64 + 512 };

static void try_few(uint64_t k)
{
    uint64_t cut = k >= TEXTS_OF_FEW;
    start_edition(2);
    for (k = cut ? k - TEXTS_OF_FEW : k; k > 0; k = (k - 1) / FEW)
        put_bytes(few[(k - 1) % FEW]);
    len -= cut;
    try_move(TO_ADDRESSES, below(4) ? enough() : below(enough() / 4));
}

static void try_few_numbered(uint64_t k)
{
    uint64_t cut = k >= TEXTS_OF_FEW, a = 0;
    start_edition(1);
    for (k = cut ? k - TEXTS_OF_FEW : k; k > 0; k = (k - 1) / FEW) {
        put_decimal(below(30) ? a++ : a);
        if (below(30))
            put_bytes("\t");
        put_bytes(few_numbered[(k - 1) % FEW]);
    }
    len -= cut;
    try_move(TO_LABELS, below(4) ? enough() : below(enough() / 4));
}

/* The header for a move. */
static void start_for(int way) { start_edition(way == TO_LABELS ? 1 : 2); }

/* A text for a move. */
static void any_text(int way, size_t n)
{
    plan_words(n);
    if (way == TO_LABELS) {
        put_edition_1();
    } else {
        define_any();
        put_edition_2();
    }
}

/* Lines put in and lines left out. */
static const char *const inserted[] = {
    "NOOP\n", "GOTO\t0\t0\t0\n", "CALL\t0\t0\tL0\n", "WAIT\t0\t1\n", "label\tA\n", "label\tL0\n", "label\tlabel\n", "GOTO\t0\t0\tlabel\n",
    "\n", "label\n", "label\t\n", "label\tA\tB\n", "label\tA B\n", "label\tA\r\n", "Label\tA\n", "LABEL\tA\n", "labels\tA\n", "labe\tA\n",
    " label\tA\n", "\tlabel\tA\n", "label A\n", "label\t_A\n", "label\t\xc3\xa9\n", "BAD\t10\n", "BAD\n", "0\tNOOP\n",
    "PREFETCH\t0\t0\t128\n", "PREFETCH\t0\t0\tL0\n", "x\n", "RETURN\t0\t0\tA\n", "LOAD_REPEAT\t0\t0\tA\n", "GOTO\t0\t0\t\n",
    "GOTO\t0\tA\t0\n", "GOTO\t0\t0\tA\t\n", "GOTO\t0\t0\tA\tB\n", "REPEAT\t0\t0\n", "CALL\n", "goto\t0\t0\tA\n", "aps2-listing\t2\n", "label",
    "label\tA", "NOOP", "x", "GOTO\t0\t0\tA",
};
enum { INSERTED = sizeof inserted / sizeof *inserted };

static void try_inserted(uint64_t k)
{
    int way = (int)(k % 2);
    any_text(way, below(8));
    for (uint64_t i = 1 + below(3); i > 0; i--) {
        size_t at = below(4) ? line_from(HEADER + below(len - HEADER + 1)) : len, n = 0;
        const char *bytes = inserted[k / 2 % INSERTED];
        while (bytes[n])
            n++;
        if (below(4))
            splice(at, 0, (const uint8_t *)bytes, n);
        else
            drop(at, line_to(at) - at);
    }
    try_move(way, enough());
}

static void try_damages(uint64_t k, uint64_t count)
{
    int way = k % 3 != 0;
    any_text(way, 1 + below(8));
    for (; count > 0; count--)
        damage(HEADER);
    try_move(way, below(8) ? enough() : below(len + 1));
}

static void try_damage(uint64_t k) { try_damages(k, 1); }
static void try_more_damages(uint64_t k) { try_damages(k, 2 + k % 4); }

static void try_byte(uint64_t k)
{
    start_edition(2);
    put_bytes("label\tA1\nGOTO\t0\t0\tA1\nNOOP\n");
    stray_byte(k);
    try_move(TO_ADDRESSES, k % 5 ? enough() : 38);
}

static void try_byte_numbered(uint64_t k)
{
    start_edition(1);
    put_bytes("0\tGOTO\t0\t0\t1\n1\tNOOP\n");
    stray_byte(k);
    try_move(TO_LABELS, k % 5 ? enough() : 40);
}

/* A number that is not plain, or around 2^64, in place of the address, of every field, and of a field too many; that of a jump's label too. */
static void try_number(uint64_t k)
{
    const struct row *row = &rows[k % ROWS];
    const char *number = numbers[k / ROWS % NUMBERS];
    int way = (int)(k / ROWS / NUMBERS % 2), place = (int)(k / ROWS / NUMBERS / 2), extra = place > row->count;
    uint64_t f[6];
    good_fields(row, f);
    start_for(way);
    put_bytes(way == TO_LABELS ? "0\tNOOP\n" : "label\t0\nNOOP\n");
    if (way == TO_LABELS)
        put_bytes(place ? "1" : number), put_bytes("\t");
    else if (!place)
        put_bytes("label\t"), put_bytes(number), put_bytes("\n");
    put_bytes(row->name);
    for (int i = 1; i <= row->count + extra; i++) {
        put_bytes("\t");
        if (i == place || i > row->count)
            put_bytes(number);
        else
            put_decimal(i == 3 && is_jump(row) ? 0 : f[i - 1]);
    }
    put_bytes("\n");
    try_move(way, enough());
}

/* Headers that are almost right, and either edition given to the other's move. */
static void try_header(uint64_t k)
{
    int way = (int)(k % 2);
    uint64_t which = k / 2 % ODD_HEADERS;
    put_odd_header(which, way == TO_LABELS ? 1 : 2);
    if (k / 2 / ODD_HEADERS % 2)
        put_bytes(way == TO_LABELS ? "0\tNOOP\n" : "NOOP\n");
    try_move(way, room_around(len));
}

static void try_other_edition(uint64_t k)
{
    int way = (int)(k % 2);
    any_text(way, below(5));
    expect(!way, below(2) ? enough() : 0, 60, 1);
    text[HEADER - 2] = way == TO_LABELS ? '2' : '1';
    try_move(!way, enough());
}

/* A name spelt so, with the fields of the name, a single one or none, in its line or a label's; the line feed there or not. */
static void try_name(uint64_t k)
{
    static const struct row label = { "label", 16, 1, { 1 } };
    int way = (int)(k % 2);
    const struct row *row = k / 2 % (ROWS + 1) < ROWS ? &rows[k / 2 % (ROWS + 1)] : &label;
    uint64_t spelling = k / 2 / (ROWS + 1) % SPELLINGS, flaw = k / 2 / (ROWS + 1) / SPELLINGS % 3, fields = below(3), f[6] = { 0 };
    start_for(way);
    put_bytes(way == TO_LABELS ? "0\tNOOP\n1\t" : "label\t1\nNOOP\n");
    put_spelt(spelling, row, f, fields);
    if (flaw != 2)
        put_bytes("\n");
    if (flaw == 1)
        put_bytes(way == TO_LABELS ? "2\tNOOP\n" : "label\t0\nNOOP\n");
    try_move(way, enough());
}

/* Every start of a text. */
static void try_starts(uint64_t k)
{
    int way = (int)(k % 2);
    any_text(way, 2 + below(3));
    for (size_t whole = len; len > HEADER && whole - len < 200; len--)
        try_move(way, enough());
}

/* Every room from none to more than enough. */
static void try_rooms(uint64_t k)
{
    int way = (int)(k % 2);
    any_text(way, below(4));
    if (k % 6 > 3)
        damage(HEADER);
    try_move(way, enough());
    for (size_t room = 0, most = told_bytes + 2; room <= most; room++)
        try_move(way, room);
}

/* Pieces of lines in no order. */
static void try_pieces(uint64_t k)
{
    static const char *const pieces[] = {
        "label\t", "label", "A", "B", "L0", "0", "1", "\n", "\n", "\n", "\t", "\t", "NOOP\n", "GOTO\t0\t0\t", "CALL\t0\t0\t", "REPEAT\t", "GOTO",
        "A\n", "B\n", "0\t", "0\tNOOP\n", "1\t", "\r\n", " ", "label\tA\n", "GOTO\t0\t0\tB\n",
    };
    int way = k % 4 != 0;
    start_for(way);
    for (uint64_t n = 1 + below(k % 2 ? 5 : 14); n > 0; n--)
        put_bytes(pieces[below(sizeof pieces / sizeof *pieces)]);
    try_move(way, enough());
}

/* Long texts: every word is a jump, to itself, to the word as far from the end, to any, or all to one, so that there are as many labels as words
   or one. Of more than MANY words only those with one label are tried: with more labels than that every label is looked for line by line. */
enum { TARGETS = 4 };

static void plan_jumps(size_t n, uint64_t targets)
{
    planned = n;
    for (size_t a = 0; a < n; a++) {
        plan[a].row = &rows[below(2) ? 6 : 7];
        for (int i = 0; i < 6; i++)
            plan[a].f[i] = below(2);
        plan[a].f[2] = plan[a].label = targets == 0 ? a : targets == 1 ? n - 1 - a : targets == 2 ? below(n) : n / 2;
    }
}

static void try_long(uint64_t k)
{
    static const size_t lengths[] = { MANY - 1, MANY, MANY + 1, MANY + 300 };
    plan_jumps(lengths[k / TARGETS], k / TARGETS < 2 ? k % TARGETS : TARGETS - 1);
    try_there_and_back(below(8) == 0);
}

/* As many labels as there are tables for, or one less, whose names are alike but for some letters; all before their words or all before the
   first; the last is jumped to and not defined, or defined again, which makes it one more where there is one less, or nothing is wrong. */
static void try_most_labels(uint64_t k)
{
    static const struct {
        int where, spelt;
    } styles[] = { { FRONT, 3 }, { BEHIND_OTHERS, 3 }, { BEHIND_OTHERS, LETTERS } };
    size_t n = k % 3 == 1 ? MANY - 1 : MANY - (k & 1);
    uint64_t flaw = k % 3, first = k / 3 % 2;
    style.where = styles[(k + first) % 3].where, style.spelt = styles[(k + first) % 3].spelt, style.least = style.most = LETTERS, style.fill = 0;
    plan_jumps(n, first ? 3 : 1);
    defined = 0;
    for (size_t a = 0; a < n; a++) {
        define(first ? 0 : a, a);
        if (first)
            plan[a].f[2] = 0;
    }
    if (flaw == 1)
        define(n - 1, n - 1);
    else if (flaw == 2)
        plan[n - 1].label = n;
    put_edition_1(), expect_text(), put_edition_2();
    if (flaw)
        expect(TO_ADDRESSES, expected_len, flaw == 1 ? 65 : 67, flaw == 1 ? definition_line(n) : word_line(n - 1));
    else
        expect_moved(TO_ADDRESSES, expected_len);
}

/* The line feed that is missing at the very end, and lines that are bad there. */
static void try_long_end(uint64_t k)
{
    int way = (int)(k % 2);
    plan_jumps(3000, 2);
    define_targets();
    if (way == TO_LABELS)
        put_edition_1();
    else
        put_edition_2();
    if (k / 2 == 0)
        len--;
    else if (k / 2 == 1)
        put_bytes("label\tX\n");
    else
        damage(len - 40);
    try_move(way, enough());
    try_move(way, 0);
}

static const struct cases families[] = {
    { "labels: words of all names to labels, and back to the same bytes", 2500, try_words },
    { "labels: any labels to addresses, then ours and back", 2500, try_labels },
    { "labels: targets below the number of words, at it and past it", 4 * 11 * 3 * 8, try_target },
    { "labels: labels of every length, defined and jumped to", (LETTERS + 3) * 3 * 6, try_length },
    { "labels: labels that are almost the same", CHANGES * 2 * 100, try_almost },
    { "labels: a label defined twice", 600, try_twice },
    { "labels: a label that is not defined", 600, try_undefined },
    { "labels: a label without a word", 600, try_no_word },
    { "labels: labels wrong in several ways at once", 3000, try_wrong_labels },
    { "labels: every text with labels of up to four lines out of eight", TEXTS_OF_FEW + SHORT_OF_FEW, try_few },
    { "labels: every text with addresses of up to four lines out of eight", TEXTS_OF_FEW + SHORT_OF_FEW, try_few_numbered },
    { "labels: lines put in and left out", 2 * INSERTED * 25, try_inserted },
    { "labels: one damage", 4000, try_damage },
    { "labels: several damages", 3000, try_more_damages },
    { "labels: every byte at every place of a text with labels", 512 * 43, try_byte },
    { "labels: every byte at every place of a text with addresses", 512 * 38, try_byte_numbered },
    { "labels: numbers around 2^64, and not plain, at every place", ROWS * NUMBERS * 2 * 7, try_number },
    { "labels: headers", 2 * ODD_HEADERS * 2 * 3, try_header },
    { "labels: the other edition", 400, try_other_edition },
    { "labels: names that are none", 2 * (ROWS + 1) * SPELLINGS * 3, try_name },
    { "labels: every start of a text", 40, try_starts },
    { "labels: every room, none to more than enough", 60, try_rooms },
    { "labels: pieces of lines in no order", 3000, try_pieces },
    { "labels: some 65,536 words", 4 * TARGETS, try_long },
    { "labels: 65,536 labels, alike but for some letters", 6, try_most_labels },
    { "labels: the end of a long text", 2 * 8, try_long_end },
};
enum { FAMILIES = sizeof families / sizeof *families };

static int can_be_told(uint64_t n) { return n == 0 || n == 21 || (n >= 60 && n <= 67); }

int main(int count, char **arguments)
{
    if (try_families(families, FAMILIES, count, arguments))
        all_met("labels: every number was met", can_be_told);
    return 0;
}
