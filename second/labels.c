/* Labels in listings: document 02, request 7. A move judges all lines, and counts the bytes it will write, before it writes the first one.
   There are tables for so many addresses, labels and jumps; what is past them is looked for in the text again, which is slow. */
#include "lines.h"
#include "put.h"

enum { MANY = 65536 };

static const char edition_1[] = "aps2-listing\t1\n", edition_2[] = "aps2-listing\t2\n";

/* The bytes of either header, and those of a line that defines the label `L` and an address, but for the address. */
enum { FIRST_LINE = sizeof edition_1 - 1, LABEL_LINE = sizeof "label\tL\n" - 1 };

/* Names whose last field is a target: an address in edition 1, a label in edition 2. */
static inline int has_label(int code) { return code == GOTO || code == CALL || code == REPEAT; }

/* The same of a good line, by the letters of its name that CMP and RETURN do not have. */
static inline int jumps(const uint8_t *name)
{
    return name[0] == 'G' || (name[0] == 'C' && name[1] == 'A') || (name[0] == 'R' && name[2] == 'P');
}

static inline size_t digits(uint64_t v)
{
    size_t n = 1;
    for (; v >= 10; v /= 10)
        n++;
    return n;
}

/* The digits of all addresses below n. */
static inline size_t digits_below(uint64_t n)
{
    size_t sum = n;
    for (uint64_t least = 10; n > least; least *= 10)
        sum += n - least;
    return sum;
}

/* Copies a good line, from a place of it on; *at is moved behind it. */
static inline uint8_t *put_rest(uint8_t *to, const uint8_t **at)
{
    const uint8_t *from = *at;
    while ((*to++ = *from++) != '\n')
        ;
    *at = from;
    return to;
}

/* Copies a jump's line up to its target, which stands behind the third tab. */
static inline uint8_t *put_to_target(uint8_t *to, const uint8_t **at)
{
    const uint8_t *from = *at;
    for (int tabs = 0; tabs < 3; tabs += *from++ == '\t')
        *to++ = *from;
    *at = from;
    return to;
}

/* Edition 1 to 2. */

/* Whether a jump means the address, for MANY addresses from one on. */
static uint8_t meant[MANY];

static inline void clear_meant(size_t n)
{
    for (size_t i = 0; i < n && i < MANY; i++)
        meant[i] = 0;
}

/* The same for addresses from another one on, read off good lines. */
static void mark_from(const uint8_t *at, const uint8_t *end, uint64_t from)
{
    clear_meant(MANY);
    for (uint64_t target; at < end; at = line_end(at, end) + 1) {
        const uint8_t *name = field_end(at, end) + 1;
        if (!jumps(name))
            continue;
        at = name;
        for (int tabs = 0; tabs < 3; tabs++)
            at = field_end(at, end) + 1;
        decimal(at, end, &target);
        if (target >= from && target - from < MANY)
            meant[target - from] = 1;
    }
}

/* The bytes of the lines with labels, for the addresses that are marked, of n in all. */
static size_t label_lines(uint64_t from, uint64_t n)
{
    size_t size = 0;
    for (uint64_t a = from; a < n && a - from < MANY; a++)
        if (meant[a - from])
            size += LABEL_LINE + digits(a);
    return size;
}

/* How many lines there are; the last one may be without its line feed. */
static uint64_t lines_in(const uint8_t *at, const uint8_t *end)
{
    uint64_t n = at < end && end[-1] != '\n';
    for (; at < end; at++)
        n += *at == '\n';
    return n;
}

static void write_labels(const uint8_t *first, const uint8_t *end, uint64_t n, uint8_t *to)
{
    const uint8_t *at = first;
    to = put_letters(to, edition_2);
    for (uint64_t a = 0; a < n; a++) {
        if (a % MANY == 0 && n > MANY)
            mark_from(first, end, a);
        if (meant[a % MANY]) {
            to = put_decimal(put_letters(to, "label\tL"), a);
            *to++ = '\n';
        }
        at = field_end(at, end) + 1;
        if (jumps(at)) {
            to = put_to_target(to, &at);
            *to++ = 'L';
        }
        to = put_rest(to, &at);
    }
}

uint64_t second_to_labels(const uint8_t *text, size_t len, uint8_t *out, size_t out_len, uint64_t told[2])
{
    const uint8_t *end = text + len, *first = letters(text, end, edition_1), *at = first;
    struct line l;
    told[0] = 1;
    told[1] = 0;
    if (!first)
        return 60;
    uint64_t n = lines_in(first, end);
    size_t size = FIRST_LINE;
    clear_meant(n);
    for (uint64_t a = 0; a < n; a++) {
        uint64_t number = read_line(&at, end, a, &l);
        int jump = !number && has_label(l.code);
        if (jump && l.f[3] >= n)
            number = 21;
        if (number) {
            told[0] = a + 2;
            return number;
        }
        if (jump && l.f[3] < MANY)
            meant[l.f[3]] = 1;
        size += (size_t)(at - l.name) + (size_t)jump;
    }
    told[0] = 0;
    size += label_lines(0, n);
    for (uint64_t from = MANY; from < n; from += MANY) {
        mark_from(first, end, from);
        size += label_lines(from, n);
    }
    if (size > out_len)
        return 64;
    write_labels(first, end, n, out);
    told[1] = size;
    return 0;
}

/* Edition 2 to 1. */

/* A label: its letters, 16 at most, with zeros behind. */
struct label {
    uint64_t half[2];
};

static inline int is_letter(uint8_t c) { return (uint8_t)((c | 32) - 'a') < 26 || (uint8_t)(c - '0') < 10; }

static inline int alike(const struct label *a, const struct label *b) { return a->half[0] == b->half[0] && a->half[1] == b->half[1]; }

/* As many letters and digits as stand there, from 1 to what a label holds. */
static inline const uint8_t *read_label(const uint8_t *at, const uint8_t *end, struct label *l)
{
    const uint8_t *first = at;
    uint64_t half[2] = { 0, 0 };
    for (int k = 0; at < end && is_letter(*at) && k < 64; at++, k += 8)
        half[0] |= (uint64_t)*at << k;
    if (at - first == 8)
        for (int k = 0; at < end && is_letter(*at) && k < 64; at++, k += 8)
            half[1] |= (uint64_t)*at << k;
    *l = (struct label){ { half[0], half[1] } };
    return at == first || (at < end && is_letter(*at)) ? NULL : at;
}

/* A line of edition 2: the op code of its name, or LABEL, and the label that it defines or jumps to, with its length. */
enum { LABEL = 16 };

struct labelled {
    int code;
    struct label label;
    size_t length;
};

/* The line at *start, and *start moved behind it; the number that refuses it, 61 or 63. */
static inline uint64_t read_labelled(const uint8_t **start, const uint8_t *end, struct labelled *l)
{
    const uint8_t *at = field_end(*start, end), *label;
    uint64_t f[6];
    l->length = 0;
    l->code = code_of(*start, at);
    if (l->code == NONE && is(*start, at, "label"))
        l->code = LABEL;
    if (l->code == LABEL || has_label(l->code)) {
        at = l->code == LABEL ? at : numbers(at, end, 2, f);
        label = at ? byte(at, end, '\t') : NULL;
        at = label ? read_label(label, end, &l->label) : NULL;
        l->length = at ? (size_t)(at - label) : 0;
    } else {
        at = l->code == NONE ? line_end(at, end) : numbers(at, end, fields_of(l->code), f);
    }
    at = at ? byte(at, end, '\n') : NULL;
    if (at) {
        *start = at;
        return l->code == NONE ? 63 : 0;
    }
    at = line_end(*start, end);
    *start = at < end ? at + 1 : end;
    return 61;
}

/* Lines that have a label: its letters, the words before the line, and the line's number. */
#define NOWHERE (~UINT64_C(0))

struct kept {
    struct label label;
    uint64_t address, line;
};
static struct kept definitions[MANY], jumped[MANY];

/* Such lines of one kind in their order, as many as there is room for, and the first one for which there is none, or the text's end. */
struct list {
    struct kept *kept;
    size_t count;
    const uint8_t *rest;
    uint64_t rest_line, rest_address;
};

/* A slot holds the number of a definition, from 1, or 0; at least half of the slots are free. */
static uint32_t slot[2 * MANY];

/* What is known of a text: its definitions and its jumps; the first of the label lines at its end, behind which no word stands; the number that
   refuses it, and the line; the words and bytes to write. */
struct moved {
    const uint8_t *end;
    struct list definitions, jumps;
    uint64_t ending, number, line, words;
    size_t size;
    int shift;
};

static inline void refuse(struct moved *m, uint64_t number, uint64_t line)
{
    if (!m->number || line < m->line)
        m->number = number, m->line = line;
}

static void start_slots(struct moved *m)
{
    size_t slots = 2;
    for (m->shift = 63; slots < 2 * m->definitions.count; slots *= 2)
        m->shift--;
    for (size_t i = 0; i < slots; i++)
        slot[i] = 0;
}

/* The slot of a label, or the free one where it would be. */
static inline size_t slot_of(const struct moved *m, const struct label *l)
{
    uint64_t h = (l->half[0] ^ l->half[1] * UINT64_C(0x9E3779B97F4A7C15)) * UINT64_C(0xD6E8FEB86659FD93);
    size_t mask = ~UINT64_C(0) >> m->shift, i = (h ^ h >> 32) * UINT64_C(0x9E3779B97F4A7C15) >> m->shift;
    while (slot[i] && !alike(&definitions[slot[i] - 1].label, l))
        i = (i + 1) & mask;
    return i;
}

/* The line that is the first to define a label, where no definition that was kept does, or NULL; its address. */
static const uint8_t *defined_in_rest(const struct moved *m, const struct label *label, uint64_t *address)
{
    struct labelled l;
    *address = m->definitions.rest_address;
    for (const uint8_t *at = m->definitions.rest, *next = at; at < m->end; at = next) {
        uint64_t number = read_labelled(&next, m->end, &l);
        if (l.code != LABEL)
            ++*address;
        else if (!number && alike(&l.label, label))
            return at;
    }
    *address = NOWHERE;
    return NULL;
}

static inline uint64_t address_of(const struct moved *m, const struct label *label)
{
    uint32_t d = slot[slot_of(m, label)];
    uint64_t address;
    if (d)
        return definitions[d - 1].address;
    defined_in_rest(m, label, &address);
    return address;
}

static inline void keep(struct list *list, const struct label *label, uint64_t address, const uint8_t *at, uint64_t line, const uint8_t *end)
{
    if (list->count < MANY)
        list->kept[list->count++] = (struct kept){ *label, address, line };
    else if (list->rest == end)
        list->rest = at, list->rest_line = line, list->rest_address = address;
}

/* All lines judged but for what becomes of their labels. */
static void judge(struct moved *m, const uint8_t *at)
{
    uint64_t line = 2;
    struct labelled l;
    for (const uint8_t *next = at; at < m->end; at = next, line++) {
        uint64_t number = read_labelled(&next, m->end, &l);
        if (number)
            refuse(m, number, line);
        else if (l.code == LABEL || has_label(l.code))
            keep(l.code == LABEL ? &m->definitions : &m->jumps, &l.label, m->words, at, line, m->end);
        if (l.code == LABEL) {
            m->ending = m->ending ? m->ending : line;
        } else {
            m->ending = 0;
            m->words++;
            m->size += 1 + (size_t)(next - at) - l.length;
        }
    }
    m->size += digits_below(m->words);
}

/* 65: the label of a line was defined before. */
static void settle_definitions(struct moved *m)
{
    uint64_t line = m->definitions.rest_line, address;
    struct labelled l;
    start_slots(m);
    for (size_t d = 0; d < m->definitions.count; d++) {
        size_t i = slot_of(m, &definitions[d].label);
        if (slot[i])
            refuse(m, 65, definitions[d].line);
        else
            slot[i] = (uint32_t)d + 1;
    }
    for (const uint8_t *at = m->definitions.rest, *next = at; at < m->end; at = next, line++)
        if (!read_labelled(&next, m->end, &l) && l.code == LABEL)
            if (slot[slot_of(m, &l.label)] || defined_in_rest(m, &l.label, &address) != at)
                refuse(m, 65, line);
}

/* The address that a jump means. 67: no line defines the label. */
static inline uint64_t settle(struct moved *m, const struct label *label, uint64_t line)
{
    uint64_t address = address_of(m, label);
    if (address == NOWHERE)
        refuse(m, 67, line);
    m->size += digits(address);
    return address;
}

/* Jumps that are kept get their address, in the place of their own. */
static void settle_jumps(struct moved *m)
{
    uint64_t line = m->jumps.rest_line;
    struct labelled l;
    for (size_t k = 0; k < m->jumps.count; k++)
        jumped[k].address = settle(m, &jumped[k].label, jumped[k].line);
    for (const uint8_t *at = m->jumps.rest, *next = at; at < m->end; at = next, line++)
        if (!read_labelled(&next, m->end, &l) && has_label(l.code))
            settle(m, &l.label, line);
}

static void write_addresses(const struct moved *m, const uint8_t *at, uint8_t *to)
{
    uint64_t a = 0;
    size_t k = 0;
    struct label label;
    to = put_letters(to, edition_1);
    while (at < m->end) {
        if (*at == 'l') {
            at = line_end(at, m->end) + 1;
            continue;
        }
        to = put_decimal(to, a++);
        *to++ = '\t';
        if (jumps(at)) {
            to = put_to_target(to, &at);
            if (k < m->jumps.count)
                to = put_decimal(to, jumped[k++].address);
            else
                read_label(at, m->end, &label), to = put_decimal(to, address_of(m, &label));
            at = line_end(at, m->end);
        }
        to = put_rest(to, &at);
    }
}

uint64_t second_to_addresses(const uint8_t *text, size_t len, uint8_t *out, size_t out_len, uint64_t told[2])
{
    const uint8_t *end = text + len, *first = letters(text, end, edition_2);
    struct moved m = { .end = end, .definitions = { definitions, 0, end, 0, 0 }, .jumps = { jumped, 0, end, 0, 0 }, .size = FIRST_LINE };
    told[0] = 1;
    told[1] = 0;
    if (!first)
        return 60;
    judge(&m, first);
    settle_definitions(&m);
    if (m.ending)
        refuse(&m, 66, m.ending);
    settle_jumps(&m);
    told[0] = m.line;
    if (m.number)
        return m.number;
    if (m.size > out_len)
        return 64;
    write_addresses(&m, first, out);
    told[1] = m.size;
    return 0;
}
