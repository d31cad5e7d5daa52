/* Texts to read: put together one piece after the other, and damaged. */
#ifndef TEXTS_H
#define TEXTS_H

#include "firmware.h"
#include "lines.h"

#define TEXT (1 << 22)
#define SHORT 400 /* bytes of a text that is shown */
#define BEHIND 8 /* bytes of text and words of buffer behind what is lent */

/* The text under test. */
static uint8_t text[TEXT + BEHIND], kept[TEXT];
static size_t len;

static inline uint64_t top(int width) { return (UINT64_C(1) << width) - 1; }

/* Numbers worth trying in a field: the ends, one past them, the numbers that rules speak of, and their neighbours. */
#define EDGES 25
static inline uint64_t edge(uint64_t k, int width)
{
    switch (k) {
    case 0: return 0;
    case 1: return 1;
    case 2: return 2;
    case 3: return 3;
    case 4: return 4;
    case 5: return top(width);
    case 6: return top(width) - 1;
    case 7: return top(width) + 1;
    case 8: return top(width) / 2 + 1;
    case 9: return 127;
    case 10: return 128;
    case 11: return 129;
    case 12: return 16384;
    case 13: return 16385;
    case 14: return (UINT64_C(1) << 30) - 1;
    case 15: return UINT64_C(1) << 30;
    case 16: return UINT64_C(1) << 32;
    case 17: return ~UINT64_C(0);
    case 18: return 128 * below(200);
    case 19: return below(top(width) + 1);
    case 20: return WIDE - 1;
    case 21: return WIDE;
    case 22: return WIDE + 1;
    case 23: return 2 * WIDE;
    default: return random64() >> below(64);
    }
}

/* Texts are put together here. */
static inline void put_bytes(const char *s)
{
    while (*s)
        text[len++] = (uint8_t)*s++;
}

static inline void put_decimal(uint64_t v) { len += put_number(text + len, v); }

/* Numbers as they should not be written, and those around 2^64. */
static const char *const numbers[] = {
    "0", "1", "18446744073709551614", "18446744073709551615", "18446744073709551616", "18446744073709551617", "18446744073709551620",
    "18446744073709551625", "18446744073709551626", "18446744083709551615", "19446744073709551615", "20000000000000000000", "28446744073709551615",
    "36893488147419103232", "99999999999999999999", "100000000000000000000", "184467440737095516150", "340282366920938463463374607431768211456",
    "340282366920938463463374607431768211457", "1844674407370955161", "9999999999999999999", "10000000000000000000", "00", "01", "000", "007",
    "00000000000000000000", "00000000000000000000000000000000000001", "018446744073709551615", "+0", "+1", "-0", "-1", "", " 0", "0 ", " ", "1 1",
    "0x1", "0.0", "1e3", "1,000", "1_0", "O", "a", "f", "0\r", "/", ":", "1/", "1:", "\xb2", "\xff",
};
#define NUMBERS (sizeof numbers / sizeof *numbers)

/* Cuts bytes out of the text and puts others there; does nothing where there is no room for them. */
static inline void splice(size_t at, size_t cut, const uint8_t *bytes, size_t n)
{
    if (len - cut + n > TEXT)
        return;
    if (n > cut)
        for (size_t i = len; i > at + cut; i--)
            text[i - 1 + n - cut] = text[i - 1];
    else
        for (size_t i = at + cut; i < len; i++)
            text[i + n - cut] = text[i];
    for (size_t i = 0; i < n; i++)
        text[at + i] = bytes[i];
    len = len - cut + n;
}

static inline void drop(size_t at, size_t n) { splice(at, n, text, 0); }
static inline void add(size_t at, uint8_t byte) { splice(at, 0, &byte, 1); }

/* As k counts up: every byte in the place of every byte of the text, and between any two. */
static inline void stray_byte(uint64_t k)
{
    size_t at = k / 512;
    if (k / 256 % 2)
        add(at < len ? at : len, (uint8_t)k);
    else if (at < len)
        text[at] = (uint8_t)k;
}

static inline uint8_t odd_byte(void)
{
    static const char bytes[] = "\t\n\r 0123456789ABCDEGLMNOPRSTWY_adehlnoprty+-\377";
    return (uint8_t)(below(4) ? bytes[below(sizeof bytes)] : (char)below(256));
}

/* Names that are none, made from one that is. */
#define SPELLINGS 20
static inline void put_name(uint64_t spelling, const char *name)
{
    size_t from = len;
    put_bytes(name);
    switch (spelling) {
    case 0: break;
    case 1: text[from] ^= 0x20; break;
    case 2:
        for (size_t i = from; i < len; i++)
            text[i] ^= 0x20;
        break;
    case 3: len--; break;
    case 4: drop(from, 1); break;
    case 5: len = from; break;
    case 6: len = from + 1; break;
    case 7: put_bytes("S"); break;
    case 8: put_bytes(name); break;
    case 9: put_bytes("_"), put_bytes(name); break;
    case 10: put_bytes("\r"); break;
    case 11: put_bytes(" "); break;
    case 12: add(from, ' '); break;
    case 13: add(len, 0); break;
    case 14: add(len, 255); break;
    case 15: len = from, put_bytes("BAD"); break;
    case 16: len = from, put_bytes("bad"); break;
    case 17: put_decimal(below(20)); break;
    case 18: text[from + below(len - from)] = odd_byte(); break;
    default: text[len - 1] ^= 1; break;
    }
}

static inline int is_mark(uint8_t byte) { return byte == '\t' || byte == '\n'; }

/* The first tab or line feed from a place on; the text's end where there is none. */
static inline size_t mark_from(size_t at)
{
    while (at < len && !is_mark(text[at]))
        at++;
    return at;
}

/* Where a line starts, and where the next one does. */
static inline size_t line_from(size_t at)
{
    while (at > 0 && text[at - 1] != '\n')
        at--;
    return at;
}

static inline size_t line_to(size_t at)
{
    while (at < len && text[at] != '\n')
        at++;
    return at < len ? at + 1 : len;
}

/* A line, copied or moved to the start of another. */
static inline void carry(size_t at, int move)
{
    size_t from = line_from(at), to = line_to(at), n = to - from, other;
    for (size_t i = 0; i < n; i++)
        kept[i] = text[from + i];
    if (move)
        drop(from, n);
    other = line_from(below(len + 1));
    splice(move ? other : from, 0, kept, n);
}

/* What stands between a mark and the next, replaced by a number. */
static inline void renumber(size_t mark)
{
    uint8_t digits[24];
    size_t end = mark_from(mark + 1), n = put_number(digits, edge(below(EDGES), 1 + (int)below(32)));
    if (mark < len)
        splice(mark + 1, end - mark - 1, digits, n);
}

/* One damage, mostly from a place on. */
static inline void damage(size_t from)
{
    if (len == 0)
        return;
    size_t at = below(8) && len > from ? from + below(len - from) : below(len), mark = mark_from(at), last = mark < len ? mark : len - 1;
    switch (below(17)) {
    case 0: drop(at, 1); break;
    case 1: add(at + below(2), odd_byte()); break;
    case 2: text[at] = odd_byte(); break;
    case 3: text[at] ^= 0x20; break;
    case 4: carry(at, 1); break;
    case 5: carry(at, 0); break;
    case 6: drop(line_from(at), line_to(at) - line_from(at)); break;
    case 7: splice(mark, 0, (const uint8_t *)"\t0", 2); break;
    case 8: splice(mark, 0, (const uint8_t *)"\t", 1); break;
    case 9: drop(last, mark_from(last + 1) - last); break;
    case 10: drop(last, 1); break;
    case 11: add(last, text[last]); break;
    case 12: add(last, '\r'); break;
    case 13: add(last + 1, '0'); break;
    case 14: renumber(mark); break;
    case 15: len = at; break;
    default: len--; break;
    }
}

/* Nothing behind the text may be read: what stands there would mend many a text. */
static inline void tempt(void)
{
    static const char bytes[] = "\n\t0915Nend";
    for (int i = 0; i < BEHIND; i++)
        text[len + (size_t)i] = (uint8_t)bytes[below(sizeof bytes - 1)];
}

/* Rooms around n words: none, one short, just enough, any, and mostly more than enough. */
static inline size_t room_around(size_t n)
{
    switch (below(8)) {
    case 0: return 0;
    case 1: return n ? n - 1 : 0;
    case 2: return n;
    case 3: return below(n + 1);
    default: return n + below(6);
    }
}

/* The text, where it is short. */
static inline void show_text(void)
{
    if (len > SHORT)
        return;
    printf("  text: ");
    for (size_t i = 0; i < len; i++)
        printf("%02x", text[i]);
    printf("%s\n", len ? "" : "-");
}

#endif
