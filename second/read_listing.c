/* The listing read back: document 02, requests 1 and 3. All lines are judged before the first word is written. */
#include "lines.h"

/* The line at *start: its word, and *start moved behind it, or the number that refuses it; whether there is room is not asked here. */
static uint64_t line(const uint8_t **start, const uint8_t *end, uint64_t address, uint64_t firmware, uint64_t word[1])
{
    struct line l = { NULL, NONE, { 0 } };
    uint64_t number = read_line(start, end, address, &l);
    return number ? number : second_write(l.f, firmware, word);
}

uint64_t second_read_listing(const uint8_t *text, size_t len, uint64_t firmware, uint64_t *words, size_t words_len, uint64_t told[2])
{
    const uint8_t *end = text + len, *first = letters(text, end, "aps2-listing\t1\n"), *at;
    uint64_t word[1], number = 0;
    size_t n = 0;
    told[0] = 1;
    told[1] = 0;
    if (!first)
        return 60;
    for (at = first; at < end; n++) {
        number = line(&at, end, n, firmware, word);
        if (!number && n == words_len)
            number = 64;
        if (number) {
            told[0] = n + 2;
            return number;
        }
    }
    at = first;
    for (size_t a = 0; a < n; a++)
        line(&at, end, a, firmware, &words[a]);
    told[0] = 0;
    told[1] = n;
    return 0;
}
