/* The listing: document 01, "The listing program", and document 02, requests 2 and 3. It is laid out on a page that has room for the longest
   one, and copied where it fits. */
#include "names.h"
#include "put.h"

enum { WORDS = 2048, LINE = 64, PAGE = LINE * (WORDS + 1) };

static inline uint8_t *tabbed(uint8_t *to, uint64_t v)
{
    *to++ = '\t';
    return put_decimal(to, v);
}

static uint8_t *line(uint8_t *to, uint64_t address, uint64_t word, uint64_t firmware)
{
    uint64_t f[8], bit[1], refused = second_read(word, firmware, f, bit);
    to = put_decimal(to, address);
    *to++ = '\t';
    if (refused >= 111) {
        to = tabbed(tabbed(tabbed(put_letters(to, "BAD"), UNNAMED), refused), bit[0]);
    } else if (refused) {
        to = tabbed(put_letters(to, "BAD"), refused);
    } else {
        to = put_letters(to, names[f[0]]);
        if (f[0] != NOOP)
            to = tabbed(tabbed(to, f[1]), f[2]);
        for (int i = 0; i < shown[f[0]]; i++)
            to = tabbed(to, f[3 + i]);
    }
    *to++ = '\n';
    return to;
}

static uint8_t *pair(uint8_t *to, const char *name, uint64_t v)
{
    to = tabbed(put_letters(to, name), v);
    *to++ = '\n';
    return to;
}

static uint64_t word_at(const uint8_t *b)
{
    uint64_t word = 0;
    for (int i = 0; i < 8; i++)
        word = word << 8 | b[i];
    return word;
}

size_t second_listing(const uint8_t *bytes, size_t len, uint64_t firmware, uint8_t *out, size_t out_len)
{
    uint8_t page[PAGE], *to = page;
    if (len % 8) {
        to = pair(to, "refused", 8);
    } else if (len / 8 > WORDS) {
        to = pair(to, "refused", 9);
    } else {
        to = pair(to, "aps2-listing", 1);
        for (size_t a = 0; a < len / 8; a++)
            to = line(to, a, word_at(bytes + 8 * a), firmware);
    }
    size_t n = (size_t)(to - page);
    for (size_t i = 0; n <= out_len && i < n; i++)
        out[i] = page[i];
    return n;
}
