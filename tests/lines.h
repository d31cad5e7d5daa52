/* Lines of a listing at any address, for listings that have more words than the listing program takes: what the second program lists of
   the word alone, with another address. A listing made so is no listing program's, but it is one that can be read back. */
#ifndef LINES_H
#define LINES_H

#include "../second/second.h"

enum { HEADER = 15, LINE = 64 };

/* A number in decimal; tells how many digits. */
static inline size_t put_number(uint8_t *to, uint64_t v)
{
    size_t n = v < 10 ? 0 : put_number(to, v / 10);
    to[n] = (uint8_t)('0' + v % 10);
    return n + 1;
}

/* The header line; tells its length. */
static inline size_t put_header(uint8_t *to) { return second_listing(to, 0, 0, to, HEADER); }

/* The line of a word for a firmware; tells its length, at most LINE. */
static inline size_t put_line(uint8_t *to, uint64_t address, uint64_t word, uint64_t firmware)
{
    uint8_t bytes[8], alone[HEADER + LINE];
    for (int i = 0; i < 8; i++)
        bytes[i] = (uint8_t)(word >> (56 - 8 * i));
    size_t n = put_number(to, address), len = second_listing(bytes, 8, firmware, alone, sizeof alone);
    for (size_t i = HEADER + 1; i < len; i++) /* behind the header and the address 0 */
        to[n++] = alone[i];
    return n;
}

#endif
