/* What the texts of document 02 are made of: bytes, names, and numbers in plain decimal as number 61 of request 1 has them.
   Each function reads from a place on and gives back the place behind what it read, or NULL where that does not stand there. */
#ifndef SECOND_TEXT_H
#define SECOND_TEXT_H

#include <stddef.h>
#include <stdint.h>

static inline const uint8_t *byte(const uint8_t *at, const uint8_t *end, uint8_t wanted)
{
    return at < end && *at == wanted ? at + 1 : NULL;
}

static inline const uint8_t *letters(const uint8_t *at, const uint8_t *end, const char *wanted)
{
    for (; at && *wanted; wanted++)
        at = byte(at, end, (uint8_t)*wanted);
    return at;
}

/* A number below 2^64 in plain decimal: as many digits as stand there, at least one, and no zero before others. */
static inline const uint8_t *decimal(const uint8_t *at, const uint8_t *end, uint64_t *value)
{
    const uint8_t *first = at;
    uint64_t v = 0;
    for (; at < end && *at >= '0' && *at <= '9'; at++) {
        uint64_t digit = (uint64_t)(*at - '0');
        if (v > (~UINT64_C(0) - digit) / 10)
            return NULL;
        v = v * 10 + digit;
    }
    if (at == first || (*first == '0' && at - first > 1))
        return NULL;
    *value = v;
    return at;
}

static inline const uint8_t *tabbed(const uint8_t *at, const uint8_t *end, uint64_t *value)
{
    at = byte(at, end, '\t');
    return at ? decimal(at, end, value) : NULL;
}

#endif
