/* What listings are written with: each function writes from a place on and gives back the place behind what it wrote. */
#ifndef SECOND_PUT_H
#define SECOND_PUT_H

#include <stddef.h>
#include <stdint.h>

static inline uint8_t *put_letters(uint8_t *to, const char *s)
{
    while (*s)
        *to++ = (uint8_t)*s++;
    return to;
}

static inline uint8_t *put_decimal(uint8_t *to, uint64_t v)
{
    uint8_t digits[20];
    int k = 20;
    while (v >= 10) {
        digits[--k] = (uint8_t)('0' + v % 10);
        v /= 10;
    }
    *to++ = (uint8_t)('0' + v);
    while (k < 20)
        *to++ = digits[k++];
    return to;
}

#endif
