/* What the comparisons share: random numbers from a printed seed, a count of what was compared, and what was met.
   A family that agrees prints `ok`, its name and its count; the first case that does not is printed with `FAIL`. */
#ifndef CHECK_H
#define CHECK_H

#include <stdint.h>
#include <stdio.h>

static uint64_t seed = UINT64_C(20261115);

static inline uint64_t random64(void)
{
    seed += UINT64_C(0x9E3779B97F4A7C15);
    uint64_t z = seed;
    z = (z ^ z >> 30) * UINT64_C(0xBF58476D1CE4E5B9);
    z = (z ^ z >> 27) * UINT64_C(0x94D049BB133111EB);
    return z ^ z >> 31;
}

static inline uint64_t below(uint64_t n) { return random64() % n; }

static uint64_t compared;
static int failed;

/* How often each number was given, in this family and ever, so that none passes by never meeting one; what is no number counts as the
   last. And how often each bit was told in this family, by op code. */
enum { MET = 115 };
static uint64_t met[MET], ever[MET], told_bits[16][64];

static inline void meet(uint64_t number)
{
    number = number < MET ? number : MET - 1;
    met[number]++;
    ever[number]++;
}

static inline void forget(void)
{
    for (int n = 0; n < MET; n++)
        met[n] = 0;
    for (int i = 0; i < 16 * 64; i++)
        told_bits[i / 64][i % 64] = 0;
}

/* Ends a family: one line. One that compared nothing has not agreed. */
static inline void family(const char *name)
{
    if (compared == 0)
        printf("FAIL %s: nothing was compared\n", name);
    else if (!failed)
        printf("ok %s %llu\n", name, (unsigned long long)compared);
    else
        printf("FAIL %s\n", name);
    compared = 0;
    failed = 0;
    forget();
}

/* Ends the last family: every number that can be given was, and no other. */
static inline void all_met(const char *name, int (*can)(uint64_t number))
{
    for (uint64_t n = 0; n < MET; n++) {
        if ((ever[n] > 0) != can(n))
            failed = 1, printf("  number %llu: %llu times\n", (unsigned long long)n, (unsigned long long)ever[n]);
        compared += (uint64_t)can(n);
    }
    family(name);
}

/* Ends a family, which must have met the numbers that it is there for; the list ends with -1. */
static inline void family_of(const char *name, const int *numbers)
{
    for (; *numbers >= 0; numbers++)
        if (!met[*numbers] && !failed)
            failed = 1, printf("  %d was never met\n", *numbers);
    family(name);
}

#endif
