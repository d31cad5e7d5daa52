/* Families of cases. A case is made from its number and a seed, so that one that disagrees can be run again by itself. */
#ifndef CASES_H
#define CASES_H

#include "firmware.h"

struct cases {
    const char *name;
    uint64_t count;
    void (*try_case)(uint64_t k);
};

/* Which case this is. */
static uint64_t this_family, this_case, this_seed;

/* How it is run again. */
static inline void show_number(const char *program)
{
    printf("  case: %s %llu %llu %llu\n", program, (unsigned long long)this_family, (unsigned long long)this_case, (unsigned long long)this_seed);
}

static inline void try_one(const struct cases *families, uint64_t which, uint64_t k)
{
    this_family = which;
    this_case = k;
    this_seed = seed;
    firmware = any_firmware();
    families[which].try_case(k);
}

static inline uint64_t argument(const char *s)
{
    uint64_t n = 0;
    while (*s)
        n = n * 10 + (uint64_t)(*s++ - '0');
    return n;
}

/* Every case of every family, or the one that is asked for by family, number and seed; tells whether it was every case. */
static inline int try_families(const struct cases *families, uint64_t n, int count, char **arguments)
{
    if (count == 4 && argument(arguments[1]) < n) {
        seed = argument(arguments[3]);
        try_one(families, argument(arguments[1]), argument(arguments[2]));
        family(families[this_family].name);
        return 0;
    }
    for (uint64_t which = 0; which < n; which++) {
        for (uint64_t k = 0; k < families[which].count; k++)
            try_one(families, which, k);
        family(families[which].name);
    }
    return 1;
}

#endif
