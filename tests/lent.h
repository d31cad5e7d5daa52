/* What both programs are lent for what they make of a text, and what they told of it. Who includes this says LENT, the longest buffer, UNIT, the
   type of what is lent, and UNIT_NAME, its name. */
#ifndef LENT_H
#define LENT_H

/* What each program makes of the text; `before` is what both buffers held. */
static UNIT ours[LENT + BEHIND], theirs[LENT + BEHIND], before[LENT + BEHIND];

static inline void show_answer(const char *who, uint64_t number, const uint64_t told[2])
{
    printf("  %s: number %llu, line %llu, " UNIT_NAME "s %llu\n", who, (unsigned long long)number, (unsigned long long)told[0],
           (unsigned long long)told[1]);
}

/* Both buffers alike, and told with nothing that an answer would hold. */
static inline void lend(size_t room, uint64_t our_told[2], uint64_t their_told[2])
{
    for (size_t i = 0; i < room + BEHIND; i++)
        ours[i] = theirs[i] = before[i] = (UNIT)random64();
    for (int i = 0; i < 2; i++)
        our_told[i] = random64(), their_told[i] = random64();
}

/* Whether a buffer is from a place on as it was. */
static inline int untouched(const UNIT *lent, size_t from, size_t room)
{
    for (size_t i = from; i < room + BEHIND; i++)
        if (lent[i] != before[i])
            return 0;
    return 1;
}

static inline int same_buffers(size_t room)
{
    for (size_t i = 0; i < room + BEHIND; i++)
        if (ours[i] != theirs[i])
            return 0;
    return 1;
}

/* The first place that differs. */
static inline void show_difference(size_t room)
{
    for (size_t i = 0; i < room + BEHIND; i++)
        if (ours[i] != theirs[i]) {
            printf("  " UNIT_NAME " %llu: %llx, second %llx, before %llx\n", (unsigned long long)i, (unsigned long long)ours[i],
                   (unsigned long long)theirs[i], (unsigned long long)before[i]);
            return;
        }
}

#endif
