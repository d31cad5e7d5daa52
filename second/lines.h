/* Lines of a listing read back: the name, its fields, and the numbers 61 to 63 of document 02, request 1. */
#ifndef SECOND_LINES_H
#define SECOND_LINES_H

#include "names.h"
#include "text.h"

enum { NONE = -1 };

static inline int is(const uint8_t *from, const uint8_t *to, const char *name)
{
    while (from < to && *name && *from == (uint8_t)*name)
        from++, name++;
    return from == to && !*name;
}

static inline int one_of(const uint8_t *from, const uint8_t *to, int a, int b)
{
    return is(from, to, names[a]) ? a : is(from, to, names[b]) ? b : NONE;
}

/* The op code with the name that stands between two places. */
static inline int code_of(const uint8_t *from, const uint8_t *to)
{
    switch (from < to ? *from : 0) {
    case 'C':
        return one_of(from, to, CMP, CALL);
    case 'G':
        return one_of(from, to, GOTO, GOTO);
    case 'L':
        return one_of(from, to, LOAD_REPEAT, LOAD_CMP);
    case 'M':
        return one_of(from, to, MARKER, MODULATOR);
    case 'N':
        return one_of(from, to, NOOP, NOOP);
    case 'P':
        return one_of(from, to, PREFETCH, PREFETCH);
    case 'R':
        return one_of(from, to, REPEAT, RETURN);
    case 'S':
        return one_of(from, to, SYNC, SYNC);
    case 'W':
        return one_of(from, to, WAVEFORM, WAIT);
    default:
        return NONE;
    }
}

/* The end of the field that starts at a place, and of the line. */
static inline const uint8_t *field_end(const uint8_t *at, const uint8_t *end)
{
    while (at < end && *at != '\t' && *at != '\n')
        at++;
    return at;
}

static inline const uint8_t *line_end(const uint8_t *at, const uint8_t *end)
{
    while (at < end && *at != '\n')
        at++;
    return at;
}

/* How many fields a name has: engine select and write flag but for NOOP, and those of its row. */
static inline int fields_of(int code) { return code == NOOP ? 0 : 2 + shown[code]; }

/* So many fields, each a number behind a tab. */
static inline const uint8_t *numbers(const uint8_t *at, const uint8_t *end, int count, uint64_t *f)
{
    for (int i = 0; at && i < count; i++)
        at = tabbed(at, end, &f[i]);
    return at;
}

/* A line of edition 1: where its name stands, the op code of the name, and its fields, as the writer has them. */
struct line {
    const uint8_t *name;
    int code;
    uint64_t f[8];
};

/* The line at *start, and *start moved behind it, or the number that refuses it, 61 to 63. */
static inline uint64_t read_line(const uint8_t **start, const uint8_t *end, uint64_t address, struct line *l)
{
    uint64_t found;
    const uint8_t *at = decimal(*start, end, &found);
    if (!at || !(at = byte(at, end, '\t')))
        return 61;
    l->name = at;
    at = field_end(at, end);
    l->code = code_of(l->name, at);
    at = l->code == NONE ? line_end(at, end) : numbers(at, end, fields_of(l->code), &l->f[1]);
    if (!at || !(at = byte(at, end, '\n')))
        return 61;
    if (found != address)
        return 62;
    if (l->code == NONE)
        return 63;
    l->f[0] = (uint64_t)l->code;
    *start = at;
    return 0;
}

#endif
