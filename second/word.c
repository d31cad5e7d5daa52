/* Reading and writing one word: document 01, "The word" and the form numbers, and document 02, requests 2 and 3. */
#include "word.h"

/* The table: how many fields a row has, and each field's high and low bit. WAIT and SYNC have their op as row,
   RETURN and LOAD_CMP the payload that the module ignores. */
struct row {
    int count;
    struct { int hi, lo; } field[4];
};

static const struct row table[13] = {
    [WAVEFORM] = { 4, { { 47, 46 }, { 45, 45 }, { 44, 24 }, { 23, 0 } } },
    [MARKER] = { 4, { { 47, 46 }, { 36, 33 }, { 32, 32 }, { 31, 0 } } },
    [WAIT] = { 1, { { 47, 46 } } },
    [LOAD_REPEAT] = { 1, { { 15, 0 } } },
    [REPEAT] = { 1, { { 25, 0 } } },
    [CMP] = { 2, { { 9, 8 }, { 7, 0 } } },
    [GOTO] = { 1, { { 25, 0 } } },
    [CALL] = { 1, { { 25, 0 } } },
    [RETURN] = { 1, { { 55, 0 } } },
    [SYNC] = { 1, { { 47, 46 } } },
    [MODULATOR] = { 3, { { 47, 45 }, { 43, 40 }, { 31, 0 } } },
    [LOAD_CMP] = { 1, { { 55, 0 } } },
    [PREFETCH] = { 1, { { 25, 0 } } },
};

static void clear(uint64_t fields[8])
{
    for (int i = 0; i < 8; i++)
        fields[i] = 0;
}

uint64_t second_read(uint64_t word, uint64_t firmware, uint64_t fields[8], uint64_t bit[1])
{
    clear(fields);
    bit[0] = 0;
    if (word == ~UINT64_C(0)) {
        fields[0] = NOOP;
        return 0;
    }
    uint64_t number = take_apart(word, firmware, fields + 3);
    if (number) {
        clear(fields);
        return finer(number, &word, bit);
    }
    fields[0] = GET(word, 63, 60);
    fields[1] = GET(word, 59, 58);
    fields[2] = GET(word, 56, 56);
    return 0;
}

/* 13 to 19, 24, or 0, of an instruction asked for; f is the row's fields. */
static uint64_t form(uint64_t code, uint64_t write, const uint64_t *f, uint64_t firmware)
{
    switch (code) {
    case WAVEFORM:
        return waveform_form(f[0], f[1], f[2], f[3]);
    case MARKER:
        return marker_form(f[0], f[1], f[2], f[3], firmware);
    case WAIT:
    case SYNC:
        return write ? 0 : 13;
    case MODULATOR:
        return modulator_form(f[0], f[1], f[2]);
    case PREFETCH:
        return f[0] % 128 ? 17 : 0;
    default:
        return 0;
    }
}

/* Every number asked for fits where it would go; where nothing goes, only 0 fits. */
static int fits(const uint64_t fields[8])
{
    uint64_t code = fields[0];
    int count = code > PREFETCH || code == WAIT || code == SYNC || code == RETURN || code == LOAD_CMP ? 0 : table[code].count;
    if (fields[1] > (code == NOOP ? 0 : 3) || fields[2] > (code == NOOP ? 0 : 1))
        return 0;
    for (int i = 0; i < 5; i++)
        if (fields[3 + i] > (i < count ? ONES(table[code].field[i].hi, table[code].field[i].lo) : 0))
            return 0;
    return 1;
}

uint64_t second_write(const uint64_t fields[8], uint64_t firmware, uint64_t word[1])
{
    uint64_t code = fields[0];
    word[0] = 0;
    if (!fits(fields))
        return 23;
    if (code == NOOP) {
        word[0] = ~UINT64_C(0);
        return 0;
    }
    if (code > PREFETCH)
        return 10;
    uint64_t number = form(code, fields[2], fields + 3, firmware);
    if (number)
        return number;
    word[0] = code << 60 | fields[1] << 58 | fields[2] << 56;
    if (code == WAIT || code == SYNC)
        word[0] |= (code == WAIT ? UINT64_C(1) : UINT64_C(2)) << 46;
    else
        for (int i = 0; i < table[code].count; i++)
            word[0] |= fields[3 + i] << table[code].field[i].lo;
    return 0;
}
