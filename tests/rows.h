/* Listings to read back: lines of every name with any fields. What is good is so for the firmware of the case. */
#ifndef ROWS_H
#define ROWS_H

#include "texts.h"

/* The names, and the width of each field that a line with the name shows. */
struct row {
    const char *name;
    uint64_t code;
    int count, width[6];
};
static const struct row rows[] = {
    { "WAVEFORM", 0, 6, { 2, 1, 2, 1, 21, 24 } }, { "MARKER", 1, 6, { 2, 1, 2, 4, 1, 32 } }, { "WAIT", 2, 2, { 2, 1 } },
    { "LOAD_REPEAT", 3, 3, { 2, 1, 16 } }, { "REPEAT", 4, 3, { 2, 1, 26 } }, { "CMP", 5, 4, { 2, 1, 2, 8 } }, { "GOTO", 6, 3, { 2, 1, 26 } },
    { "CALL", 7, 3, { 2, 1, 26 } }, { "RETURN", 8, 2, { 2, 1 } }, { "SYNC", 9, 2, { 2, 1 } }, { "MODULATOR", 10, 5, { 2, 1, 3, 4, 32 } },
    { "LOAD_CMP", 11, 2, { 2, 1 } }, { "PREFETCH", 12, 3, { 2, 1, 26 } }, { "NOOP", 15, 0, { 0 } },
};
#define ROWS (sizeof rows / sizeof *rows)

static inline const struct row *any_row(void) { return &rows[below(ROWS)]; }

/* Fields of a row, mostly within their widths. */
static inline void any_fields(const struct row *row, uint64_t f[6])
{
    for (int i = 0; i < row->count; i++) {
        f[i] = below(3) ? edge(below(EDGES), row->width[i]) : below(3);
        if (below(20))
            f[i] &= top(row->width[i]);
    }
}

/* The writer's number for fields of a row; the word beside it. */
static inline uint64_t written(const struct row *row, const uint64_t f[6], uint64_t word[1])
{
    uint64_t fields[8] = { row->code };
    for (int i = 0; i < row->count; i++)
        fields[1 + i] = f[i];
    return second_write(fields, firmware, word);
}

/* Fields of a row that are an instruction; its word. */
static inline uint64_t good_fields(const struct row *row, uint64_t f[6])
{
    uint64_t word[1];
    do
        any_fields(row, f);
    while (written(row, f, word));
    return word[0];
}

/* A word that passes form. RETURN and LOAD_CMP have any payload. */
static inline uint64_t good_word(void)
{
    const struct row *row = any_row();
    uint64_t f[6], word = good_fields(row, f);
    return (row->code == 8 || row->code == 11) && below(2) ? word | random64() >> 8 : word;
}

/* Any word: one in twelve has a bit damaged, and mostly fails form. */
static inline uint64_t any_listed(void) { return below(12) ? good_word() : good_word() ^ UINT64_C(1) << below(64); }

static inline void put_fields(const uint64_t *f, int count)
{
    for (int i = 0; i < count; i++)
        put_bytes("\t"), put_decimal(f[i]);
}

/* A name spelt so, and behind it the fields of the name (0), a single one (1) or none (2). */
static inline void put_spelt(uint64_t spelling, const struct row *row, const uint64_t *f, uint64_t fields)
{
    put_name(spelling, row->name);
    if (fields == 1)
        put_bytes("\t"), put_decimal(10 + below(10));
    else
        put_fields(f, fields ? 0 : row->count);
}

static inline void put_row(uint64_t address, const struct row *row, const uint64_t f[6])
{
    put_decimal(address);
    put_bytes("\t");
    put_bytes(row->name);
    put_fields(f, row->count);
    put_bytes("\n");
}

static inline void put_word(uint64_t address, uint64_t word) { len += put_line(text + len, address, word, firmware); }

/* The header line of an edition. */
static inline void start_edition(uint8_t edition)
{
    len = put_header(text);
    text[HEADER - 2] = (uint8_t)('0' + edition);
}

/* Headers that are almost right for edition 1; those of edition 2 have 2 for 1. */
static const char *const headers[] = {
    "\n", "aps2-listing\t2\n", "aps2-listing\t10\n", "aps2-listing\t01\n", "aps2-listing\t\n", "aps2-listing\n", "aps2-listing\t1\t\n",
    "aps2-listing\t1\t1\n", "aps2-listing 1\n", "aps2-listing\t1\r\n", "aps2-listing\t1 \n", " aps2-listing\t1\n", "\taps2-listing\t1\n",
    "\naps2-listing\t1\n", "APS2-LISTING\t1\n", "Aps2-listing\t1\n", "aps2_listing\t1\n", "aps2listing\t1\n", "aps-listing\t1\n", "aps2-listings\t1\n",
    "aps2-listing\t\t1\n", "aps2-listing\t1\n\n", "aps2-listing\t1\naps2-listing\t1\n", "refused\t8\n", "refused\t9\n", "\357\273\277aps2-listing\t1\n",
    "aps2-listing\t3\n", "aps2-listing\t0\n",
};
#define HEADERS (sizeof headers / sizeof *headers)

/* As k counts up: these, and every start of the header line. */
#define ODD_HEADERS (HEADERS + HEADER + 1)
static inline void put_odd_header(uint64_t k, uint8_t edition)
{
    len = 0;
    if (k < HEADERS) {
        put_bytes(headers[k]);
        for (size_t i = 1; i < len && edition == 2; i++)
            text[i] = text[i] == '1' ? '2' : text[i] == '2' && text[i - 1] == '\t' ? '1' : text[i];
    } else {
        start_edition(edition);
        len = k - HEADERS;
    }
}

/* The header and n lines that are good. */
static inline void start_text(size_t n)
{
    len = put_header(text);
    for (size_t a = 0; a < n; a++)
        put_word(a, good_word());
}

#endif
