/* What a line of the listing shows: an op code's name, and how many fields of its row. */
#ifndef SECOND_NAMES_H
#define SECOND_NAMES_H

#include "word.h"

static const char *const names[16] = {
    "WAVEFORM", "MARKER", "WAIT", "LOAD_REPEAT", "REPEAT", "CMP", "GOTO", "CALL", "RETURN", "SYNC", "MODULATOR", "LOAD_CMP", "PREFETCH",
    "", "", "NOOP",
};
static const uint8_t shown[16] = { 4, 4, 0, 1, 1, 2, 1, 1, 0, 0, 3, 0, 1 };

#endif
