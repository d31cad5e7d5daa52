/* The C interface of Oatneedle: what the archive libaps2_c.a holds.
   No function keeps anything, allocates, or reads past what it is lent; every input gets an answer.
   The buffers of one call must not overlap, and no pointer may be null, also where its length is 0 (any other will do then). A call needs
   room on the stack: aps2_to_addresses 4,354 KiB, aps2_to_labels 1,602 KiB, aps2_check 321 KiB, aps2_listing 169 KiB, aps2_block 5 KiB,
   aps2_step and aps2_go_on 3 KiB, the others 1 KiB. */
#ifndef APS2_H
#define APS2_H

#include <stddef.h>
#include <stdint.h>

#ifdef __cplusplus
extern "C" {
#endif

/* The eight fields of an instruction: op code (0 to 12, 15 for NOOP), engine select, write flag, then the
   fields of its row of the instruction set's table, left to right (RETURN and LOAD_CMP: the payload; WAIT and
   SYNC: none), and zeros after. All functions but the listing return a number of docs/NUMBERS.md; 0 is good.
   A bit of a word that is set and that its op code does not name is 111 (header bit 57), 112 (a payload bit above the highest field) or
   113 (one between fields or below them). The highest such bit is told beside these numbers, and may be bit 0; beside all others, and
   beside 0, the bit is 0.
   firmware: that of the modules, 0 for the current kind and anything else for the older (2.5 to 2.33), which takes 20 bits of a marker
   count. A MARKER play with more is 24 for the older kind, tested after the other form numbers; nothing else differs between the two. */

/* Reads a word. Returns 0 and sets the fields, or returns the form number, 10, 111 to 113, 12 to 19 or 24, and sets them to zero. bit: the
   bit beside the number. */
uint64_t aps2_read(uint64_t word, uint64_t firmware, uint64_t fields[8], uint64_t bit[1]);

/* Writes an instruction. Returns 0 and sets the word, or returns 23, 10, 13 to 19 or 24 and sets it to zero: 10 for a
   code that is none, 23, tested first, for a field too wide or anything but zero past the fields that its name has. */
uint64_t aps2_write(const uint64_t fields[8], uint64_t firmware, uint64_t word[1]);

/* Checks a sequence: n words, a waveform memory of `wave` quad-samples. Returns 0 at place 0 where it is accepted, 1 to 4 at
   place 0 for refused input, a word's number, 10, 111 to 113, 12 to 22 or 24, at its address, or the fault of flow with the lowest
   address, 30 to 32. place: 0 the place, 1 the bit beside the number.
   The marks, at least n, are written once all words pass: bit 2d + c of mark a says that address a is reached at depth d, with
   a condition held (c is 1) or not. What is past n is left as it was. */
uint64_t aps2_check(const uint64_t *words, size_t n, uint64_t wave, uint64_t firmware, uint64_t *marks, size_t marks_len,
                    uint64_t place[2]);

/* Runs a sequence without a module: n words, a waveform memory of `wave` quad-samples, messages, triggers, room for trace_len
   dispatched words, at most `budget` steps. Returns how it ended: 1, 2, 3 or 5 for refused input (zeros beside it, the trace
   untouched), a number of the word it stopped at, 10, 111 to 113, 12 to 22 or 24, a fault, 30 to 32, or 40 to 43. The trace then starts
   with what was dispatched, and the rest of it is untouched. answer: 0 end, 1 address, 2 steps, 3 messages used, 4 trace length,
   5-10 wait counts and 11-16 totals in quad-samples (waveform, markers 0 to 3, modulator; a play adds its count, and one more for
   the transition word where it is a marker's), 17 repeat counter, 18 register, 19 condition (0 none, 1 false, 2 true), 20 held,
   21 depth, 22-37 stack addresses, 38-53 stack counters, 54 the bit beside the end. */
uint64_t aps2_run(const uint64_t *words, size_t n, uint64_t wave, uint64_t firmware, const uint8_t *messages, size_t messages_len,
                  uint32_t triggers, uint64_t *trace, size_t trace_len, uint64_t budget, uint64_t answer[55]);

/* Pause and go on: a run in several calls, whose state the host holds and each call updates there. aps2_step does at most one step and returns
   0 if it did; aps2_go_on does steps until one stops or the budget is spent. Otherwise both return how the run ended, with the numbers of
   aps2_run from 10 on; after a fault the next call tells it again. Messages come as the whole list so far, the earlier ones unchanged, triggers
   and budget as totals so far. With the same words, wave, firmware and trace, a run in several calls from the fresh state, the last an
   aps2_go_on that is not refused, ends as one aps2_run with the last call's budget, messages and triggers.
   state, all zeros being the fresh one: 0 address, 1 steps, 2 messages used, 3 trace length, 4-9 wait counts, 10-15 totals, 16 repeat counter,
   17 register, 18 condition (0 none, 1 false, 2 true), 19 held, 20 depth, 21-36 stack addresses, 37-52 stack counters, 53 last time's budget,
   54 last time's triggers. "Last time" is the last call that was not refused, also where it did no step. bit: the bit beside the number.
   A refusal leaves state and trace as they were: 1, 2, 3 or 5 as in aps2_run, then 70 for a state that no run could leave, then 71 for fewer
   triggers or less budget than last time. 70 judges these fields: address at most n; depth at most 16, stack addresses at most n, unused entries
   zero; held at most 7 and at most the steps, and as many low engine words right below the address that pass form and 20; messages used at most
   messages_len; trace length at most trace_len; steps at most last time's budget; wait counts at most steps less held, totals at most 2^32
   times that; condition at most 2. A register above 255 or a counter above 65,535 is used as the number it is. */
uint64_t aps2_step(const uint64_t *words, size_t n, uint64_t wave, uint64_t firmware, const uint8_t *messages, size_t messages_len,
                   uint32_t triggers, uint64_t *trace, size_t trace_len, uint64_t budget, uint64_t state[55], uint64_t bit[1]);
uint64_t aps2_go_on(const uint64_t *words, size_t n, uint64_t wave, uint64_t firmware, const uint8_t *messages, size_t messages_len,
                    uint32_t triggers, uint64_t *trace, size_t trace_len, uint64_t budget, uint64_t state[55], uint64_t bit[1]);

/* Lists raw words, eight bytes each, most significant first, at most 2,048: a header line, then a line for each word, parted by tabs
   and ended by line feeds. A word refused with 111 to 113 is listed as `BAD`, 11, that number and the bit, one refused with another as
   `BAD` and the number. Bytes that are no whole number of words, or too many, give one line, `refused` and 8 or 9. Returns the
   listing's length, and writes it to `out` where it fits; where it does not, nothing is written. */
size_t aps2_listing(const uint8_t *bytes, size_t len, uint64_t firmware, uint8_t *out, size_t out_len);

/* Reads a listing back as words, as many as there is room for. Returns 0 and starts `words` with them, or returns the number of the first
   bad line, 60 to 64 or the writer's 23, 13 to 19 or 24, and leaves `words` as it was; what is past the words read is always left. told: 0
   the line, from 1, and 0 beside 0; 1 how many words, and 0 after a refusal. RETURN and LOAD_CMP come back with payload zero. */
uint64_t aps2_read_listing(const uint8_t *text, size_t len, uint64_t firmware, uint64_t *words, size_t words_len, uint64_t told[2]);

/* Makes a sequence of a block: a text of lines, each ended by a line feed, their fields parted by tabs. `play` address count is a plain play,
   `hold` address count one with T/A, `repeat` N and `end` stand around lines that are done N times, 1 to 65,536, at most 16 deep. The
   sequence starts with SYNC, is accepted by aps2_check for the same `wave`, and parks on a GOTO to itself. Returns 0 and starts `words` with
   it, or returns 3, the number of the first bad line, 50 to 53 or the writer's 23 or 16 or 20, or 54 (more than 65,536 words) or 55 (no
   room), and leaves `words` as it was; what is past the sequence is always left. told: 0 the line, from 1, that of a `repeat` without `end`
   being the one after the last, and 0 beside 0, 3, 54 and 55; 1 how many words, and 0 after a refusal. */
uint64_t aps2_block(const uint8_t *text, size_t len, uint64_t wave, uint64_t *words, size_t words_len, uint64_t told[2]);

/* Moves a listing of edition 1, whose jumps (REPEAT, GOTO and CALL) name an address, to edition 2, where they name a label. A line of edition
   2 has no address; a line `label` and a name stands before the line of the word that is meant. Each target is named `L` and its address;
   PREFETCH keeps its number. Returns 0 and starts `out` with the listing, or returns the number of the first bad line, 60 to 63 or 21, for a
   target that is not below the number of lines behind the header, or last of all 64 (no room), and leaves `out` as it was; what is past the
   listing is always left. What the fields ask for is not judged. told: 0 the line, from 1, and 0 beside 0 and 64; 1 how many bytes, and 0
   after a refusal. */
uint64_t aps2_to_labels(const uint8_t *text, size_t len, uint8_t *out, size_t out_len, uint64_t told[2]);

/* Moves a listing of edition 2 to edition 1. Its labels have 1 to 16 letters or digits (ASCII; case matters), and may be defined before the
   jump or behind it, several for one word, or for no jump at all. The answer is as above, with these numbers of a line: 60, 61 (also a label
   line or a jump that is not well-shaped), 63, 65 (the label was defined before), 66 (no word follows the label) or 67 (no line of the text
   defines the label). What aps2_to_labels wrote comes back as it was. */
uint64_t aps2_to_addresses(const uint8_t *text, size_t len, uint8_t *out, size_t out_len, uint64_t told[2]);

#ifdef __cplusplus
}
#endif

#endif
