/* The second program: documents 01 and 02 once more, in C, written from the documents and never from the proved code. All but places.c,
   read_listing.c, block.c, unrolled.c, labels.c, left.c and pause.c was reworked afterwards for the benchmark (docs/DECISIONS.md).
   It is what the proved code is compared with. Names and meanings are those of include/aps2.h. */
#ifndef SECOND_H
#define SECOND_H

#include <stddef.h>
#include <stdint.h>

uint64_t second_read(uint64_t word, uint64_t firmware, uint64_t fields[8], uint64_t bit[1]);
uint64_t second_write(const uint64_t fields[8], uint64_t firmware, uint64_t word[1]);
uint64_t second_check(const uint64_t *words, size_t n, uint64_t wave, uint64_t firmware, uint64_t *marks, size_t marks_len,
                      uint64_t place[2]);

/* Flow alone, of words that pass: the fault with the lowest address and its place, or 0 at 0, and the marks; for small n. */
uint64_t second_places(const uint64_t *words, size_t n, uint64_t *marks, uint64_t place[1]);

uint64_t second_run(const uint64_t *words, size_t n, uint64_t wave, uint64_t firmware, const uint8_t *messages, size_t messages_len,
                    uint32_t triggers, uint64_t *trace, size_t room, uint64_t budget, uint64_t answer[55]);
uint64_t second_step(const uint64_t *words, size_t n, uint64_t wave, uint64_t firmware, const uint8_t *messages, size_t messages_len,
                     uint32_t triggers, uint64_t *trace, size_t room, uint64_t budget, uint64_t state[55], uint64_t bit[1]);
uint64_t second_go_on(const uint64_t *words, size_t n, uint64_t wave, uint64_t firmware, const uint8_t *messages, size_t messages_len,
                      uint32_t triggers, uint64_t *trace, size_t room, uint64_t budget, uint64_t state[55], uint64_t bit[1]);

/* Whether a run of these words could leave the state, by its fields; where not, a call gives 70. */
int second_left(const uint64_t *words, size_t n, uint64_t wave, uint64_t firmware, size_t messages_len, size_t room, const uint64_t state[55]);

size_t second_listing(const uint8_t *bytes, size_t len, uint64_t firmware, uint8_t *out, size_t out_len);
uint64_t second_read_listing(const uint8_t *text, size_t len, uint64_t firmware, uint64_t *words, size_t words_len, uint64_t told[2]);

/* The layout is this program's own: the bodies behind the park, in reading order. */
uint64_t second_block(const uint8_t *text, size_t len, uint64_t wave, uint64_t *words, size_t words_len, uint64_t told[2]);

/* What the block of an accepted text comes to, without its words. told: 0 the steps to the park, 1 how many words are dispatched before it,
   each 2^64 - 1 where it is more; 2 the steps and 3 the dispatched words, which start `trace`, of a run with this budget and room that goes no
   further than the park. */
void second_unrolled(const uint8_t *text, size_t len, uint64_t budget, uint64_t *trace, size_t room, uint64_t told[4]);

uint64_t second_to_labels(const uint8_t *text, size_t len, uint8_t *out, size_t out_len, uint64_t told[2]);
uint64_t second_to_addresses(const uint8_t *text, size_t len, uint8_t *out, size_t out_len, uint64_t told[2]);

#endif
