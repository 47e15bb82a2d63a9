/* The samples of a word on the line, and edges that come a little early or late. */
#ifndef SAMPLES_H
#define SAMPLES_H

#include <stddef.h>
#include <stdint.h>

/* High: the mask. Low: 0. */
void fill_high(uint16_t *samples, size_t count, uint16_t mask);

/* A lead of high samples, then three samples for each of the word's 21 bits, highest first: a 1 is an edge. The
 * line is high after them. */
void fill_word(uint16_t *samples, size_t count, uint32_t word, size_t lead, uint16_t mask);

/* Moves each edge by at most one sample. The moves of two neighbours differ by at most one. So a run of k bits keeps
 * 3k - 1 to 3k + 1 samples, and the capture renders the same word. */
void jitter(uint16_t *samples, size_t count, uint32_t seed);

#endif
