/* The parts of a reply word: a start bit, and four symbols of five bits for four nibbles. */
#ifndef SYMBOLS_H
#define SYMBOLS_H

#include <stdint.h>

enum { SYMBOLS = 4, CHECKSUM_SYMBOL = 3, NO_NIBBLE = 16 };

/* Symbol n of a word, the first sent is symbol 0. */
unsigned symbol_at(uint32_t word, unsigned n);

/* The nibble of a symbol, or NO_NIBBLE. */
unsigned nibble_of(unsigned symbol);

/* Nibble n of a word, or NO_NIBBLE. */
unsigned nibble_at(uint32_t word, unsigned n);

/* The checksum that the first three nibbles of a word need. They must all be nibbles. */
unsigned needed_checksum(uint32_t word);

#endif
