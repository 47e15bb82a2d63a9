/* Where the bits of a reply lie among the samples of a capture. */
#ifndef LAYOUT_H
#define LAYOUT_H

#include <stdbool.h>
#include <stddef.h>
#include <stdint.h>

#include "capture.h"

enum { REPLY_BITS = 21, SAMPLES_PER_BIT = 3, LEAST_BITS = 18, MOST_BITS = 64 };

struct bit {
    unsigned set;
    size_t from; /* its first sample */
    size_t to;   /* the sample after its last */
};

struct layout {
    bool started; /* a start edge was found, at `start` */
    size_t start;
    unsigned count;
    struct bit bits[MOST_BITS];
    bool overlong; /* the last run is more than the reply has left */
};

/* Counts the bits. The program compares them with the library's word before it shows them. */
void lay_out(const struct capture *capture, struct layout *layout);

/* Whether the bits are what the library read or refused. */
bool agrees(const struct layout *layout, const struct reply *reply);

/* What is wrong with symbol n, in a few words, or NULL if nothing is. The text has DAMAGE_BYTES. */
enum { DAMAGE_BYTES = 16 };
const char *damage_of(const struct reply *reply, unsigned n, char *text);

/* Breaks a text at spaces. `length` is that of its first line, at most `width`. Returns the text after that line. */
const char *next_line(const char *text, size_t width, size_t *length);

#endif
