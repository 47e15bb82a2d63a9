/* A capture file, and what the library says of it. */
#ifndef CAPTURE_H
#define CAPTURE_H

#include <stdbool.h>
#include <stddef.h>
#include <stdint.h>

#include "kuzhenga.h"

struct capture {
    const char *name;
    uint8_t file[KUZHENGA_FILE_BYTES + 1]; /* one byte more than the longest file, so that a longer one is refused */
    size_t bytes;
    uint16_t samples[KUZHENGA_FILE_SAMPLES];
    size_t count;
    uint32_t mask;
    uint32_t edt;
};

struct reply {
    char line[KUZHENGA_LINE_BYTES]; /* the bench's line, without its line feed */
    uint32_t refusal;               /* KUZHENGA_DONE, or why the capture has no reading */
    bool has_word;
    uint32_t word;
    bool has_value;
    uint32_t value;
    struct kuzhenga_reading reading;
};

/* Reads the bytes of a file, or of standard input for the name "-". False, with a message, if that fails. */
bool load_capture(const char *name, struct capture *capture);

/* Asks the library for the line, and then layer by layer: samples, word, value and reading. */
void read_reply(struct capture *capture, struct reply *reply);

/* Whether a sample is high under the capture's mask. */
bool is_high(const struct capture *capture, size_t at);

/* The first sample after `from` that is at another level, or the count if there is none. */
size_t run_end(const struct capture *capture, size_t from);

#endif
