/* What `kuzhenga make` is asked for. */
#ifndef MAKE_OPTIONS_H
#define MAKE_OPTIONS_H

#include <stdbool.h>
#include <stdint.h>

/* The options that take a number. */
enum numbered { VALUE, PERIOD, LEAD, MASK, SAMPLES, JITTER, DAMAGE, NUMBERED };

struct make_options {
    bool given[NUMBERED];
    uint32_t number[NUMBERED];
    bool extended_telemetry;
    bool none;
    bool move;
    uint32_t from;
    uint32_t to;
};

/* Reads the words after `make`. False, with a message, if they make no capture. */
bool read_make_options(int count, char **words, struct make_options *options);

#endif
