/* What the two files of the program bank_lists share. */
#ifndef BANK_LISTS_H
#define BANK_LISTS_H

#include "kuzhenga.h"

enum {
    ROOM = 80,         /* slots of a sequence buffer: more than a bank takes, so that a list can lend too many */
    MOST_ANSWERS = 17, /* the most numbers in an answer: those of a view */
    MOST_ORDERS = 9
};

/* The number of 32 bits in two slots. */
static inline uint32_t word_at(const uint16_t *from)
{
    return (uint32_t)from[0] | (uint32_t)from[1] << 16;
}

/* What a host keeps for a bank. */
struct kept {
    uint16_t bank[KUZHENGA_BANK_SLOTS];
    uint16_t first[ROOM];
    uint16_t second[ROOM];
};

/* The code of a call, and the numbers that follow it. */
struct line {
    uint64_t code;
    const uint64_t *given;
    size_t count;
};

/* What a call gave. */
struct outcome {
    size_t answers;
    uint64_t answer[MOST_ANSWERS];
    size_t orders;
    uint16_t order[MOST_ORDERS];
    uint16_t duties[KUZHENGA_LANES];
};

/* Makes a bank with a timing of zeros. A list starts with it. */
void begin(struct kept *kept);

/* Makes the call of a line. If the line is no call, it returns 0 and changes nothing. */
int make_call(struct kept *kept, const struct line *line, struct outcome *outcome);

#endif
