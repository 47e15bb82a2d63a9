/* What bank_calls.rs hands to bank_calls.c. */
#ifndef BANK_CALLS_H
#define BANK_CALLS_H

#include <stddef.h>
#include <stdint.h>

struct cycles {
    const uint16_t *timing;
    uint32_t bidirectional;
    /* Whether the captures are there to be read, and their mask. */
    uint16_t present;
    uint16_t mask;
    /* Interrupts of a cycle, and cycles: each has four throttles and four windows of its own. */
    size_t interrupts;
    size_t count;
    const uint16_t *throttles;
    uint32_t lease_ms;
    const uint16_t *captures;
    uint16_t *first;
    uint16_t *second;
};

/* The rows of `Left` in bank.rs, and the sum of the orders where they are added up. */
void called_cycles(const struct cycles *cycles, uint32_t counts[24]);
void called_cycles_summed(const struct cycles *cycles, uint32_t counts[24]);

#endif
