#include "samples.h"

void fill_high(uint16_t *samples, size_t count, uint16_t mask)
{
    for (size_t i = 0; i < count; i++) {
        samples[i] = mask;
    }
}

void fill_word(uint16_t *samples, size_t count, uint32_t word, size_t lead, uint16_t mask)
{
    fill_high(samples, count, mask);
    uint16_t level = mask;
    size_t at = lead;
    for (int bit = 20; bit >= 0; bit--) {
        if (word >> bit & 1) {
            level ^= mask;
        }
        for (int i = 0; i < 3; i++) {
            samples[at++] = level;
        }
    }
}

/* -1, 0 or 1, from the high bits of a linear congruence. */
static int step(uint32_t *state)
{
    *state = *state * 1664525u + 1013904223u;
    return (int)((*state >> 16) % 3) - 1;
}

/* How far the next edge is moved. The edge before it was moved by `last`. */
static int next_move(int last, uint32_t *state)
{
    int move = last + step(state);
    return move < -1 ? -1 : move > 1 ? 1 : move;
}

void jitter(uint16_t *samples, size_t count, uint32_t seed)
{
    uint32_t state = seed;
    int move = 0;
    for (size_t i = 1; i < count; i++) {
        if (samples[i] == samples[i - 1]) {
            continue;
        }
        move = next_move(move, &state);
        if (move < 0) {
            samples[i - 1] = samples[i];
        } else if (move > 0) {
            samples[i] = samples[i - 1];
        }
        /* The next edge is three samples on at least. Between this sample and the next there may be one now, the
         * edge that was moved. */
        i++;
    }
}
