/* Counts the bits of a reply's runs, and finds what is wrong with its symbols. */
#include "layout.h"

#include <stdio.h>
#include <string.h>

#include "symbols.h"

/* A start edge needs two bits less than a reply after it. The bits that are read end two bits after the reply. */
enum { LEAST_SAMPLES = (REPLY_BITS - 2) * SAMPLES_PER_BIT, MOST_SAMPLES = KUZHENGA_REPLY_SAMPLES };

static bool find_start(const struct capture *capture, size_t *start)
{
    for (size_t i = 0; i + LEAST_SAMPLES <= capture->count; i++) {
        if (!is_high(capture, i)) {
            *start = i;
            return true;
        }
    }
    return false;
}

/* A run is an edge and the bits up to the next one. They share its samples. */
static void add_run(struct layout *layout, size_t from, size_t samples, unsigned bits)
{
    for (unsigned i = 0; i < bits && layout->count < MOST_BITS; i++) {
        struct bit *bit = &layout->bits[layout->count++];
        bit->set = i == 0;
        bit->from = from + samples * i / bits;
        bit->to = from + samples * (i + 1) / bits;
    }
}

static unsigned run_bits(size_t samples)
{
    size_t bits = (samples + 1) / SAMPLES_PER_BIT;
    return bits == 0 ? 1 : (unsigned)bits;
}

void lay_out(const struct capture *capture, struct layout *layout)
{
    memset(layout, 0, sizeof *layout);
    layout->started = find_start(capture, &layout->start);
    if (!layout->started)
        return;
    size_t run = layout->start;
    size_t end = run + MOST_SAMPLES < capture->count ? run + MOST_SAMPLES : capture->count;
    for (size_t next = run_end(capture, run); next < end && !layout->overlong; next = run_end(capture, run)) {
        unsigned bits = run_bits(next - run);
        layout->overlong = layout->count + bits > REPLY_BITS;
        add_run(layout, run, next - run, bits);
        run = next;
    }
    /* The last run may have no edge after it. Then it has the bits that are left. */
    if (layout->count >= LEAST_BITS && layout->count < REPLY_BITS) {
        unsigned left = REPLY_BITS - layout->count;
        add_run(layout, run, (size_t)left * SAMPLES_PER_BIT, left);
    }
}

bool agrees(const struct layout *layout, const struct reply *reply)
{
    if (reply->refusal == KUZHENGA_OVERLONG)
        return layout->overlong;
    if (!reply->has_word)
        return layout->count < LEAST_BITS;
    uint32_t word = 0;
    for (unsigned i = 0; i < layout->count; i++)
        word = word << 1 | layout->bits[i].set;
    return layout->count == REPLY_BITS && word == reply->word;
}

const char *damage_of(const struct reply *reply, unsigned n, char *text)
{
    if (reply->refusal == KUZHENGA_INVALID_SYMBOL && nibble_at(reply->word, n) == NO_NIBBLE)
        return "no symbol";
    if (reply->refusal == KUZHENGA_CHECKSUM && n == CHECKSUM_SYMBOL) {
        snprintf(text, DAMAGE_BYTES, "%x is needed", needed_checksum(reply->word));
        return text;
    }
    return NULL;
}

const char *next_line(const char *text, size_t width, size_t *length)
{
    *length = strlen(text);
    if (*length > width) {
        for (*length = width; *length > 0 && text[*length] != ' ';)
            --*length;
        *length = *length == 0 ? width : *length;
    }
    return text + *length + (text[*length] == ' ');
}
