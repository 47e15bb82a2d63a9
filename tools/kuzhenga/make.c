/* kuzhenga make: writes a capture file to standard output, for people who try the lister or a reader of their own. */
#define _POSIX_C_SOURCE 200809L
#include <stdio.h>
#include <unistd.h>

#include "commands.h"
#include "kuzhenga.h"
#include "make_options.h"
#include "samples.h"

static const char help[] =
    "usage: kuzhenga make --value HEX | --period US | --none [--lead N] [--mask N] [--samples N]\n"
    "                     [--edt] [--jitter SEED] [--damage BIT | --move FROM,TO] >FILE\n"
    "\n"
    "Writes a capture file to standard output.\n"
    "\n"
    "  --value HEX     the reply of a value, up to fff (fff is a rotor at rest or very slow)\n"
    "  --period US     the reply for a period of 1 to 65535 microseconds, as an ESC sends it\n"
    "  --none          no reply: all samples are high\n"
    "  --lead N        how many high samples come before the reply (10)\n"
    "  --mask N        the mask of the pin, 1 << pin, which is the sample of a high line (1)\n"
    "  --samples N     how many samples there are (160), at most 4096; a reply needs 69 after the lead\n"
    "  --edt           mark the capture as one with extended telemetry (EDT)\n"
    "  --jitter SEED   move each edge by at most one sample, so that the capture still renders the reply\n"
    "  --damage BIT    flip a bit of the reply's word, 0 (sent last) to 19\n"
    "  --move FROM,TO  move the edge at a bit of the word, which is 1, to the bit beside it, which is 0\n"
    "\n"
    "Example: kuzhenga make --period 1000 >speed.capture && kuzhenga list speed.capture\n"
    "prints   19bfb7 3f4 erpm 600\n"
    "\n"
    "Exit status: 0 written, 2 bad usage, or standard output cannot be written.\n";

/* Says that the library refused a call, with its number. */
static bool refused(const char *call, uint32_t number)
{
    if (number != 0) {
        fprintf(stderr, "kuzhenga: the library's call to %s is refused with %u\n", call,
                (unsigned)number);
    }
    return number != 0;
}

/* The value that is asked for. */
static bool find_value(const struct make_options *options, uint32_t *value)
{
    if (!options->given[PERIOD]) {
        *value = options->number[VALUE];
        return true;
    }
    uint16_t slot[1] = {0};
    if (refused("turn a period into a value",
                kuzhenga_period_value(options->number[PERIOD], slot, 1))) {
        return false;
    }
    *value = slot[0];
    return true;
}

/* Changes the word of a reply as asked. */
static bool change_word(const struct make_options *options, uint32_t *word)
{
    if (options->given[DAMAGE]) {
        *word ^= UINT32_C(1) << options->number[DAMAGE];
        return true;
    }
    uint32_t from = UINT32_C(1) << options->from;
    uint32_t to = UINT32_C(1) << options->to;
    if ((*word & from) == 0 || (*word & to) != 0) {
        fprintf(stderr, "kuzhenga: --move needs a 1 at FROM and a 0 at TO in the word %06x\n",
                (unsigned)*word);
        return false;
    }
    *word ^= from | to;
    return true;
}

/* The samples of the reply. The library's simulated ESC writes them, unless the word is changed first. */
static bool fill_reply(const struct make_options *options, uint16_t *samples)
{
    uint32_t value = 0;
    if (!find_value(options, &value)) {
        return false;
    }
    size_t count = options->number[SAMPLES];
    size_t lead = options->number[LEAD];
    uint32_t mask = options->number[MASK];
    if (!options->given[DAMAGE] && !options->move) {
        return !refused("simulate a reply",
                        kuzhenga_simulate_reply(samples, count, value, lead, mask));
    }
    uint32_t word = kuzhenga_reply_transitions_for(value);
    if (!change_word(options, &word)) {
        return false;
    }
    fill_word(samples, count, word, lead, (uint16_t)mask);
    return true;
}

static bool fill_samples(const struct make_options *options, uint16_t *samples)
{
    if (options->none) {
        fill_high(samples, options->number[SAMPLES], (uint16_t)options->number[MASK]);
        return true;
    }
    if (!fill_reply(options, samples)) {
        return false;
    }
    if (options->given[JITTER]) {
        jitter(samples, options->number[SAMPLES], options->number[JITTER]);
    }
    return true;
}

static int write_file(const struct make_options *options, const uint16_t *samples)
{
    static uint8_t file[KUZHENGA_FILE_BYTES];
    uint16_t length[1] = {0};
    if (refused("write a capture",
                kuzhenga_write_capture(samples, options->number[SAMPLES], options->number[MASK],
                                       options->extended_telemetry, file, KUZHENGA_FILE_BYTES, length, 1))) {
        return STATUS_REFUSED;
    }
    fwrite(file, 1, length[0], stdout); /* main sees whether that fails */
    return STATUS_READ;
}

int run_make(int count, char **words)
{
    static uint16_t samples[KUZHENGA_FILE_SAMPLES];
    struct make_options options;
    for (int i = 0; i < count; i++) {
        if (asks_for_help(words[i])) {
            fputs(help, stdout);
            return STATUS_READ;
        }
    }
    if (!read_make_options(count, words, &options) || !fill_samples(&options, samples))
        return bad_usage("make", "nothing is written", "");
    if (isatty(STDOUT_FILENO))
        return bad_usage("make", "standard output is a terminal:", "send the capture to a file, as with >FILE");
    return write_file(&options, samples);
}
