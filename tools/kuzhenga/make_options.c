/* Reads the options of `kuzhenga make`, and says what is wrong with them. */
#include "make_options.h"

#include <ctype.h>
#include <errno.h>
#include <stdio.h>
#include <stdlib.h>
#include <string.h>

struct kind {
    const char *name;
    int base;
    uint32_t least;
    uint32_t most;
    const char *takes;
};

static const struct kind kinds[NUMBERED] = {
    [VALUE] = {"--value", 16, 0, 0xfff, "a hexadecimal number up to fff"},
    [PERIOD] = {"--period", 10, 1, 65535, "microseconds, 1 to 65535"},
    [LEAD] = {"--lead", 10, 0, 4096, "a number of samples up to 4096"},
    [MASK] = {"--mask", 10, 1, 65535, "a number from 1 to 65535, or 0x1 to 0xffff"},
    [SAMPLES] = {"--samples", 10, 0, 4096, "a number of samples up to 4096"},
    [JITTER] = {"--jitter", 10, 0, UINT32_MAX, "a number of 32 bits"},
    [DAMAGE] = {"--damage", 10, 0, 19, "a bit from 0 to 19"},
};

static bool refuse(const char *what, const char *why)
{
    fprintf(stderr, "kuzhenga: %s %s\n", what, why);
    return false;
}

/* The number that a text starts with, and the text after it. False if there is none in range. */
static bool read_number(const char *text, int base, uint32_t most, uint32_t *number, char **after)
{
    if (!isxdigit((unsigned char)text[0])) {
        return false;
    }
    errno = 0;
    bool hexadecimal = text[0] == '0' && (text[1] == 'x' || text[1] == 'X');
    unsigned long read = strtoul(text, after, hexadecimal ? 16 : base);
    if (*after == text || errno != 0 || read > most) {
        return false;
    }
    *number = (uint32_t)read;
    return true;
}

static bool read_numbered(enum numbered which, const char *text, struct make_options *options)
{
    const struct kind *kind = &kinds[which];
    uint32_t number = 0;
    char *after = NULL;
    if (!read_number(text, kind->base, kind->most, &number, &after) || *after != '\0' ||
        number < kind->least) {
        fprintf(stderr, "kuzhenga: %s takes %s\n", kind->name, kind->takes);
        return false;
    }
    options->given[which] = true;
    options->number[which] = number;
    return true;
}

/* Two bits of the word, one place apart. */
static bool read_move(const char *text, struct make_options *options)
{
    char *after = NULL;
    if (!read_number(text, 10, 19, &options->from, &after) || *after != ',') {
        return refuse("--move", "takes two bits from 0 to 19, as 15,14");
    }
    if (!read_number(after + 1, 10, 19, &options->to, &after) || *after != '\0') {
        return refuse("--move", "takes two bits from 0 to 19, as 15,14");
    }
    if (options->from != options->to + 1 && options->to != options->from + 1) {
        return refuse("--move", "moves an edge by one place");
    }
    options->move = true;
    return true;
}

/* Reads the option at a word; the number of words that it takes, or 0 with a message. */
static int read_option(const char *word, const char *next, struct make_options *options)
{
    if (strcmp(word, "--edt") == 0) {
        options->extended_telemetry = true;
        return 1;
    }
    if (strcmp(word, "--none") == 0) {
        options->none = true;
        return 1;
    }
    if (strcmp(word, "--move") == 0) {
        return read_move(next, options) ? 2 : 0;
    }
    for (enum numbered which = VALUE; which < NUMBERED; which++) {
        if (strcmp(word, kinds[which].name) == 0) {
            return read_numbered(which, next, options) ? 2 : 0;
        }
    }
    refuse(word, "is no option");
    return 0;
}

/* Whether the options go together. */
static bool consistent(const struct make_options *options)
{
    int replies = options->given[VALUE] + options->given[PERIOD] + options->none;
    if (replies != 1) {
        return refuse("one of --value, --period and --none", "is needed, and only one");
    }
    if (options->given[DAMAGE] && options->move) {
        return refuse("--damage and --move", "do not go together");
    }
    if (options->none && (options->given[DAMAGE] || options->move || options->given[JITTER])) {
        return refuse("--none", "has no edge to change");
    }
    if (!options->none && options->number[SAMPLES] < options->number[LEAD] + 69) {
        return refuse("a reply", "needs 69 samples after the lead");
    }
    return true;
}

bool read_make_options(int count, char **words, struct make_options *options)
{
    *options = (struct make_options){0};
    options->number[LEAD] = 10;
    options->number[MASK] = 1;
    options->number[SAMPLES] = 160;
    int at = 0;
    while (at < count) {
        /* An option at the end has no number: the empty text is none. */
        int taken = read_option(words[at], at + 1 < count ? words[at + 1] : "", options);
        if (taken == 0) {
            return false;
        }
        at += taken;
    }
    return consistent(options);
}
