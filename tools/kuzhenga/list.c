/* kuzhenga list: the bench's line of each capture file. */
#include <stdio.h>
#include <stdlib.h>
#include <string.h>

#include "capture.h"
#include "commands.h"
#include "explain.h"
#include "layout.h"

static const char help[] =
    "usage: kuzhenga list [--poles N] [--explain] FILE...\n"
    "\n"
    "Prints the bench's line of each capture file: word, value, kind and number, or `refused` and the\n"
    "number of the refusal. FILE may be - for standard input. If there are several files, the name\n"
    "stands before each line.\n"
    "\n"
    "  --poles N   of a speed, add turns a minute of a rotor whose motor has N magnet poles:\n"
    "              100 x number / (N / 2), to the nearest\n"
    "  --explain   add what the reading means, or why the capture is refused\n"
    "\n"
    "Kinds and units: erpm in hundreds of electrical turns a minute (0 at rest), temp in degrees Celsius,\n"
    "volt in quarters of a volt, amp in amperes, debug1 to debug3 and state in bytes, edt 0.\n"
    "\n"
    "Example: kuzhenga list --poles 14 captures/speed.capture\n"
    "prints   19bfb7 3f4 erpm 600 turns 8571\n"
    "\n"
    "Exit status: 0 all were read, 1 one was refused, 2 bad usage or a file that cannot be read.\n";

struct options {
    unsigned long poles; /* 0 if they are not given */
    bool explain;
    bool help;
    bool standard_input;
    int files;
};

/* The poles of a motor come in pairs. */
static bool read_poles(const char *word, unsigned long *poles)
{
    char *after = NULL;
    if (word == NULL || word[0] < '0' || word[0] > '9')
        return false;
    *poles = strtoul(word, &after, 10);
    return *after == '\0' && *poles >= 2 && *poles <= 1000 && *poles % 2 == 0;
}

/* Standard input can be read once. */
static bool add_file(char **words, char *name, struct options *options)
{
    bool standard = strcmp(name, "-") == 0;
    if (standard && options->standard_input)
        return false;
    options->standard_input = options->standard_input || standard;
    words[options->files++] = name;
    return true;
}

static int read_options(int count, char **words, struct options *options)
{
    bool only_files = false;
    for (int i = 0; i < count && !options->help; i++) {
        if (only_files || words[i][0] != '-' || strcmp(words[i], "-") == 0) {
            if (!add_file(words, words[i], options))
                return bad_usage("list", "-", "is given twice");
        } else if (strcmp(words[i], "--") == 0)
            only_files = true;
        else if (asks_for_help(words[i]))
            options->help = true;
        else if (strcmp(words[i], "--explain") == 0)
            options->explain = true;
        else if (strcmp(words[i], "--poles") != 0)
            return bad_usage("list", words[i], "is no option");
        else if (++i >= count || !read_poles(words[i], &options->poles))
            return bad_usage("list", "--poles", "takes an even number from 2 to 1000");
    }
    if (options->files == 0 && !options->help)
        return bad_usage("list", "a file is missing", "");
    return STATUS_READ;
}

static int list_file(const char *name, const struct options *options)
{
    static struct capture capture;
    struct reply reply;
    if (!load_capture(name, &capture))
        return STATUS_USAGE;
    read_reply(&capture, &reply);
    if (options->files > 1)
        printf("%s: ", name);
    printf("%s", reply.line);
    if (options->poles != 0 && kuzhenga_reading_kind(reply.reading) == KUZHENGA_ERPM) {
        unsigned long erpm = 100ul * kuzhenga_reading_number(reply.reading);
        printf(" turns %lu", (erpm + options->poles / 4) / (options->poles / 2));
    }
    printf("\n");
    if (options->explain) {
        char text[EXPLANATION_BYTES];
        struct layout layout;
        lay_out(&capture, &layout);
        explain(&capture, &layout, &reply, text);
        printf("  %s\n", text);
    }
    return reply.refusal == KUZHENGA_DONE ? STATUS_READ : STATUS_REFUSED;
}

int run_list(int count, char **words)
{
    struct options options = {0};
    int status = read_options(count, words, &options);
    if (status != STATUS_READ)
        return status;
    if (options.help) {
        fputs(help, stdout);
        return STATUS_READ;
    }
    for (int i = 0; i < options.files; i++) {
        int listed = list_file(words[i], &options);
        status = listed > status ? listed : status;
    }
    return status;
}
