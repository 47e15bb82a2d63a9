/* The bench tool: lists, makes and draws capture files.
 *
 * It decides nothing itself. Words, values, readings and lines come from the library's calls.
 */
#include <stdio.h>
#include <string.h>

#include "commands.h"
#include "kuzhenga.h"

static const char help[] =
    "usage: kuzhenga COMMAND ...\n"
    "\n"
    "  kuzhenga list FILE...     print the bench's line of each capture file\n"
    "  kuzhenga draw FILE        draw a capture: level, bits, symbols, nibbles\n"
    "  kuzhenga make OPTION...   write a capture file to standard output\n"
    "  kuzhenga refusals         print the numbers, names and meanings of refusals\n"
    "  kuzhenga --version        print the version\n"
    "\n"
    "`kuzhenga COMMAND --help` says more, with an example.\n"
    "\n"
    "Exit status: 0 all was read or done, 1 a capture was refused or could not be made,\n"
    "2 bad usage or a file that cannot be read or written, 3 a mistake in this program.\n";

struct command {
    const char *name;
    int (*run)(int count, char **words);
};

static const struct command commands[] = {
    {"list", run_list}, {"draw", run_draw}, {"make", run_make}, {"refusals", run_refusals}};

bool asks_for_help(const char *word)
{
    return strcmp(word, "--help") == 0 || strcmp(word, "-h") == 0;
}

int bad_usage(const char *command, const char *what, const char *why)
{
    fprintf(stderr, "kuzhenga: %s%s%s\nTry `kuzhenga %s%s--help`.\n", what, *why ? " " : "", why, command,
            *command ? " " : "");
    return STATUS_USAGE;
}

static int run(int count, char **words)
{
    if (count < 2)
        return bad_usage("", "a command is missing", "");
    if (asks_for_help(words[1]) || strcmp(words[1], "help") == 0) {
        fputs(help, stdout);
        return STATUS_READ;
    }
    if (strcmp(words[1], "--version") == 0) {
        printf("kuzhenga %d.%d.%d\n", KUZHENGA_VERSION_MAJOR, KUZHENGA_VERSION_MINOR, KUZHENGA_VERSION_PATCH);
        return STATUS_READ;
    }
    for (size_t i = 0; i < sizeof commands / sizeof *commands; i++)
        if (strcmp(words[1], commands[i].name) == 0)
            return commands[i].run(count - 2, words + 2);
    return bad_usage("", words[1], "is no command");
}

int main(int count, char **words)
{
    int status = run(count, words);
    if (fflush(stdout) != 0 || ferror(stdout)) {
        fprintf(stderr, "kuzhenga: standard output cannot be written\n");
        return STATUS_USAGE;
    }
    return status;
}
