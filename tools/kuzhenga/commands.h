/* The subcommands. Each takes the words after its name and returns the exit status. */
#ifndef COMMANDS_H
#define COMMANDS_H

#include <stdbool.h>

enum status {
    STATUS_READ = 0,    /* all is done, and each capture was read */
    STATUS_REFUSED = 1, /* a capture is refused, or could not be made */
    STATUS_USAGE = 2,   /* bad usage, or a file that cannot be read or written */
    STATUS_DIFFERS = 3  /* what `draw` counted is not the library's word: a mistake in this program */
};

int run_list(int count, char **words);
int run_make(int count, char **words);
int run_draw(int count, char **words);
int run_refusals(int count, char **words);

/* Whether a word asks for help. */
bool asks_for_help(const char *word);

/* Says on standard error what is wrong, and how to get help. Returns STATUS_USAGE. */
int bad_usage(const char *command, const char *what, const char *why);

#endif
