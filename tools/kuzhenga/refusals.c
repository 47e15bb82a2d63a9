/* kuzhenga refusals: the table of refusals. */
#include <stdio.h>

#include "commands.h"
#include "kuzhenga.h"

static const char help[] =
    "usage: kuzhenga refusals\n"
    "\n"
    "Prints each refusal: its number, its name in kuzhenga.h without KUZHENGA_, and what it means.\n"
    "A capture is refused with 7 to 11, and a file that is no capture file with 17.\n"
    "\n"
    "Example: kuzhenga refusals | grep CHECKSUM\n";

/* In the order of their numbers. 12 has a second name, NO_MASK, for the simulated ESC. */
static const char *const names[] = {
    "DONE", "ZERO_TIMER_CLOCK", "ZERO_BITRATE", "PERIOD_TOO_SHORT", "PERIOD_TOO_LONG", "VALUE_OUT_OF_RANGE",
    "THROTTLE_OUT_OF_RANGE", "NO_REPLY", "OVERLONG", "INVALID_SYMBOL", "CHECKSUM", "ZERO_PERIOD", "NO_SUCH_MOTOR",
    "WRONG_LENGTH", "WRONG_DUTY", "PACKET_CHECKSUM", "PERIOD_OUT_OF_RANGE", "NOT_A_CAPTURE", "FAULTED",
    "MOTORS_RUNNING", "COMMAND_PENDING", "TELEMETRY_PENDING", "REPLIES_UNSUPPORTED"};

int run_refusals(int count, char **words)
{
    if (count > 0 && asks_for_help(words[0])) {
        fputs(help, stdout);
        return STATUS_READ;
    }
    if (count > 0)
        return bad_usage("refusals", words[0], "is one word too many");
    for (uint32_t n = 1; n < sizeof names / sizeof *names; n++)
        printf("%2u  %-21s  %s\n", (unsigned)n, names[n], kuzhenga_refusal_text(n));
    return STATUS_READ;
}
