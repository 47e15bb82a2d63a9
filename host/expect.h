/* For test hosts. It compares numbers, and prints those that are not as they should be. If WRONG is set in the
 * environment, each number is compared with one more than it should be. So the host can be seen to fail.
 */
#ifndef EXPECT_H
#define EXPECT_H

#include <stdio.h>
#include <stdlib.h>

static unsigned long compared, failures;

static void expect(const char *what, unsigned long long given, unsigned long long wanted)
{
    static int wrong = -1;
    if (wrong < 0)
        wrong = getenv("WRONG") != NULL;
    wanted += (unsigned)wrong;
    compared++;
    if (given == wanted)
        return;
    failures++;
    if (!wrong)
        printf("%s: %llu, and should be %llu\n", what, given, wanted);
}

/* The host's exit status. */
static int expected(void)
{
    printf("%lu compared, %lu differ\n", compared, failures);
    return failures != 0;
}

#endif
