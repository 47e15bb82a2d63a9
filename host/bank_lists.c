/* Makes the calls of a list on a bank through C, and prints what each gave, as crates/dshot_bank_cases does. It reads
 * every field of the bank out of its slots (bank_places.h). That crate describes the list and the text.
 *
 *   bank_lists <LIST
 *
 * Exit status: 0 if the list is done, or if a line cannot be read, which the text says. 1 if a call gave what the
 * header does not name, or if the text cannot be written.
 */
#include <inttypes.h>
#include <stdio.h>
#include <string.h>

#include "bank_lists.h"
#include "bank_places.h"

enum {
    MOST_BYTES = 65536,               /* a list has fewer */
    MOST_NUMBERS = 18 + 2 * 700,      /* numbers of a line: eighteen, and two for each of 700 runs */
    STATS = KUZHENGA_STATS_SLOTS / 2, /* the counts of a bank */
    LANE_COUNTS = 3                   /* the counts of a lane's replies */
};

/* ---- the text ------------------------------------------------------------------------------------------------- */

static void number(uint64_t n)
{
    printf(" %" PRIu64, n);
}

static void slots(const uint16_t *from, size_t count)
{
    for (size_t i = 0; i < count; i++)
        number(from[i]);
}

static uint64_t long_at(const uint16_t *from)
{
    return word_at(from) | (uint64_t)word_at(from + 2) << 32;
}

/* Each number has a space before it. A part without numbers has only the space. */
static void bar(void)
{
    printf(" |");
}

static void empty(void)
{
    printf(" ");
}

static void put_orders(const struct outcome *outcome)
{
    if (outcome->orders == 0)
        empty();
    for (size_t i = 0; i < outcome->orders; i++) {
        unsigned kind = kuzhenga_order_kind(outcome->order[i]);
        number(kind);
        number(kuzhenga_order_lane(outcome->order[i]));
        if (kind == KUZHENGA_START_FRAME)
            slots(outcome->duties, KUZHENGA_LANES);
    }
}

/* ---- the bank's fields, out of its slots ---------------------------------------------------------------------- */

static void put_lease(const uint16_t *bank)
{
    uint64_t over = long_at(bank + PLACE_LEASE_OVER);
    number(long_at(bank + PLACE_LEASE_STARTED));
    number(over != 0);
    if (over != 0)
        number(over - 1);
}

/* In the text the refusal, or 0, stands before the kind. In the slots a refusal is a kind. */
static void put_reply(const uint16_t *lane)
{
    int refused = lane[0] >= STORED_REFUSAL;
    number(refused ? (uint64_t)lane[0] - STORED_REFUSAL : 0);
    number(refused ? 0 : lane[0]);
    number(word_at(lane + REPLY_NUMBER));
}

static void put_replies(const uint16_t *bank)
{
    number(bank[PLACE_REPLIES_HELD]);
    for (size_t lane = 0; bank[PLACE_REPLIES_HELD] != 0 && lane < KUZHENGA_LANES; lane++)
        put_reply(bank + PLACE_REPLIES + REPLY_SLOTS * lane);
}

static void put_counts(const uint16_t *bank)
{
    for (size_t i = 0; i < STATS; i++)
        number(word_at(bank + PLACE_COUNTS + 2 * i));
    for (size_t which = 0; which < LANE_COUNTS; which++)
        for (size_t lane = 0; lane < KUZHENGA_LANES; lane++)
            number(word_at(bank + PLACE_REPLIES + REPLY_SLOTS * lane + REPLY_COUNTS + 2 * which));
}

/* Prints flags and lanes as the slots have them. So a slot that is not as bank_places.h says would be seen. */
static void put_fields(const uint16_t *bank)
{
    slots(bank + PLACE_TIMING, KUZHENGA_TIMING_SLOTS);
    slots(bank + PLACE_VALUES, KUZHENGA_LANES);
    put_lease(bank);
    number(bank[PLACE_REQUEST]);
    number(bank[PLACE_REQUEST_SENT]);
    slots(bank + PLACE_RUN, bank[PLACE_RUN] != 0 ? 1 + KUZHENGA_RUN_SLOTS : 1);
    number(long_at(bank + PLACE_FRAME_STARTED));
    number(word_at(bank + PLACE_COMPLETION_MASK));
    number(bank[PLACE_BUSY]);
    number(bank[PLACE_FAULTED]);
    number(bank[PLACE_BIDIRECTIONAL]);
    number(bank[PLACE_RECEIVING]);
    number(bank[PLACE_REPLIES_WAITING]);
    put_replies(bank);
    put_counts(bank);
    slots(bank + PLACE_IN_SECOND, KUZHENGA_LANES);
}

/* ---- the slots that a call changed ---------------------------------------------------------------------------- */

static size_t put_buffer(unsigned buffer, const uint16_t *before, const uint16_t *after)
{
    size_t changed = 0;
    for (size_t slot = 0; slot < ROOM; slot++) {
        if (before[slot] == after[slot])
            continue;
        number(buffer);
        number(slot);
        number(after[slot]);
        changed++;
    }
    return changed;
}

static void put_changed(const struct kept *before, const struct kept *after)
{
    size_t changed = put_buffer(0, before->first, after->first);
    changed += put_buffer(1, before->second, after->second);
    if (changed == 0)
        empty();
}

/* ---- a line --------------------------------------------------------------------------------------------------- */

/* Reads digits, at least one, and returns where they end. If there is no digit, or the number has more than 64 bits, it
 * returns NULL. */
static const char *read_number(const char *at, const char *end, uint64_t *value)
{
    const char *from = at;
    *value = 0;
    for (; at < end && *at >= '0' && *at <= '9'; at++) {
        unsigned digit = (unsigned)(*at - '0');
        if (*value > (UINT64_MAX - digit) / 10)
            return NULL;
        *value = *value * 10 + digit;
    }
    return at == from ? NULL : at;
}

/* Reads numbers with one space between them, and returns how many there are. If the line has anything else, it returns
 * 0. */
static size_t read_line(const char *at, const char *end, uint64_t *numbers)
{
    for (size_t n = 0; n < MOST_NUMBERS; n++) {
        at = read_number(at, end, &numbers[n]);
        if (at == NULL)
            return 0;
        if (at == end)
            return n + 1;
        if (*at++ != ' ')
            return 0;
    }
    return 0;
}

/* A new bank starts with buffers of zeros. They are set before the copy is taken, so its line shows no changed slot. */
static void clear_buffers(struct kept *kept)
{
    memset(kept->first, 0, sizeof kept->first);
    memset(kept->second, 0, sizeof kept->second);
}

static int run_line(struct kept *kept, const char *at, const char *end)
{
    static uint64_t numbers[MOST_NUMBERS];
    struct outcome outcome;
    size_t n = read_line(at, end, numbers);
    if (n == 0)
        return 0;
    struct line line = {numbers[0], numbers + 1, n - 1};
    if (line.code == 0)
        clear_buffers(kept);
    struct kept before = *kept;
    if (!make_call(kept, &line, &outcome))
        return 0;
    printf("%" PRIu64, line.code);
    for (size_t i = 0; i < outcome.answers; i++)
        number(outcome.answer[i]);
    bar();
    put_orders(&outcome);
    bar();
    put_fields(kept->bank);
    bar();
    put_changed(&before, kept);
    printf("\n");
    return 1;
}

static void run_list(const char *text, size_t length)
{
    const char *end = text + length;
    struct kept kept;
    unsigned long lines = 0;
    begin(&kept);
    while (text < end) {
        const char *found = memchr(text, '\n', (size_t)(end - text));
        const char *stop = found != NULL ? found : end;
        lines++;
        if (!run_line(&kept, text, stop)) {
            printf("unreadable line %lu\n", lines);
            return;
        }
        text = found != NULL ? found + 1 : end;
    }
}

int main(void)
{
    static char text[MOST_BYTES];
    size_t length = fread(text, 1, sizeof text, stdin);
    if (length == sizeof text)
        printf("list too long\n");
    else
        run_list(text, length);
    return fflush(stdout) != 0 || ferror(stdout);
}
