/* The calls of the program bank_lists. Each takes the numbers of a line, calls the library, and keeps what that gave.
 * crates/dshot_bank_cases/src says what the numbers are, in the files that calls.rt names. */
#include <stdio.h>
#include <stdlib.h>
#include <string.h>

#include "bank_lists.h"
#include "bank_places.h"

enum { MOST_SAMPLES = 700, FIRST_LOOK = 11 };

/* A list may name a lane that is far too large. The call must get the whole number. */
_Static_assert(SIZE_MAX >= UINT64_MAX, "a lane takes 64 bits");

#define BANK kept->bank, KUZHENGA_BANK_SLOTS

typedef int call(struct kept *kept, const struct line *line, struct outcome *outcome);

/* ---- answers ------------------------------------------------------------------------------------------------ */

static void end(const char *what, unsigned long number)
{
    fflush(stdout); /* so that the lines before it are seen */
    fprintf(stderr, "bank_lists: %s %lu\n", what, number);
    exit(1);
}

/* For a call that cannot refuse if every length is right. The text has no place for its refusal. */
static void must(uint32_t refusal)
{
    if (refusal != KUZHENGA_DONE)
        end("refused", refusal);
}

static int answer(struct outcome *outcome, uint64_t number)
{
    outcome->answer[outcome->answers++] = number;
    return 1;
}

/* The text numbers events from 1. A refused call has none. */
static int answer_event(struct outcome *outcome, uint32_t refusal, uint16_t event)
{
    answer(outcome, refusal);
    return answer(outcome, refusal == KUZHENGA_DONE ? event + 1u : 0u);
}

static void keep_orders(struct outcome *outcome, const uint16_t *told, size_t most)
{
    size_t orders = told[KUZHENGA_ORDERS];
    if (orders > most)
        end("too many orders:", orders);
    outcome->orders = orders;
    memcpy(outcome->order, told + KUZHENGA_FIRST_ORDER, orders * sizeof *told);
}

/* Takes numbers that are known to fit. */
static void narrow(uint16_t *out, const uint64_t *given, size_t count)
{
    for (size_t i = 0; i < count; i++)
        out[i] = (uint16_t)given[i];
}

/* ---- a new bank, and what commands one ------------------------------------------------------------------------ */

void begin(struct kept *kept)
{
    static const uint16_t timing[KUZHENGA_TIMING_SLOTS];
    memset(kept, 0, sizeof *kept);
    must(kuzhenga_bank_from_lanes(timing, KUZHENGA_TIMING_SLOTS, BANK));
}

static int from_lanes(struct kept *kept, const struct line *line, struct outcome *outcome)
{
    uint16_t timing[KUZHENGA_TIMING_SLOTS];
    (void)outcome;
    narrow(timing, line->given, KUZHENGA_TIMING_SLOTS);
    must(kuzhenga_bank_from_lanes(timing, KUZHENGA_TIMING_SLOTS, BANK));
    return 1;
}

static int enable_bidirectional(struct kept *kept, const struct line *line, struct outcome *outcome)
{
    return answer(outcome, kuzhenga_bank_enable_bidirectional(BANK, (uint32_t)line->given[0]));
}

static int command_stop(struct kept *kept, const struct line *line, struct outcome *outcome)
{
    (void)line;
    return answer(outcome, kuzhenga_bank_command_stop(BANK));
}

static int command_throttles(struct kept *kept, const struct line *line, struct outcome *outcome)
{
    uint16_t throttles[KUZHENGA_LANES];
    narrow(throttles, line->given, KUZHENGA_LANES);
    return answer(outcome, kuzhenga_bank_command_throttles(BANK, throttles, KUZHENGA_LANES, line->given[4],
                                                           (uint32_t)line->given[5]));
}

static int command_special(struct kept *kept, const struct line *line, struct outcome *outcome)
{
    uint16_t run[KUZHENGA_RUN_SLOTS];
    narrow(run, line->given + 1, KUZHENGA_RUN_SLOTS);
    return answer(outcome, kuzhenga_bank_command_special(BANK, line->given[0], run, KUZHENGA_RUN_SLOTS));
}

static int request_telemetry(struct kept *kept, const struct line *line, struct outcome *outcome)
{
    return answer(outcome, kuzhenga_bank_request_telemetry(BANK, line->given[0]));
}

static int cancel_telemetry_request(struct kept *kept, const struct line *line, struct outcome *outcome)
{
    (void)line;
    return answer(outcome, kuzhenga_bank_cancel_telemetry_request(BANK));
}

/* The text has 0 for no lane, else the lane + 1. */
static int take_telemetry_request_sent(struct kept *kept, const struct line *line, struct outcome *outcome)
{
    uint16_t motor[KUZHENGA_REQUEST_SENT_SLOTS];
    (void)line;
    must(kuzhenga_bank_take_telemetry_request_sent(BANK, motor, KUZHENGA_REQUEST_SENT_SLOTS));
    return answer(outcome, motor[0] ? motor[1] + 1u : 0u);
}

/* ---- services and interrupts ---------------------------------------------------------------------------------- */

/* Writes out runs: each is a sample and how many times it comes. The samples after them stay. If there is no room, it
 * returns 0. */
static int unroll(uint16_t *samples, size_t room, const uint64_t *runs, size_t count)
{
    size_t n = 0;
    for (size_t i = 0; i < count; i += 2) {
        if (runs[i] > UINT16_MAX || runs[i + 1] > room - n)
            return 0;
        for (uint64_t left = runs[i + 1]; left > 0; left--)
            samples[n++] = (uint16_t)runs[i];
    }
    return 1;
}

/* The text does not have the buffers of orders. After the call, the lane's mark says which buffer it must be. If the
 * lane took it, it sends from that buffer. If not, it sends from the other. */
static void check_buffers(const uint16_t *bank, const uint16_t *lanes, const uint16_t *told)
{
    for (size_t i = 0; i < told[KUZHENGA_ORDERS]; i++) {
        uint16_t order = told[KUZHENGA_FIRST_ORDER + i];
        size_t lane = kuzhenga_order_lane(order);
        int in_second = bank[PLACE_IN_SECOND + lane] != 0, taken = lanes[KUZHENGA_TAKEN + lane] != 0;
        unsigned buffer = kuzhenga_order_kind(order) == KUZHENGA_EXCHANGE_BUFFER && in_second == taken;
        if (kuzhenga_order_buffer(order) != buffer)
            end("an order with the wrong buffer:", order);
    }
}

/* Lends as much of each buffer as the line says. */
static int service(struct kept *kept, const struct line *line, struct outcome *outcome)
{
    const uint64_t *given = line->given;
    uint16_t captures[MOST_SAMPLES] = {0}, lanes[KUZHENGA_HARDWARE_SLOTS], told[KUZHENGA_SERVICE_SLOTS] = {0};
    size_t runs = line->count - 17;
    if (runs % 2 != 0 || runs / 2 != given[16] || !unroll(captures, given[15], given + 17, runs))
        return 0;
    narrow(lanes, given + 1, KUZHENGA_HARDWARE_SLOTS);
    uint32_t refusal = kuzhenga_bank_service(BANK, given[0], lanes, KUZHENGA_HARDWARE_SLOTS, kept->first, given[13],
                                             kept->second, given[14], captures, given[15], told,
                                             KUZHENGA_SERVICE_SLOTS);
    keep_orders(outcome, told, KUZHENGA_FIRST_DUTY - KUZHENGA_FIRST_ORDER);
    check_buffers(kept->bank, lanes, told);
    memcpy(outcome->duties, told + KUZHENGA_FIRST_DUTY, sizeof outcome->duties);
    return answer_event(outcome, refusal, told[KUZHENGA_EVENT]);
}

static int on_dma_interrupt(struct kept *kept, const struct line *line, struct outcome *outcome)
{
    const uint64_t *given = line->given;
    uint16_t told[KUZHENGA_INTERRUPT_SLOTS] = {0};
    uint32_t refusal = kuzhenga_bank_on_dma_interrupt(BANK, given[0], (uint32_t)given[1], (uint32_t)given[2],
                                                      (uint32_t)given[3], (uint32_t)given[4], told,
                                                      KUZHENGA_INTERRUPT_SLOTS);
    keep_orders(outcome, told, KUZHENGA_INTERRUPT_SLOTS - KUZHENGA_FIRST_ORDER);
    return answer_event(outcome, refusal, told[KUZHENGA_EVENT]);
}

/* ---- looks ---------------------------------------------------------------------------------------------------- */

/* If a lane has a refusal, its other slots must be 0. If no replies are held, each lane has a refusal. */
static void check_lane(struct kuzhenga_replies taken, size_t lane)
{
    const uint16_t *slots = taken.slots + KUZHENGA_LANE_REPLY + KUZHENGA_LANE_REPLY_SLOTS * lane;
    if (!kuzhenga_replies_held(taken) && slots[0] != KUZHENGA_NO_REPLY)
        end("a reply where none is held, lane", lane);
    if (slots[0] != KUZHENGA_DONE && (slots[1] != 0 || slots[2] != 0 || slots[3] != 0))
        end("a reading beside a refusal, lane", lane);
}

/* The answer is 0 if none are held. Otherwise it is 1, and for each lane the refusal, the kind and the number. */
static int take_replies(struct kept *kept, const struct line *line, struct outcome *outcome)
{
    struct kuzhenga_replies taken;
    (void)line;
    must(kuzhenga_bank_take_replies(BANK, taken.slots, KUZHENGA_REPLIES_SLOTS));
    answer(outcome, kuzhenga_replies_held(taken));
    for (size_t lane = 0; lane < KUZHENGA_LANES; lane++) {
        uint32_t refusal = kuzhenga_lane_refusal(taken, lane);
        check_lane(taken, lane);
        if (!kuzhenga_replies_held(taken))
            continue;
        answer(outcome, refusal);
        answer(outcome, refusal == KUZHENGA_DONE ? kuzhenga_lane_kind(taken, lane) : 0);
        answer(outcome, refusal == KUZHENGA_DONE ? kuzhenga_lane_number(taken, lane) : 0);
    }
    return 1;
}

static const struct {
    uint32_t (*call)(const uint16_t *bank, size_t bank_len, uint16_t *out, size_t out_len);
    size_t slots;
    int counts; /* whether each number takes two slots */
} looks[] = {
    {kuzhenga_bank_is_bidirectional, 1, 0},
    {kuzhenga_bank_is_faulted, 1, 0},
    {kuzhenga_bank_stats, KUZHENGA_STATS_SLOTS, 1},
    {kuzhenga_bank_requested_values, KUZHENGA_LANES, 0},
    {kuzhenga_bank_command_pending, 1, 0},
    {kuzhenga_bank_reply_stats, KUZHENGA_REPLY_STATS_SLOTS, 1},
};

static int look(struct kept *kept, const struct line *line, struct outcome *outcome)
{
    size_t which = line->code - FIRST_LOOK;
    uint16_t out[KUZHENGA_REPLY_STATS_SLOTS]; /* the most slots of a look */
    must(looks[which].call(BANK, out, looks[which].slots));
    size_t numbers = looks[which].counts ? looks[which].slots / 2 : looks[which].slots;
    for (size_t i = 0; i < numbers; i++)
        answer(outcome, looks[which].counts ? word_at(out + 2 * i) : out[i]);
    return 1;
}

/* The answer is the refusal, or 0. If it is 0, the slots follow. */
static int sending(struct kept *kept, const struct line *line, struct outcome *outcome)
{
    const uint64_t *given = line->given;
    uint16_t slots[KUZHENGA_SEQUENCE_SLOTS];
    uint32_t refusal = kuzhenga_bank_sending(BANK, kept->first, given[1], kept->second, given[2], given[0], slots,
                                             KUZHENGA_SEQUENCE_SLOTS);
    answer(outcome, refusal);
    for (size_t i = 0; refusal == KUZHENGA_DONE && i < KUZHENGA_SEQUENCE_SLOTS; i++)
        answer(outcome, slots[i]);
    return 1;
}

static int release_due(struct kept *kept, const struct line *line, struct outcome *outcome)
{
    (void)kept;
    return answer(outcome, kuzhenga_fallback_release_due((uint32_t)line->given[0], (uint32_t)line->given[1]));
}

/* ---- what is set by hand: no call of the library does it ------------------------------------------------------ */

static int set_slot(struct kept *kept, const struct line *line, struct outcome *outcome)
{
    uint16_t *buffer = line->given[0] ? kept->second : kept->first;
    (void)outcome;
    buffer[line->given[1]] = (uint16_t)line->given[2];
    return 1;
}

static void put_count(uint16_t *slots, uint64_t count)
{
    slots[0] = (uint16_t)count;
    slots[1] = (uint16_t)(count >> 16);
}

static int set_stats(struct kept *kept, const struct line *line, struct outcome *outcome)
{
    (void)outcome;
    for (size_t i = 0; i < line->count; i++)
        put_count(kept->bank + PLACE_COUNTS + 2 * i, line->given[i]);
    return 1;
}

/* A line has one count of all four lanes after another. The slots have one lane after another. */
static int set_reply_stats(struct kept *kept, const struct line *line, struct outcome *outcome)
{
    (void)outcome;
    for (size_t i = 0; i < line->count; i++) {
        size_t lane = i % KUZHENGA_LANES, which = i / KUZHENGA_LANES;
        put_count(kept->bank + PLACE_REPLIES + REPLY_SLOTS * lane + REPLY_COUNTS + 2 * which, line->given[i]);
    }
    return 1;
}

/* ---- the call of a code --------------------------------------------------------------------------------------- */

/* `takes` has a letter for each number. f is a flag. b, h, w and l are numbers of 8, 16, 32 and 64 bits. s is a slot of
 * a buffer, p a part of a buffer, and c samples of a capture. If `takes` ends with +, more numbers may follow. */
static const struct {
    call *make;
    const char *takes;
} calls[] = {
    {from_lanes, "hhhh"},
    {enable_bidirectional, "f"},
    {command_stop, ""},
    {command_throttles, "hhhhlw"},
    {command_special, "lhhbb"},
    {request_telemetry, "l"},
    {cancel_telemetry_request, ""},
    {take_telemetry_request_sent, ""},
    {service, "lffffffffhhhhppcl+"},
    {on_dma_interrupt, "lffff"},
    {take_replies, ""},
    {look, ""},
    {look, ""},
    {look, ""},
    {look, ""},
    {look, ""},
    {look, ""},
    {sending, "lpp"},
    {set_slot, "fsh"},
    {set_stats, "wwwwwwwwwww"},
    {set_reply_stats, "wwwwwwwwwwww"},
    {release_due, "ww"},
};

static uint64_t most(char letter)
{
    switch (letter) {
    case 'f':
        return 1;
    case 'b':
        return UINT8_MAX;
    case 'h':
        return UINT16_MAX;
    case 'w':
        return UINT32_MAX;
    case 's':
        return KUZHENGA_BUFFER_SLOTS - 1;
    case 'p':
        return ROOM;
    case 'c':
        return MOST_SAMPLES;
    default:
        return UINT64_MAX;
    }
}

static int takes(const char *letters, const struct line *line)
{
    size_t i = 0;
    for (; letters[i] != '\0' && letters[i] != '+'; i++)
        if (i >= line->count || line->given[i] > most(letters[i]))
            return 0;
    return letters[i] == '+' || i == line->count;
}

int make_call(struct kept *kept, const struct line *line, struct outcome *outcome)
{
    memset(outcome, 0, sizeof *outcome);
    if (line->code >= sizeof calls / sizeof *calls || !takes(calls[line->code].takes, line))
        return 0;
    return calls[line->code].make(kept, line, outcome);
}
