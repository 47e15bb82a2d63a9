/* Shows by calls what include/kuzhenga.h says in words and the other hosts do not show. It fails if a fact is not so.
 *
 *   facts
 */
#include <string.h>

#include "bank_places.h"
#include "expect.h"
#include "kuzhenga.h"

/* ---- a bank that is driven ------------------------------------------------------------------------------------ */

static uint16_t bank[KUZHENGA_BANK_SLOTS];
static uint16_t first[KUZHENGA_BUFFER_SLOTS], second[KUZHENGA_BUFFER_SLOTS];
static uint16_t samples[KUZHENGA_CAPTURE_SAMPLES];
static uint16_t lanes[KUZHENGA_HARDWARE_SLOTS];
static uint16_t answer[KUZHENGA_SERVICE_SLOTS];

static void begin(void)
{
    static const uint16_t timing[KUZHENGA_TIMING_SLOTS] = {279, 105, 210, 74};
    expect("from_lanes", kuzhenga_bank_from_lanes(timing, KUZHENGA_TIMING_SLOTS, bank, KUZHENGA_BANK_SLOTS), 0);
    expect("bidirectional", kuzhenga_bank_enable_bidirectional(bank, KUZHENGA_BANK_SLOTS, 1), 0);
    for (unsigned n = 0; n < KUZHENGA_LANES; n++) {
        lanes[KUZHENGA_TAKEN + n] = lanes[KUZHENGA_PRESENT + n] = lanes[KUZHENGA_MASKS + n] = 1;
        expect("simulate", kuzhenga_simulate_reply(samples + KUZHENGA_WINDOW_SAMPLES * n, KUZHENGA_WINDOW_SAMPLES,
                                                   0xfff, 10, 1), 0);
    }
}

/* Returns the event. */
static unsigned serve(uint64_t now_ms)
{
    expect("service", kuzhenga_bank_service(bank, KUZHENGA_BANK_SLOTS, now_ms, lanes, KUZHENGA_HARDWARE_SLOTS, first,
                                            KUZHENGA_BUFFER_SLOTS, second, KUZHENGA_BUFFER_SLOTS, samples,
                                            KUZHENGA_CAPTURE_SAMPLES, answer, KUZHENGA_SERVICE_SLOTS), 0);
    return answer[KUZHENGA_EVENT];
}

static unsigned interrupt(size_t motor, uint32_t dma_error)
{
    expect("interrupt", kuzhenga_bank_on_dma_interrupt(bank, KUZHENGA_BANK_SLOTS, motor, 1, dma_error, 1, 1, answer,
                                                       KUZHENGA_INTERRUPT_SLOTS), 0);
    return answer[KUZHENGA_EVENT];
}

static void complete_all(void)
{
    for (size_t n = 0; n < KUZHENGA_LANES; n++)
        expect("completed", interrupt(n, 0), KUZHENGA_COMPLETED);
}

static void cycle(uint64_t now_ms)
{
    expect("started", serve(now_ms), KUZHENGA_FRAME_STARTED);
    complete_all();
    complete_all();
}

static struct kuzhenga_replies taken(void)
{
    struct kuzhenga_replies replies;
    expect("take_replies", kuzhenga_bank_take_replies(bank, KUZHENGA_BANK_SLOTS, replies.slots,
                                                      KUZHENGA_REPLIES_SLOTS), 0);
    return replies;
}

static uint16_t faulted(void)
{
    uint16_t flag[1] = {2};
    expect("is_faulted", kuzhenga_bank_is_faulted(bank, KUZHENGA_BANK_SLOTS, flag, 1), 0);
    return flag[0];
}

/* ---- the order of refusals ------------------------------------------------------------------------------------ */

static void refusals(void)
{
    static const uint16_t run[KUZHENGA_RUN_SLOTS] = {KUZHENGA_COMMAND_SPIN_NORMAL, KUZHENGA_COMMAND_SAVE_SETTINGS, 0,
                                                     10};
    static const uint16_t too_large[KUZHENGA_LANES] = {2001, 0, 0, 0}, some[KUZHENGA_LANES] = {1, 0, 0, 0};
    const size_t slots = KUZHENGA_BANK_SLOTS;
    expect("13 before 12", kuzhenga_simulate_reply(samples, 78, 0, 10, 0), KUZHENGA_WRONG_LENGTH);
    expect("12", kuzhenga_simulate_reply(samples, 79, 0, 10, 0), KUZHENGA_NO_MASK);
    begin();
    expect("6", kuzhenga_bank_command_throttles(bank, slots, too_large, 4, 0, 10), KUZHENGA_THROTTLE_OUT_OF_RANGE);
    expect("a run", kuzhenga_bank_command_special(bank, slots, 0, run, 4), KUZHENGA_DONE);
    expect("20", kuzhenga_bank_command_special(bank, slots, 0, run, 4), KUZHENGA_COMMAND_PENDING);
    expect("throttles", kuzhenga_bank_command_throttles(bank, slots, some, 4, 0, 10), KUZHENGA_DONE);
    expect("19 before 20", kuzhenga_bank_command_special(bank, slots, 0, run, 4), KUZHENGA_MOTORS_RUNNING);
    expect("a request", kuzhenga_bank_request_telemetry(bank, slots, 0), KUZHENGA_DONE);
    expect("21", kuzhenga_bank_request_telemetry(bank, slots, 0), KUZHENGA_TELEMETRY_PENDING);
    expect("12 before 21", kuzhenga_bank_request_telemetry(bank, slots, 4), KUZHENGA_NO_SUCH_MOTOR);
    expect("a fault", interrupt(0, 1), KUZHENGA_SPURIOUS);
    expect("18 before 6", kuzhenga_bank_command_throttles(bank, slots, too_large, 4, 0, 10), KUZHENGA_FAULTED);
    expect("18 before 19", kuzhenga_bank_command_special(bank, slots, 0, run, 4), KUZHENGA_FAULTED);
    expect("12 before 18", kuzhenga_bank_command_special(bank, slots, 4, run, 4), KUZHENGA_NO_SUCH_MOTOR);
    expect("13 before 12", kuzhenga_bank_command_special(bank, slots, 4, run, 3), KUZHENGA_WRONG_LENGTH);
}

/* ---- periods -------------------------------------------------------------------------------------------------- */

/* With EDT off each value but the acknowledgement of EDT reads as the speed of its period. */
static void value_periods(void)
{
    for (uint32_t value = 0; value < 4096; value++) {
        struct kuzhenga_reading reading = KUZHENGA_NO_READING;
        struct kuzhenga_period period = {{65535, 65535}};
        uint32_t refusal = kuzhenga_reply_from_value(value, 0, reading.slots, KUZHENGA_READING_SLOTS);
        if (value == 0xe00)
            refusal = KUZHENGA_ZERO_PERIOD;
        /* Of a value the low twelve bits count. */
        expect("value_period", kuzhenga_value_period(value | 0xabcd7000, period.slots, KUZHENGA_PERIOD_SLOTS), refusal);
        uint32_t us = kuzhenga_period_us(period), step = kuzhenga_period_step(period);
        expect("the step of a value", step, refusal ? 65535 : value == 0xfff ? 0 : 1u << value / 512);
        if (refusal == KUZHENGA_DONE)
            expect("the speed of a period", kuzhenga_reading_number(reading), us ? (600000 + us / 2) / us : 0);
    }
}

/* The period that a value stands for. */
static struct kuzhenga_period told(uint32_t value)
{
    struct kuzhenga_period period = {{65535, 65535}};
    expect("value_period", kuzhenga_value_period(value, period.slots, KUZHENGA_PERIOD_SLOTS), KUZHENGA_DONE);
    return period;
}

/* A period is told rounded down to a multiple of its step; from 65408 on as at rest. */
static void rounded(uint32_t period, uint32_t value)
{
    uint32_t us = kuzhenga_period_us(told(value)), step = kuzhenga_period_step(told(value));
    expect("a period that is told", us, period < 65408 ? period - period % (step ? step : 1) : 0);
    expect("a period in its step", period < us + step, period < 65408);
}

static void some_periods(void)
{
    struct kuzhenga_period period = told(0x534); /* the value of 1234 */
    expect("1234 as it is told", kuzhenga_period_us(period), 1232);
    expect("the step of 1234", kuzhenga_period_step(period), 4);
    expect("13 before 11", kuzhenga_value_period(0x200, period.slots, 1), KUZHENGA_WRONG_LENGTH);
    expect("11", kuzhenga_value_period(0x200, period.slots, KUZHENGA_PERIOD_SLOTS), KUZHENGA_ZERO_PERIOD);
    expect("and the slots stay", kuzhenga_period_us(period), 1232);
    expect("at rest", kuzhenga_period_us(told(0xfff)), 0);
    expect("the step at rest", kuzhenga_period_step(told(0xfff)), 0);
}

/* ---- the simulated ESC and the bench's line ------------------------------------------------------------------- */

static void periods(void)
{
    for (uint32_t period = 1; period <= 65535; period++) {
        uint16_t value[1] = {0};
        unsigned exponent = 0;
        while (period >> exponent > 511)
            exponent++;
        expect("period_value", kuzhenga_period_value(period, value, 1), KUZHENGA_DONE);
        expect("a value", value[0], 512 * exponent + (period >> exponent));
        rounded(period, value[0]);
    }
}

/* A reply of 0xfff, with the longest lead that fits, into samples that hold something else. */
static void simulated(void)
{
    uint16_t all[KUZHENGA_WINDOW_SAMPLES];
    const uint32_t mask = 0x10108; /* only its low sixteen bits count */
    struct kuzhenga_word word;
    memset(all, 0x5a, sizeof all);
    expect("simulate", kuzhenga_simulate_reply(all, KUZHENGA_WINDOW_SAMPLES, 0xfff,
                                               KUZHENGA_WINDOW_SAMPLES - KUZHENGA_REPLY_SAMPLES, mask), 0);
    for (size_t i = 0; i < KUZHENGA_WINDOW_SAMPLES; i++)
        expect("a sample", all[i] == 0x108 || all[i] == 0, 1);
    expect("transitions", kuzhenga_reply_transitions(all, KUZHENGA_WINDOW_SAMPLES, 0x100, word.slots,
                                                     KUZHENGA_WORD_SLOTS), 0);
    expect("the word", kuzhenga_word_bits(word), kuzhenga_reply_transitions_for(0xfff));
    expect("mask 0", kuzhenga_reply_transitions(all, KUZHENGA_WINDOW_SAMPLES, 0x10000, word.slots,
                                                KUZHENGA_WORD_SLOTS), KUZHENGA_NO_REPLY);
}

/* The line with the largest number. */
static void line(void)
{
    static uint8_t file[KUZHENGA_FILE_BYTES];
    uint8_t text[KUZHENGA_LINE_BYTES];
    uint16_t all[KUZHENGA_WINDOW_SAMPLES], written[1];
    expect("simulate", kuzhenga_simulate_reply(all, KUZHENGA_WINDOW_SAMPLES, 1, 0, 1), 0);
    expect("write", kuzhenga_write_capture(all, KUZHENGA_WINDOW_SAMPLES, 1, 0, file, sizeof file, written, 1), 0);
    expect("list", kuzhenga_list_capture(file, written[0], text, sizeof text, written, 1), 0);
    expect("the line", strcmp((const char *)text, "1ce76e 001 erpm 600000\n") == 0, 1);
    expect("its length", written[0], 23);
}

/* ---- replies of a bank ---------------------------------------------------------------------------------------- */

/* Lane 1 has no capture, lane 2 has a mask of 0, and the wire of lane 3 is pulled. */
static void stored(void)
{
    begin();
    expect("none are held", kuzhenga_replies_held(taken()), 0);
    for (unsigned n = 0; n < KUZHENGA_LANES; n++)
        expect("and none is held", taken().slots[KUZHENGA_LANE_REPLY + KUZHENGA_LANE_REPLY_SLOTS * n],
               KUZHENGA_NO_REPLY);
    cycle(0);
    lanes[KUZHENGA_PRESENT + 1] = 0;
    lanes[KUZHENGA_MASKS + 2] = 0;
    memset(samples + 3 * KUZHENGA_WINDOW_SAMPLES, 0, KUZHENGA_WINDOW_SAMPLES * sizeof *samples);
    cycle(1);
    struct kuzhenga_replies replies = taken();
    expect("some are held", kuzhenga_replies_held(replies), 1);
    expect("a rotor at rest", kuzhenga_lane_number(replies, 0), 0);
    for (size_t n = 1; n < KUZHENGA_LANES; n++)
        expect("no reply", kuzhenga_lane_refusal(replies, n), KUZHENGA_NO_REPLY);
    expect("once", kuzhenga_replies_held(taken()), 0);
}

static void put_word(size_t place, uint32_t count)
{
    bank[place] = (uint16_t)count;
    bank[place + 1] = (uint16_t)(count >> 16);
}

/* Each count is one before it wraps. Lane 0's reply is valid, lane 1's is not. */
static void counts(void)
{
    struct kuzhenga_stats stats;
    struct kuzhenga_reply_stats of_replies;
    begin();
    cycle(0);
    for (size_t i = 0; i < KUZHENGA_STATS_SLOTS; i += 2)
        put_word(PLACE_COUNTS + i, UINT32_MAX);
    for (size_t n = 0; n < 2; n++)
        for (size_t which = 0; which < 3; which++)
            put_word(PLACE_REPLIES + REPLY_SLOTS * n + REPLY_COUNTS + 2 * which, UINT32_MAX);
    lanes[KUZHENGA_PRESENT + 1] = 0;
    cycle(1);
    expect("stats", kuzhenga_bank_stats(bank, KUZHENGA_BANK_SLOTS, stats.slots, KUZHENGA_STATS_SLOTS), 0);
    expect("reply stats", kuzhenga_bank_reply_stats(bank, KUZHENGA_BANK_SLOTS, of_replies.slots,
                                                    KUZHENGA_REPLY_STATS_SLOTS), 0);
    expect("frames started wrap", kuzhenga_frames_started(stats), 0);
    expect("frames completed wrap", kuzhenga_frames_completed(stats), 0);
    expect("completions count transmissions", kuzhenga_lane_completions(stats, 3), 0);
    expect("valid wraps", kuzhenga_lane_valid(of_replies, 0), 0);
    expect("invalid wraps", kuzhenga_lane_invalid(of_replies, 1), 0);
    expect("in a row ends", kuzhenga_lane_invalid_in_a_row(of_replies, 0), 0);
    expect("in a row stops", kuzhenga_lane_invalid_in_a_row(of_replies, 1), UINT32_MAX);
}

/* ---- faults and runs ------------------------------------------------------------------------------------------ */

/* dma_error 1 latches a fault in any state: set in flight, lane done, no set in flight. */
static void faults(void)
{
    begin();
    expect("started", serve(0), KUZHENGA_FRAME_STARTED);
    expect("in flight", interrupt(0, 1), KUZHENGA_INTERRUPT_FAULTED);
    expect("latched", faulted(), 1);
    expect("once more", interrupt(0, 1), KUZHENGA_INTERRUPT_FAULTED);
    expect("its one order", answer[KUZHENGA_ORDERS], 1);
    begin();
    expect("started", serve(0), KUZHENGA_FRAME_STARTED);
    expect("completed", interrupt(1, 0), KUZHENGA_COMPLETED);
    expect("the lane is done", interrupt(1, 1), KUZHENGA_SPURIOUS);
    expect("latched", faulted(), 1);
    begin();
    expect("no set in flight", interrupt(0, 1), KUZHENGA_SPURIOUS);
    expect("latched", faulted(), 1);
    expect("a service after it", serve(1), KUZHENGA_SERVICE_FAULTED);
    expect("no orders", answer[KUZHENGA_ORDERS], 0);
}

static uint16_t pending(void)
{
    uint16_t flag[1] = {2};
    expect("command_pending", kuzhenga_bank_command_pending(bank, KUZHENGA_BANK_SLOTS, flag, 1), 0);
    return flag[0];
}

/* If a run's index is above 1, the run is spent. It is pending until a frame starts, and sends nothing. */
static void runs(void)
{
    static const uint16_t indexes[] = {2, 255, 256, 257, 65535};
    for (size_t i = 0; i < sizeof indexes / sizeof *indexes; i++) {
        uint16_t run[KUZHENGA_RUN_SLOTS] = {KUZHENGA_COMMAND_SPIN_NORMAL, KUZHENGA_COMMAND_SAVE_SETTINGS, indexes[i],
                                            10};
        uint16_t none[KUZHENGA_SEQUENCE_SLOTS], sent[KUZHENGA_SEQUENCE_SLOTS];
        begin();
        cycle(0);
        memcpy(none, second, sizeof none); /* lane 0's frame of value 0 */
        expect("a run", kuzhenga_bank_command_special(bank, KUZHENGA_BANK_SLOTS, 0, run, KUZHENGA_RUN_SLOTS), 0);
        expect("pending", pending(), 1);
        cycle(1);
        expect("no longer", pending(), 0);
        expect("sending", kuzhenga_bank_sending(bank, KUZHENGA_BANK_SLOTS, first, KUZHENGA_BUFFER_SLOTS, second,
                                                KUZHENGA_BUFFER_SLOTS, 0, sent, KUZHENGA_SEQUENCE_SLOTS), 0);
        expect("nothing sent", memcmp(none, sent, sizeof none) == 0, 1);
    }
}

int main(void)
{
    refusals();
    value_periods();
    some_periods();
    periods();
    simulated();
    line();
    stored();
    counts();
    faults();
    runs();
    return expected();
}
