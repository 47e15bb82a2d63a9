/* Rehearses the steps of docs/FIELD.md on a bank without hardware. The simulated ESC replies in place of motors.
 *
 *   field clocks TIMER_HZ BITRATE_HZ   the timing of a timer clock and a bit rate
 *   field throttles                    each motor by itself, then four different throttles
 *   field lease                        throttles whose lease is not renewed
 *   field wire LANE                    four replies; the wire of LANE (0 to 3, or none) is pulled
 *   field compare FILE                 a capture file as the carrier reads it and as the bench lists it
 *
 * Exit status: 0 as it should be, 1 a call is refused or something differs, 2 bad usage.
 */
#include <stdbool.h>
#include <stdio.h>
#include <stdlib.h>
#include <string.h>

#include "kuzhenga.h"

static uint16_t timing[KUZHENGA_TIMING_SLOTS];
static uint16_t bank[KUZHENGA_BANK_SLOTS];
static uint16_t first[KUZHENGA_BUFFER_SLOTS], second[KUZHENGA_BUFFER_SLOTS];
static uint16_t samples[KUZHENGA_CAPTURE_SAMPLES];
static uint16_t duties[KUZHENGA_LANES];
static uint16_t masks[KUZHENGA_LANES] = {1, 1, 1, 1};

/* Every call here must be done, so that the first refusal ends the program. */
static void need(const char *what, uint32_t refusal)
{
    if (refusal == KUZHENGA_DONE)
        return;
    printf("%s: refused with %u, %s\n", what, (unsigned)refusal, kuzhenga_refusal_text(refusal));
    exit(1);
}

static void begin(void)
{
    need("timing", kuzhenga_timing_from_clocks(168000000, KUZHENGA_DSHOT600_HZ, timing, KUZHENGA_TIMING_SLOTS));
    need("bank", kuzhenga_bank_from_lanes(timing, KUZHENGA_TIMING_SLOTS, bank, KUZHENGA_BANK_SLOTS));
    need("bidirectional", kuzhenga_bank_enable_bidirectional(bank, KUZHENGA_BANK_SLOTS, 1));
}

static void demand(const uint16_t *throttles, uint64_t now_ms, uint32_t lease_ms)
{
    need("throttles", kuzhenga_bank_command_throttles(bank, KUZHENGA_BANK_SLOTS, throttles, KUZHENGA_LANES, now_ms,
                                                      lease_ms));
}

/* A service. Every lane takes its buffer and has a capture. The first duties of a set that was started are kept. */
static unsigned serve(uint64_t now_ms)
{
    uint16_t answer[KUZHENGA_SERVICE_SLOTS];
    uint16_t lanes[KUZHENGA_HARDWARE_SLOTS];
    for (size_t n = 0; n < KUZHENGA_LANES; n++) {
        lanes[KUZHENGA_TAKEN + n] = 1;
        lanes[KUZHENGA_PRESENT + n] = 1;
        lanes[KUZHENGA_MASKS + n] = masks[n];
    }
    need("service", kuzhenga_bank_service(bank, KUZHENGA_BANK_SLOTS, now_ms, lanes, KUZHENGA_HARDWARE_SLOTS, first,
                                          KUZHENGA_BUFFER_SLOTS, second, KUZHENGA_BUFFER_SLOTS, samples,
                                          KUZHENGA_CAPTURE_SAMPLES, answer, KUZHENGA_SERVICE_SLOTS));
    if (answer[KUZHENGA_ORDERS] > 0)
        memcpy(duties, answer + KUZHENGA_FIRST_DUTY, sizeof duties);
    return answer[KUZHENGA_EVENT];
}

/* The streams of a frame set complete, then those of its windows. */
static void complete(void)
{
    uint16_t answer[KUZHENGA_INTERRUPT_SLOTS];
    for (size_t i = 0; i < 2 * KUZHENGA_LANES; i++)
        need("interrupt", kuzhenga_bank_on_dma_interrupt(bank, KUZHENGA_BANK_SLOTS, i % KUZHENGA_LANES, 1, 0, 1, 1,
                                                         answer, KUZHENGA_INTERRUPT_SLOTS));
}

/* The value that a lane is sending, read back from its duties. */
static unsigned sent(size_t lane)
{
    uint16_t slots[KUZHENGA_SEQUENCE_SLOTS], frame[KUZHENGA_FRAME_READ_SLOTS];
    need("sending", kuzhenga_bank_sending(bank, KUZHENGA_BANK_SLOTS, first, KUZHENGA_BUFFER_SLOTS, second,
                                          KUZHENGA_BUFFER_SLOTS, lane, slots, KUZHENGA_SEQUENCE_SLOTS));
    need("sequence", kuzhenga_read_compare_sequence(duties[lane], slots, KUZHENGA_SEQUENCE_SLOTS, timing,
                                                    KUZHENGA_TIMING_SLOTS, frame, KUZHENGA_FRAME_READ_SLOTS));
    return frame[0];
}

static void print_sent(const char *what)
{
    printf("%s: the lanes send %u %u %u %u\n", what, sent(0), sent(1), sent(2), sent(3));
}

/* A number of 32 bits, and nothing after it. */
static uint32_t number(const char *word)
{
    char *after = NULL;
    unsigned long long read = strtoull(word, &after, 10);
    if (word[0] < '0' || word[0] > '9' || *after != '\0' || read > UINT32_MAX) {
        fprintf(stderr, "field: %s is no number from 0 to 4294967295\n", word);
        exit(2);
    }
    return (uint32_t)read;
}

/* ---- the steps ---------------------------------------------------------------------------------------------- */

static int clocks(const char *timer, const char *bitrate)
{
    need("timing", kuzhenga_timing_from_clocks(number(timer), number(bitrate), timing, KUZHENGA_TIMING_SLOTS));
    printf("ticks: a bit %u, high of a 0 %u, high of a 1 %u, a sample of a reply %u\n", timing[0] + 1u, timing[1],
           timing[2], timing[3] + 1u);
    return 0;
}

static int throttles(void)
{
    uint64_t now_ms = 1000;
    begin();
    for (size_t motor = 0; motor <= KUZHENGA_LANES; motor++, now_ms++) {
        uint16_t asked[KUZHENGA_LANES] = {100, 200, 300, 400};
        char what[32] = "four throttles";
        for (size_t n = 0; n < KUZHENGA_LANES && motor < KUZHENGA_LANES; n++)
            asked[n] = n == motor ? 100 : 0;
        if (motor < KUZHENGA_LANES)
            snprintf(what, sizeof what, "motor %u by itself", (unsigned)motor);
        demand(asked, now_ms, 20);
        serve(now_ms);
        print_sent(what);
        complete();
    }
    return 0;
}

static int lease(void)
{
    static const uint16_t asked[KUZHENGA_LANES] = {100, 200, 300, 400};
    static const char *const events[] = {"frame started", "busy", "lease expired", "faulted"};
    begin();
    demand(asked, 1000, 2);
    for (uint64_t now_ms = 1001; now_ms <= 1004; now_ms++) {
        char what[48];
        unsigned event = serve(now_ms);
        snprintf(what, sizeof what, "%u ms after the demand, %s", (unsigned)(now_ms - 1000), events[event]);
        print_sent(what);
        complete();
    }
    demand(asked, 1005, 20);
    serve(1005);
    print_sent("a new demand");
    complete();
    need("stop", kuzhenga_bank_command_stop(bank, KUZHENGA_BANK_SLOTS));
    serve(1006);
    print_sent("after a stop");
    return 0;
}

static struct kuzhenga_replies take_replies(void)
{
    struct kuzhenga_replies taken;
    need("replies", kuzhenga_bank_take_replies(bank, KUZHENGA_BANK_SLOTS, taken.slots, KUZHENGA_REPLIES_SLOTS));
    return taken;
}

static void print_lane(struct kuzhenga_replies taken, size_t n)
{
    uint32_t refusal = kuzhenga_lane_refusal(taken, n);
    if (refusal != KUZHENGA_DONE)
        printf("lane %u: refused %u, %s\n", (unsigned)n, (unsigned)refusal, kuzhenga_refusal_text(refusal));
    else
        printf("lane %u: %s %u\n", (unsigned)n, kuzhenga_kind_name(kuzhenga_lane_kind(taken, n)),
               (unsigned)kuzhenga_lane_number(taken, n));
}

/* One frame set with replies of 1000, 2000, 3000 and 4000 microseconds. The line of a pulled wire stays high. */
static int wire(const char *word)
{
    size_t pulled = strcmp(word, "none") == 0 ? KUZHENGA_LANES : number(word);
    if (pulled >= KUZHENGA_LANES && strcmp(word, "none") != 0) {
        fprintf(stderr, "field: a lane is 0 to 3, or none\n");
        return 2;
    }
    begin();
    serve(1000);
    complete();
    for (size_t n = 0; n < KUZHENGA_LANES; n++) {
        uint16_t *window = samples + KUZHENGA_WINDOW_SAMPLES * n;
        uint16_t value[1];
        need("value", kuzhenga_period_value((uint32_t)(1000 * (n + 1)), value, 1));
        need("reply", kuzhenga_simulate_reply(window, KUZHENGA_WINDOW_SAMPLES, value[0], 10, 1));
        for (size_t i = 0; i < KUZHENGA_WINDOW_SAMPLES && n == pulled; i++)
            window[i] = 1;
    }
    serve(1001);
    struct kuzhenga_replies taken = take_replies();
    for (size_t n = 0; n < KUZHENGA_LANES; n++)
        print_lane(taken, n);
    return 0;
}

/* ---- carrier and bench -------------------------------------------------------------------------------------- */

static size_t load(const char *name, uint8_t *file, size_t room)
{
    FILE *stream = fopen(name, "rb");
    if (stream == NULL) {
        perror(name);
        exit(2);
    }
    size_t bytes = fread(file, 1, room, stream);
    if (ferror(stream)) {
        perror(name);
        exit(2);
    }
    fclose(stream);
    return bytes;
}

/* The file's window, with its mask, as the bank reads it in lane 0. */
static struct kuzhenga_replies read_window(const uint16_t *window, uint16_t mask)
{
    begin();
    serve(1000);
    complete();
    memcpy(samples, window, KUZHENGA_WINDOW_SAMPLES * sizeof *samples);
    masks[0] = mask;
    serve(1001);
    return take_replies();
}

static int compare(const char *name)
{
    static uint8_t file[KUZHENGA_FILE_BYTES + 1];
    static uint16_t held[KUZHENGA_FILE_SAMPLES];
    uint8_t line[KUZHENGA_LINE_BYTES];
    uint16_t head[KUZHENGA_COUNT_MASK_EDT_SLOTS], length[1];
    struct kuzhenga_reading reading = KUZHENGA_NO_READING;
    size_t bytes = load(name, file, sizeof file);
    need("file", kuzhenga_read_capture(file, bytes, held, KUZHENGA_FILE_SAMPLES, head, KUZHENGA_COUNT_MASK_EDT_SLOTS));
    if (head[0] != KUZHENGA_WINDOW_SAMPLES || head[2] != 0) {
        printf("a bank reads windows of 160 samples with EDT off, and this file has %u with EDT %s\n", head[0],
               head[2] ? "on" : "off");
        return 1;
    }
    need("line", kuzhenga_list_capture(file, bytes, line, sizeof line, length, 1));
    uint32_t refusal = kuzhenga_decode_sampled_reply(held, head[0], head[1], 0, reading.slots, KUZHENGA_READING_SLOTS);
    struct kuzhenga_replies taken = read_window(held, head[1]);
    bool same = kuzhenga_lane_refusal(taken, 0) == refusal
                && kuzhenga_lane_kind(taken, 0) == kuzhenga_reading_kind(reading)
                && kuzhenga_lane_number(taken, 0) == kuzhenga_reading_number(reading);
    printf("bench: %s", (const char *)line);
    print_lane(taken, 0);
    printf("%s\n", same ? "the same" : "they differ");
    return same ? 0 : 1;
}

int main(int count, char **words)
{
    if (count == 4 && strcmp(words[1], "clocks") == 0)
        return clocks(words[2], words[3]);
    if (count == 2 && strcmp(words[1], "throttles") == 0)
        return throttles();
    if (count == 2 && strcmp(words[1], "lease") == 0)
        return lease();
    if (count == 3 && strcmp(words[1], "wire") == 0)
        return wire(words[2]);
    if (count == 3 && strcmp(words[1], "compare") == 0)
        return compare(words[2]);
    fprintf(stderr, "usage: field clocks TIMER_HZ BITRATE_HZ | throttles | lease | wire LANE | compare FILE\n");
    return 2;
}
