/* An example host. It lists a capture file, then drives two frame sets of a bank of four motors. The simulated ESC
 * replies in place of hardware. The wire of motor 3 is pulled. In the end an order fails.
 *
 *   host CAPTURE
 */
#include <stdio.h>

#include "kuzhenga.h"

/* ---- the capture file --------------------------------------------------------------------------------------- */

static uint32_t list_capture(FILE *f)
{
    static uint8_t file[KUZHENGA_FILE_BYTES + 1]; /* one byte more, so that a longer file is seen to be longer */
    uint8_t line[KUZHENGA_LINE_BYTES];
    uint16_t written[1];
    size_t n = fread(file, 1, sizeof file, f);
    uint32_t r = kuzhenga_list_capture(file, n, line, sizeof line, written, 1);
    if (r == KUZHENGA_DONE)
        printf("%s", (const char *)line); /* zeros follow the line */
    return r;
}

/* ---- orders and events -------------------------------------------------------------------------------------- */

static const char *const orders[] = {[KUZHENGA_EXCHANGE_BUFFER] = "exchange_buffer",
                                     [KUZHENGA_START_DMA] = "start_dma",
                                     [KUZHENGA_START_FRAME] = "start_frame",
                                     [KUZHENGA_STOP_FRAME] = "stop_frame",
                                     [KUZHENGA_FORCE_OUTPUTS_LOW] = "force_outputs_low",
                                     [KUZHENGA_PAUSE_AND_CLEAR] = "pause_and_clear",
                                     [KUZHENGA_BEGIN_RECEIVE] = "begin_receive",
                                     [KUZHENGA_END_RECEIVE] = "end_receive"};

static const char *const service_events[] = {[KUZHENGA_FRAME_STARTED] = "frame started",
                                             [KUZHENGA_BUSY] = "busy",
                                             [KUZHENGA_LEASE_EXPIRED] = "lease expired",
                                             [KUZHENGA_SERVICE_FAULTED] = "faulted"};

static const char *const interrupt_events[] = {[KUZHENGA_COMPLETED] = "completed",
                                               [KUZHENGA_INTERRUPT_FAULTED] = "faulted",
                                               [KUZHENGA_SPURIOUS] = "spurious"};

/* On a carrier the i-th order goes to the timers and DMA streams. Here it is printed. */
static void obey_one(const uint16_t *answer, unsigned i)
{
    uint16_t order = answer[KUZHENGA_FIRST_ORDER + i];
    unsigned kind = kuzhenga_order_kind(order);
    printf(" %s", orders[kind]);
    switch (kind) {
    case KUZHENGA_EXCHANGE_BUFFER: /* the lane's slots of that buffer */
        printf(":%u:%s", kuzhenga_order_lane(order), kuzhenga_order_buffer(order) ? "second" : "first");
        break;
    case KUZHENGA_START_DMA:
    case KUZHENGA_PAUSE_AND_CLEAR:
        printf(":%u", kuzhenga_order_lane(order));
        break;
    case KUZHENGA_START_FRAME: /* only a service gives this order */
        for (unsigned n = 0; n < KUZHENGA_LANES; n++)
            printf(" %u", answer[KUZHENGA_FIRST_DUTY + n]);
        break;
    default:
        break;
    }
}

static void obey(const uint16_t *answer)
{
    if (answer[KUZHENGA_ORDERS] == 0)
        printf(" no orders");
    for (unsigned i = 0; i < answer[KUZHENGA_ORDERS]; i++)
        obey_one(answer, i);
    printf("\n");
}

/* ---- the bank ----------------------------------------------------------------------------------------------- */

enum { PULLED = 3 }; /* the motor whose wire is pulled */

static uint16_t bank[KUZHENGA_BANK_SLOTS];
static uint16_t first[KUZHENGA_BUFFER_SLOTS], second[KUZHENGA_BUFFER_SLOTS];
static uint16_t samples[KUZHENGA_CAPTURE_SAMPLES];

static uint32_t serve(uint64_t now_ms)
{
    uint16_t answer[KUZHENGA_SERVICE_SLOTS];
    uint16_t lanes[KUZHENGA_HARDWARE_SLOTS];
    for (unsigned n = 0; n < KUZHENGA_LANES; n++) {
        lanes[KUZHENGA_TAKEN + n] = 1;
        lanes[KUZHENGA_PRESENT + n] = n != PULLED;
        lanes[KUZHENGA_MASKS + n] = (uint16_t)(1u << n);
    }
    uint32_t r = kuzhenga_bank_service(bank, KUZHENGA_BANK_SLOTS, now_ms, lanes, KUZHENGA_HARDWARE_SLOTS, first,
                                       KUZHENGA_BUFFER_SLOTS, second, KUZHENGA_BUFFER_SLOTS, samples,
                                       KUZHENGA_CAPTURE_SAMPLES, answer, KUZHENGA_SERVICE_SLOTS);
    if (r != KUZHENGA_DONE)
        return r;
    printf("service: %s,", service_events[answer[KUZHENGA_EVENT]]);
    obey(answer);
    return r;
}

/* The lane's stream completes, or is in error. */
static uint32_t interrupt(size_t motor, uint32_t dma_error)
{
    uint16_t answer[KUZHENGA_INTERRUPT_SLOTS];
    uint32_t r = kuzhenga_bank_on_dma_interrupt(bank, KUZHENGA_BANK_SLOTS, motor, !dma_error, dma_error, 1, 1, answer,
                                                KUZHENGA_INTERRUPT_SLOTS);
    if (r != KUZHENGA_DONE)
        return r;
    printf("interrupt %u: %s,", (unsigned)motor, interrupt_events[answer[KUZHENGA_EVENT]]);
    obey(answer);
    return r;
}

/* Four streams complete. They send the frame, or they fill the windows. */
static uint32_t complete_all(void)
{
    for (unsigned n = 0; n < KUZHENGA_LANES; n++) {
        uint32_t r = interrupt(n, 0);
        if (r != KUZHENGA_DONE)
            return r;
    }
    return KUZHENGA_DONE;
}

/* The simulated ESC answers on each lane's pin, with a period of 1000, 2000 and 3000 microseconds. The samples of the
 * pulled wire stay as they are. */
static uint32_t answer_all(void)
{
    for (unsigned n = 0; n < KUZHENGA_LANES; n++) {
        uint16_t value[1];
        if (n == PULLED)
            continue;
        uint32_t r = kuzhenga_period_value(1000 * (n + 1), value, 1);
        if (r != KUZHENGA_DONE)
            return r;
        r = kuzhenga_simulate_reply(samples + KUZHENGA_WINDOW_SAMPLES * n, KUZHENGA_WINDOW_SAMPLES, value[0], 10,
                                    1u << n);
        if (r != KUZHENGA_DONE)
            return r;
    }
    return KUZHENGA_DONE;
}

/* ---- the replies -------------------------------------------------------------------------------------------- */

static void print_lane(struct kuzhenga_replies taken, struct kuzhenga_reply_stats counts, unsigned n)
{
    uint32_t refusal = kuzhenga_lane_refusal(taken, n);
    if (refusal != KUZHENGA_DONE)
        printf("lane %u: refused %u, %s", n, (unsigned)refusal, kuzhenga_refusal_text(refusal));
    else
        printf("lane %u: %s %lu", n, kuzhenga_kind_name(kuzhenga_lane_kind(taken, n)),
               (unsigned long)kuzhenga_lane_number(taken, n));
    printf("; valid %lu, invalid %lu\n", (unsigned long)kuzhenga_lane_valid(counts, n),
           (unsigned long)kuzhenga_lane_invalid(counts, n));
}

static uint32_t print_replies(void)
{
    struct kuzhenga_replies taken;
    struct kuzhenga_reply_stats counts;
    uint32_t r = kuzhenga_bank_take_replies(bank, KUZHENGA_BANK_SLOTS, taken.slots, KUZHENGA_REPLIES_SLOTS);
    if (r != KUZHENGA_DONE)
        return r;
    r = kuzhenga_bank_reply_stats(bank, KUZHENGA_BANK_SLOTS, counts.slots, KUZHENGA_REPLY_STATS_SLOTS);
    if (r != KUZHENGA_DONE)
        return r;
    /* Look at the first slot first. If no replies are held, no window was read since the last call, and there is no
     * speed. */
    if (!kuzhenga_replies_held(taken)) {
        printf("replies: none held\n");
        return KUZHENGA_DONE;
    }
    for (unsigned n = 0; n < KUZHENGA_LANES; n++)
        print_lane(taken, counts, n);
    return KUZHENGA_DONE;
}

/* ---- two frame sets ----------------------------------------------------------------------------------------- */

static uint32_t begin(void)
{
    uint16_t timing[KUZHENGA_TIMING_SLOTS];
    uint32_t r = kuzhenga_timing_from_clocks(168000000, KUZHENGA_DSHOT600_HZ, timing, KUZHENGA_TIMING_SLOTS);
    if (r != KUZHENGA_DONE)
        return r;
    r = kuzhenga_bank_from_lanes(timing, KUZHENGA_TIMING_SLOTS, bank, KUZHENGA_BANK_SLOTS);
    if (r != KUZHENGA_DONE)
        return r;
    return kuzhenga_bank_enable_bidirectional(bank, KUZHENGA_BANK_SLOTS, 1);
}

static uint32_t drive(void)
{
    static const uint16_t throttles[KUZHENGA_LANES] = {100, 200, 300, KUZHENGA_MAX_THROTTLE};
    uint32_t r;
    if ((r = begin()) != KUZHENGA_DONE)
        return r;
    if ((r = kuzhenga_bank_command_throttles(bank, KUZHENGA_BANK_SLOTS, throttles, KUZHENGA_LANES, 1000, 20))
        != KUZHENGA_DONE)
        return r;
    if ((r = serve(1000)) != KUZHENGA_DONE)
        return r;
    if ((r = print_replies()) != KUZHENGA_DONE) /* none yet: the windows of this set are still to come */
        return r;
    if ((r = complete_all()) != KUZHENGA_DONE)
        return r;
    if ((r = answer_all()) != KUZHENGA_DONE)
        return r;
    if ((r = complete_all()) != KUZHENGA_DONE)
        return r;
    if ((r = serve(1001)) != KUZHENGA_DONE)
        return r;
    if ((r = print_replies()) != KUZHENGA_DONE)
        return r;
    /* Suppose that the order to start lane 2's stream failed: the stream is in error. That latches a fault. */
    if ((r = interrupt(2, 1)) != KUZHENGA_DONE)
        return r;
    return serve(1002);
}

int main(int argc, char **argv)
{
    if (argc != 2) {
        fprintf(stderr, "usage: host CAPTURE\n");
        return 2;
    }
    FILE *f = fopen(argv[1], "rb");
    if (!f) {
        perror(argv[1]);
        return 1;
    }
    uint32_t r = list_capture(f);
    fclose(f);
    if (r == KUZHENGA_DONE)
        r = drive();
    if (r != KUZHENGA_DONE)
        fprintf(stderr, "host: refused %u, %s\n", (unsigned)r, kuzhenga_refusal_text(r));
    return r != KUZHENGA_DONE;
}
