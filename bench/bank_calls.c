/*
 * The cycles of bank.rs as a host in C makes them. It keeps the bank's state in slots, and reads its hardware's
 * answers from registers. It makes one call for each throttle, service and interrupt, and writes every order to a
 * register.
 *
 * It is built twice. One build is for measuring. The other, with SUMMED, adds the orders up, for comparing.
 */
#include "bank_calls.h"
#include "kuzhenga.h"

#ifdef SUMMED
#define CYCLES called_cycles_summed
#else
#define CYCLES called_cycles
#endif

/* All goes well here. The registers are volatile: the compiler neither knows an answer nor leaves out an order. */
struct hardware {
    volatile uint16_t complete[KUZHENGA_LANES];
    volatile uint16_t failed[KUZHENGA_LANES];
    volatile uint16_t free[KUZHENGA_LANES];
    volatile uint16_t turned[2];
    volatile uint32_t order;
    uint32_t sum;
};

struct host {
    uint16_t bank[KUZHENGA_BANK_SLOTS];
    uint16_t lanes[KUZHENGA_HARDWARE_SLOTS];
    uint16_t answer[KUZHENGA_SERVICE_SLOTS];
    struct hardware hardware;
};

static inline void obey(struct host *host, uint32_t number)
{
    host->hardware.order = number;
#ifdef SUMMED
    host->hardware.sum += number;
#endif
}

/* In the sum an order is its kind and its lane: the buffers of bank.rs have no numbers. */
static inline void obey_order(struct host *host, uint16_t order)
{
    host->hardware.order = order;
#ifdef SUMMED
    host->hardware.sum += 8 * kuzhenga_order_kind(order) + kuzhenga_order_lane(order);
#endif
}

/* A refusal, or an event other than a frame set that started or a lane that is done. */
static inline void unusual(struct host *host, uint32_t number)
{
    if (number != 0)
        obey(host, number);
}

static inline void obey_answer(struct host *host)
{
    unsigned count = host->answer[KUZHENGA_ORDERS];

    unusual(host, host->answer[KUZHENGA_EVENT]);
    for (unsigned i = 0; i < count; i++)
        obey_order(host, host->answer[KUZHENGA_FIRST_ORDER + i]);
}

static inline void serve(struct host *host, uint64_t now_ms, const struct cycles *cycles, const uint16_t *captures)
{
    for (unsigned lane = 0; lane < KUZHENGA_LANES; lane++)
        host->lanes[KUZHENGA_TAKEN + lane] = host->hardware.free[lane];
    unusual(host, kuzhenga_bank_service(host->bank, KUZHENGA_BANK_SLOTS, now_ms, host->lanes, KUZHENGA_HARDWARE_SLOTS,
                                        cycles->first, KUZHENGA_BUFFER_SLOTS, cycles->second, KUZHENGA_BUFFER_SLOTS,
                                        captures, KUZHENGA_CAPTURE_SAMPLES, host->answer, KUZHENGA_SERVICE_SLOTS));
    obey_answer(host);
    for (unsigned lane = 0; lane < KUZHENGA_LANES; lane++)
        obey(host, host->answer[KUZHENGA_FIRST_DUTY + lane]);
}

static inline void interrupt(struct host *host, size_t motor)
{
    struct hardware *hardware = &host->hardware;

    unusual(host, kuzhenga_bank_on_dma_interrupt(host->bank, KUZHENGA_BANK_SLOTS, motor, hardware->complete[motor],
                                                 hardware->failed[motor], hardware->turned[0], hardware->turned[1],
                                                 host->answer, KUZHENGA_INTERRUPT_SLOTS));
    obey_answer(host);
}

static inline void start(struct host *host, const struct cycles *cycles)
{
    for (unsigned lane = 0; lane < KUZHENGA_LANES; lane++) {
        host->hardware.complete[lane] = 1;
        host->hardware.free[lane] = 1;
        host->lanes[KUZHENGA_PRESENT + lane] = cycles->present;
        host->lanes[KUZHENGA_MASKS + lane] = cycles->mask;
    }
    host->hardware.turned[0] = host->hardware.turned[1] = 1;
    unusual(host, kuzhenga_bank_from_lanes(cycles->timing, KUZHENGA_TIMING_SLOTS, host->bank, KUZHENGA_BANK_SLOTS));
    if (cycles->bidirectional)
        unusual(host, kuzhenga_bank_enable_bidirectional(host->bank, KUZHENGA_BANK_SLOTS, 1));
}

/* The rows of `Left` in bank.rs. */
static void count(struct host *host, uint32_t counts[24])
{
    struct kuzhenga_stats stats;
    struct kuzhenga_reply_stats replies;
    struct kuzhenga_replies taken;

    unusual(host, kuzhenga_bank_stats(host->bank, KUZHENGA_BANK_SLOTS, stats.slots, KUZHENGA_STATS_SLOTS));
    unusual(host, kuzhenga_bank_reply_stats(host->bank, KUZHENGA_BANK_SLOTS, replies.slots, KUZHENGA_REPLY_STATS_SLOTS));
    unusual(host, kuzhenga_bank_take_replies(host->bank, KUZHENGA_BANK_SLOTS, taken.slots, KUZHENGA_REPLIES_SLOTS));
    for (size_t lane = 0; lane < KUZHENGA_LANES; lane++) {
        counts[lane] = kuzhenga_lane_completions(stats, lane);
        counts[4 + lane] = kuzhenga_lane_valid(replies, lane);
        counts[8 + lane] = kuzhenga_lane_invalid(replies, lane);
        counts[12 + lane] = kuzhenga_lane_invalid_in_a_row(replies, lane);
        /* A refusal shows as 0, and so does a lane of which none is held. */
        counts[16 + lane] = kuzhenga_lane_refusal(taken, lane) == KUZHENGA_DONE ? kuzhenga_lane_number(taken, lane) : 0;
    }
    counts[20] = kuzhenga_frames_started(stats);
    counts[21] = kuzhenga_frames_completed(stats);
    counts[22] = kuzhenga_dma_faults(stats);
    counts[23] = host->hardware.sum;
}

void CYCLES(const struct cycles *cycles, uint32_t counts[24])
{
    struct host host = {.bank = {0}};

    start(&host, cycles);
    for (size_t n = 0; n < cycles->count; n++) {
        unusual(&host, kuzhenga_bank_command_throttles(host.bank, KUZHENGA_BANK_SLOTS, cycles->throttles + 4 * n,
                                                       KUZHENGA_LANES, n, cycles->lease_ms));
        serve(&host, n, cycles, cycles->captures + KUZHENGA_CAPTURE_SAMPLES * n);
        for (size_t i = 0; i < cycles->interrupts; i++)
            interrupt(&host, i % KUZHENGA_LANES);
    }
    count(&host, counts);
}
