/* Calls every exported function with slices of no, too few, enough and too many elements and random contents. Each
 * slice ends where a page begins that may not be touched. It fails in these cases:
 *   - A call returns a number that its header does not name, or takes a slice of another length.
 *   - A call changes a slice that it was lent to read, or refuses and changes any slice.
 *   - Orders, replies or a command are not as the header says.
 *
 *   fuzz [ROUNDS [SEED]]
 *
 * host/fuzz_guided.c defines GUIDED and includes this file. It then makes the numbers, and starts the calls.
 */
#define _DEFAULT_SOURCE
#include <stdio.h>
#include <stdlib.h>
#include <string.h>
#include <sys/mman.h>
#include <unistd.h>

#include "kuzhenga.h"

/* ---- random numbers --------------------------------------------------------------------------------------- */

static uint64_t seed = 1;

/* Marsaglia's. */
static uint64_t xorshift(void)
{
    seed ^= seed << 13;
    seed ^= seed >> 7;
    seed ^= seed << 17;
    return seed;
}

/* random_number: at least so many of its low bytes are random. note: is told what each call returned. */
#ifdef GUIDED
static uint64_t random_number(unsigned bytes);
static void note(const char *name, uint32_t r);
#else
static uint64_t random_number(unsigned bytes)
{
    (void)bytes;
    return xorshift();
}

static void note(const char *name, uint32_t r)
{
    (void)name, (void)r;
}
#endif

static uint32_t below(uint32_t n)
{
    return (uint32_t)(random_number(n <= 256 ? 1 : 4) % n);
}

/* Often a number near a limit, else any. */
static uint32_t number(void)
{
    static const uint32_t near[] = {0, 1, 2, 3, 4, 5, 47, 48, 255, 256, 511, 512, 2000, 2001, 2047, 2048,
                                    4095, 4096, 65535, 65536, 600000, 168000000, 0x7fffffff, 0xffffffff};
    return below(2) ? near[below(sizeof near / sizeof *near)] : (uint32_t)random_number(4);
}

static uint64_t clock_ms(void)
{
    return below(4) ? number() : random_number(8);
}

static size_t lane(void)
{
    return below(8) ? below(6) : (size_t)random_number(8);
}

/* ---- slices ----------------------------------------------------------------------------------------------- */

enum { MOST = 16384, SLICES = 8 };

struct slice {
    unsigned char *at;
    unsigned char *before; /* what it held */
    size_t len;            /* elements */
    size_t bytes;
    int fits;
    int read_only;
};

static unsigned char *ends[SLICES]; /* where each area's last page ends */
static unsigned char copies[SLICES][MOST];
static struct slice lent[SLICES];
static int lent_count;

static void make_areas(void)
{
    size_t page = (size_t)sysconf(_SC_PAGESIZE);
    size_t room = (MOST + page - 1) / page * page;
    for (int i = 0; i < SLICES; i++) {
        unsigned char *area = mmap(NULL, room + page, PROT_READ | PROT_WRITE, MAP_PRIVATE | MAP_ANONYMOUS, -1, 0);
        if (area == MAP_FAILED || mprotect(area + room, page, PROT_NONE) != 0) {
            perror("fuzz");
            exit(3);
        }
        ends[i] = area + room;
    }
}

static void fill(unsigned char *at, size_t bytes)
{
    uint32_t small = below(2) ? 6 : 32;
    switch (below(4)) {
    case 0:
        memset(at, 0, bytes);
        return;
    case 1:
        for (size_t i = 0; i < bytes; i++)
            at[i] = (unsigned char)(i % 2 ? 0 : below(small));
        return;
    case 2:
        memset(at, 0xff, bytes);
        return;
    default:
        for (size_t i = 0; i < bytes; i++)
            at[i] = (unsigned char)random_number(1);
    }
}

/* A length near the one that is asked for, and mostly that one. */
static size_t length_near(size_t asked)
{
    switch (below(16)) {
    case 0:
        return 0;
    case 1:
        return asked ? asked - 1 : 1;
    case 2:
        return asked + 1;
    case 3:
        return below(300);
    default:
        return asked;
    }
}

static struct slice *lend(size_t asked, size_t width)
{
    int k = lent_count++;
    struct slice *s = &lent[k];
    s->len = length_near(asked);
    s->bytes = s->len * width;
    s->fits = s->len == asked;
    s->read_only = 0;
    s->at = s->len == 0 && below(2) ? NULL : ends[k] - s->bytes;
    if (s->bytes)
        fill(s->at, s->bytes);
    s->before = copies[k];
    if (s->bytes)
        memcpy(s->before, s->at, s->bytes);
    return s;
}

/* A slice of which any length will do. */
static struct slice *lend_any(size_t usual, size_t width)
{
    struct slice *s = lend(usual, width);
    s->fits = 1;
    return s;
}

/* A slice that is only to be read. */
static struct slice *show(size_t asked, size_t width)
{
    struct slice *s = lend(asked, width);
    s->read_only = 1;
    return s;
}

static struct slice *show_any(size_t usual, size_t width)
{
    struct slice *s = lend_any(usual, width);
    s->read_only = 1;
    return s;
}

#define SLOTS(s) ((uint16_t *)(void *)(s)->at), (s)->len
#define BYTES(s) (s)->at, (s)->len

/* ---- what is checked ---------------------------------------------------------------------------------------- */

static const char *calling = "";
static unsigned long calls, refused_calls;

static void fail(const char *what, unsigned long r)
{
    fprintf(stderr, "fuzz: %s: %s (%lu)\n", calling, what, r);
    exit(1);
}

/* `may`: the refusals that the header names, one bit each. True where the call is done. */
static int check(const char *name, uint32_t r, uint32_t may)
{
    int fits = 1;
    calling = name;
    calls++;
    note(name, r);
    for (int i = 0; i < lent_count; i++)
        fits = fits && lent[i].fits;
    if (!fits && r != KUZHENGA_WRONG_LENGTH)
        fail("a slice of another length was taken", r);
    if (r != 0 && (r > 31 || !(may >> r & 1)))
        fail("a refusal that the header does not name", r);
    if (r != 0)
        refused_calls++;
    for (int i = 0; i < lent_count; i++)
        if ((r != 0 || lent[i].read_only) && lent[i].bytes
            && memcmp(lent[i].at, lent[i].before, lent[i].bytes) != 0)
            fail("a slice was changed that should not be", r);
    lent_count = 0;
    return r == 0;
}

/* What a slice holds in a slot, now and before the call. */
static uint16_t slot(const struct slice *s, size_t i)
{
    uint16_t held;
    memcpy(&held, s->at + 2 * i, 2);
    return held;
}

static uint16_t slot_before(const struct slice *s, size_t i)
{
    uint16_t held;
    memcpy(&held, s->before + 2 * i, 2);
    return held;
}

/* Orders for a lane name it, one that exchanges a buffer names that too, and zeros follow the last. */
static void check_orders(const struct slice *answer, unsigned events, unsigned room)
{
    unsigned orders = slot(answer, KUZHENGA_ORDERS);
    if (slot(answer, KUZHENGA_EVENT) >= events || orders > room)
        fail("no such event, or too many orders", orders);
    for (unsigned i = 0; i < room; i++) {
        uint16_t order = slot(answer, KUZHENGA_FIRST_ORDER + i);
        unsigned kind = kuzhenga_order_kind(order);
        int exchanges = kind == KUZHENGA_EXCHANGE_BUFFER;
        int of_lane = exchanges || kind == KUZHENGA_START_DMA || kind == KUZHENGA_PAUSE_AND_CLEAR;
        if (i < orders ? kind < KUZHENGA_EXCHANGE_BUFFER || kind > KUZHENGA_END_RECEIVE : order != 0)
            fail("no such order", order);
        if ((!exchanges && kuzhenga_order_buffer(order) != 0) || (!of_lane && kuzhenga_order_lane(order) != 0))
            fail("an order with a part too many", order);
    }
}

/* A lane has a reading, or one of the refusals of replies and zeros; each has 7 where none are held. */
static void check_replies(const struct slice *s)
{
    struct kuzhenga_replies taken;
    memcpy(taken.slots, s->at, sizeof taken.slots);
    if (kuzhenga_replies_held(taken) > 1)
        fail("no flag", kuzhenga_replies_held(taken));
    for (size_t n = 0; n < KUZHENGA_LANES; n++) {
        size_t at = KUZHENGA_LANE_REPLY + KUZHENGA_LANE_REPLY_SLOTS * n;
        uint32_t refusal = kuzhenga_lane_refusal(taken, n);
        if (refusal == KUZHENGA_DONE && kuzhenga_lane_kind(taken, n) > KUZHENGA_EDT)
            fail("no such kind", kuzhenga_lane_kind(taken, n));
        if (refusal != KUZHENGA_DONE && (refusal < KUZHENGA_NO_REPLY || refusal > KUZHENGA_ZERO_PERIOD))
            fail("no refusal of a reply", refusal);
        if (refusal != KUZHENGA_DONE && (slot(s, at + 1) | slot(s, at + 2) | slot(s, at + 3)) != 0)
            fail("a reading beside a refusal", refusal);
        if (!kuzhenga_replies_held(taken) && refusal != KUZHENGA_NO_REPLY)
            fail("a reply where none is held", refusal);
    }
}

/* An index above 1, however large, is spent, and the run stays; else its command is told. */
static void check_command(const struct slice *run, const struct slice *value)
{
    unsigned index = slot_before(run, 2);
    if (slot(value, 0) != (index <= 1) || slot(value, 1) != (index <= 1 ? slot_before(run, index) : 0))
        fail("not the next command of a run", index);
    if (index > 1 && memcmp(run->at, run->before, run->bytes) != 0)
        fail("a spent run was changed", index);
}

#define B(n) (1u << (n))

/* ---- the calls ------------------------------------------------------------------------------------------------ */

static void replies(void)
{
    struct slice *a, *b;
    (void)kuzhenga_reply_transitions_for(number());
    a = show_any(160, 2), b = lend(2, 2);
    check("reply_transitions", kuzhenga_reply_transitions(SLOTS(a), number(), SLOTS(b)), B(7) | B(8) | B(13));
    a = lend(1, 2);
    check("decode_gcr", kuzhenga_decode_gcr(number(), SLOTS(a)), B(9) | B(10) | B(13));
    a = lend(3, 2);
    check("reply_from_value", kuzhenga_reply_from_value(number(), number(), SLOTS(a)), B(11) | B(13));
    a = show_any(160, 2), b = lend(3, 2);
    check("decode_sampled_reply", kuzhenga_decode_sampled_reply(SLOTS(a), number(), number(), SLOTS(b)),
          B(7) | B(8) | B(9) | B(10) | B(11) | B(13));
    a = lend(2, 2);
    check("value_period", kuzhenga_value_period(number(), SLOTS(a)), B(11) | B(13));
    a = lend(1, 2);
    check("period_value", kuzhenga_period_value(number(), SLOTS(a)), B(13) | B(16));
    a = lend_any(160, 2);
    check("simulate_reply", kuzhenga_simulate_reply(SLOTS(a), number(), below(4) ? below(100) : lane(), number()),
          B(12) | B(13));
}

static void packets(void)
{
    struct slice *a, *b;
    if (kuzhenga_packet_from_value(number(), number()) > 65535)
        fail("no packet", 0);
    if (kuzhenga_packet_from_value_bidirectional(number(), number()) > 65535)
        fail("no packet", 0);
    a = lend(1, 2);
    check("packet_try_from_value", kuzhenga_packet_try_from_value(number(), number(), SLOTS(a)), B(5) | B(13));
    a = show(4, 2), b = lend(4, 2);
    check("four_motor_packets", kuzhenga_four_motor_packets(SLOTS(a), lane(), SLOTS(b)), B(13));
    a = show(4, 2), b = lend(4, 2);
    check("four_motor_bidirectional_packets",
          kuzhenga_four_motor_bidirectional_packets(SLOTS(a), lane(), SLOTS(b)), B(13));
    a = lend(3, 2);
    check("read_packet", kuzhenga_read_packet(number(), SLOTS(a)), B(13) | B(15));
}

static void sequences(void)
{
    struct slice *a, *b, *c;
    a = lend(4, 2);
    check("timing_from_clocks", kuzhenga_timing_from_clocks(number(), number(), SLOTS(a)),
          B(1) | B(2) | B(3) | B(4) | B(13));
    a = show(4, 2), b = lend(1, 2);
    check("duty_for_bit", kuzhenga_duty_for_bit(SLOTS(a), number(), SLOTS(b)), B(13));
    a = lend(22, 2);
    check("encode_packet", kuzhenga_encode_packet(number(), number(), SLOTS(a)), B(13));
    a = show(4, 2), b = lend(1, 2), c = lend(16, 2);
    check("encode_compare_sequence", kuzhenga_encode_compare_sequence(number(), SLOTS(a), SLOTS(b), SLOTS(c)),
          B(13));
    a = show(16, 2), b = show(4, 2), c = lend(3, 2);
    check("read_compare_sequence", kuzhenga_read_compare_sequence(number(), SLOTS(a), SLOTS(b), SLOTS(c)),
          B(13) | B(14) | B(15));
}

static void commands(void)
{
    struct slice *a, *b;
    (void)kuzhenga_throttle_to_dshot(number());
    a = show(4, 2), b = lend(4, 2);
    check("throttles_to_dshot", kuzhenga_throttles_to_dshot(SLOTS(a), SLOTS(b)), B(13));
    a = lend(4, 2);
    check("command_spin_direction", kuzhenga_command_spin_direction(number(), SLOTS(a)), B(13));
    a = lend(4, 2), b = lend(2, 2);
    if (check("command_next_value", kuzhenga_command_next_value(SLOTS(a), SLOTS(b)), B(13)))
        check_command(a, b);
    if (kuzhenga_command_lease_expired(clock_ms(), number(), clock_ms()) > 1)
        fail("no flag", 0);
    if (kuzhenga_fallback_release_due(number(), number()) > 1)
        fail("no flag", 0);
}

/* Sometimes the file of some samples, sometimes with a byte changed. */
static struct slice *some_file(void)
{
    static uint16_t samples[400];
    static uint8_t file[KUZHENGA_FILE_BYTES];
    uint16_t length[1];
    size_t count = below(400);
    struct slice *s = show_any(200, 1);
    if (below(4) == 0)
        return s;
    fill((unsigned char *)samples, sizeof samples);
    if (kuzhenga_write_capture(samples, count, number(), below(2), file, sizeof file, length, 1) != 0)
        fail("a capture was not written", 0);
    s->len = s->bytes = length[0];
    s->at = ends[lent_count - 1] - s->bytes;
    memcpy(s->at, file, s->bytes);
    if (below(4) == 0)
        s->at[below((uint32_t)s->bytes)] = (unsigned char)random_number(1);
    memcpy(s->before, s->at, s->bytes);
    return s;
}

static void captures(void)
{
    struct slice *a, *b, *c;
    a = some_file(), b = lend(KUZHENGA_FILE_SAMPLES, 2), c = lend(3, 2);
    check("read_capture", kuzhenga_read_capture(BYTES(a), SLOTS(b), SLOTS(c)), B(13) | B(17));
    a = show_any(below(8) ? 160 : KUZHENGA_FILE_SAMPLES, 2);
    b = lend(KUZHENGA_FILE_BYTES, 1), c = lend(1, 2);
    check("write_capture", kuzhenga_write_capture(SLOTS(a), number(), number(), BYTES(b), SLOTS(c)), B(13));
    a = some_file(), b = lend(KUZHENGA_LINE_BYTES, 1), c = lend(1, 2);
    check("list_capture", kuzhenga_list_capture(BYTES(a), BYTES(b), SLOTS(c)), B(13));
}

static void bank_commands(void)
{
    struct slice *a, *b;
    a = show(4, 2), b = lend(KUZHENGA_BANK_SLOTS, 2);
    check("bank_from_lanes", kuzhenga_bank_from_lanes(SLOTS(a), SLOTS(b)), B(13));
    a = lend(KUZHENGA_BANK_SLOTS, 2);
    check("bank_enable_bidirectional", kuzhenga_bank_enable_bidirectional(SLOTS(a), number()), B(13) | B(22));
    a = lend(KUZHENGA_BANK_SLOTS, 2);
    check("bank_command_stop", kuzhenga_bank_command_stop(SLOTS(a)), B(13));
    a = lend(KUZHENGA_BANK_SLOTS, 2), b = show(4, 2);
    check("bank_command_throttles", kuzhenga_bank_command_throttles(SLOTS(a), SLOTS(b), clock_ms(), number()),
          B(6) | B(13) | B(18));
    a = lend(KUZHENGA_BANK_SLOTS, 2), b = show(4, 2);
    check("bank_command_special", kuzhenga_bank_command_special(SLOTS(a), lane(), SLOTS(b)),
          B(12) | B(13) | B(18) | B(19) | B(20));
    a = lend(KUZHENGA_BANK_SLOTS, 2);
    check("bank_request_telemetry", kuzhenga_bank_request_telemetry(SLOTS(a), lane()),
          B(12) | B(13) | B(18) | B(21));
    a = lend(KUZHENGA_BANK_SLOTS, 2);
    check("bank_cancel_telemetry_request", kuzhenga_bank_cancel_telemetry_request(SLOTS(a)), B(13));
    a = lend(KUZHENGA_BANK_SLOTS, 2), b = lend(2, 2);
    check("bank_take_telemetry_request_sent", kuzhenga_bank_take_telemetry_request_sent(SLOTS(a), SLOTS(b)), B(13));
}

static void bank_cycle(void)
{
    struct slice *bank = lend(KUZHENGA_BANK_SLOTS, 2), *lanes = show(KUZHENGA_HARDWARE_SLOTS, 2);
    struct slice *first = lend(KUZHENGA_BUFFER_SLOTS, 2), *second = lend(KUZHENGA_BUFFER_SLOTS, 2);
    struct slice *samples = show(KUZHENGA_CAPTURE_SAMPLES, 2), *out = lend(KUZHENGA_SERVICE_SLOTS, 2);
    if (check("bank_service", kuzhenga_bank_service(SLOTS(bank), clock_ms(), SLOTS(lanes), SLOTS(first),
                                                    SLOTS(second), SLOTS(samples), SLOTS(out)), B(13)))
        check_orders(out, KUZHENGA_SERVICE_FAULTED + 1, KUZHENGA_FIRST_DUTY - KUZHENGA_FIRST_ORDER);
    bank = lend(KUZHENGA_BANK_SLOTS, 2), out = lend(KUZHENGA_INTERRUPT_SLOTS, 2);
    if (check("bank_on_dma_interrupt", kuzhenga_bank_on_dma_interrupt(SLOTS(bank), lane(), number(), below(2), number(),
                                                                      number(), SLOTS(out)), B(12) | B(13)))
        check_orders(out, KUZHENGA_SPURIOUS + 1, KUZHENGA_INTERRUPT_SLOTS - KUZHENGA_FIRST_ORDER);
    bank = lend(KUZHENGA_BANK_SLOTS, 2), out = lend(KUZHENGA_REPLIES_SLOTS, 2);
    if (check("bank_take_replies", kuzhenga_bank_take_replies(SLOTS(bank), SLOTS(out)), B(13)))
        check_replies(out);
}

typedef uint32_t look(const uint16_t *bank, size_t bank_len, uint16_t *out, size_t out_len);

static void bank_looks(void)
{
    static const struct {
        const char *name;
        look *call;
        size_t slots;
    } looks[] = {
        {"bank_is_bidirectional", kuzhenga_bank_is_bidirectional, 1},
        {"bank_is_faulted", kuzhenga_bank_is_faulted, 1},
        {"bank_command_pending", kuzhenga_bank_command_pending, 1},
        {"bank_requested_values", kuzhenga_bank_requested_values, 4},
        {"bank_stats", kuzhenga_bank_stats, KUZHENGA_STATS_SLOTS},
        {"bank_reply_stats", kuzhenga_bank_reply_stats, KUZHENGA_REPLY_STATS_SLOTS},
    };
    struct slice *bank, *first, *second, *out;
    for (size_t i = 0; i < sizeof looks / sizeof *looks; i++) {
        bank = show(KUZHENGA_BANK_SLOTS, 2), out = lend(looks[i].slots, 2);
        check(looks[i].name, looks[i].call(SLOTS(bank), SLOTS(out)), B(13));
    }
    bank = show(KUZHENGA_BANK_SLOTS, 2), first = show(KUZHENGA_BUFFER_SLOTS, 2);
    second = show(KUZHENGA_BUFFER_SLOTS, 2), out = lend(KUZHENGA_SEQUENCE_SLOTS, 2);
    check("bank_sending", kuzhenga_bank_sending(SLOTS(bank), SLOTS(first), SLOTS(second), lane(), SLOTS(out)),
          B(12) | B(13));
}

#ifndef GUIDED
int main(int argc, char **argv)
{
    unsigned long rounds = argc > 1 ? strtoul(argv[1], NULL, 10) : 20000;
    seed = argc > 2 ? strtoull(argv[2], NULL, 10) | 1 : 1;
    make_areas();
    for (unsigned long i = 0; i < rounds; i++) {
        replies();
        packets();
        sequences();
        commands();
        captures();
        bank_commands();
        bank_cycle();
        bank_looks();
    }
    printf("%lu rounds, %lu calls with slices, %lu refused, no finding\n", rounds, calls, refused_calls);
    return 0;
}
#endif
