/* Uses the header's helpers and constants as a host does, in C and in C++, without the archive. It fails if one of them
 * gives another number than it should.
 *
 *   helpers
 */
#include <string.h>

#include "expect.h"
#include "kuzhenga.h"

static void readings(void)
{
    const struct kuzhenga_reading speed = {{KUZHENGA_ERPM, 600, 0}}, most = {{KUZHENGA_ERPM, 10176, 9}};
    const struct kuzhenga_word word = {{0xbdf9, 0x17}};
    const struct kuzhenga_period period = {{65280, 128}};
    expect("the kind of a reading", kuzhenga_reading_kind(speed), KUZHENGA_ERPM);
    expect("the number of a reading", kuzhenga_reading_number(speed), 600);
    expect("the largest speed", kuzhenga_reading_number(most), 600000);
    expect("a word", kuzhenga_word_bits(word), 0x17bdf9);
    expect("the longest period", kuzhenga_period_us(period), 65280);
    expect("its step", kuzhenga_period_step(period), 128);
    const struct kuzhenga_reading none = KUZHENGA_NO_READING;
    expect("the kind of no reading", kuzhenga_reading_kind(none), KUZHENGA_NO_KIND);
    expect("the number of no reading", kuzhenga_reading_number(none), KUZHENGA_NO_NUMBER);
}

/* A speed of 600, a refusal, the acknowledgement of EDT, and the largest speed. */
static void replies(void)
{
    const struct kuzhenga_replies some = {{1, 0, 0, 600, 0, 7, 0, 0, 0, 0, 8, 0, 0, 0, 0, 10176, 9}};
    const struct kuzhenga_replies none = {{0, 7, 0, 0, 0, 7, 0, 0, 0, 7, 0, 0, 0, 7, 0, 0, 0}};
    expect("some are held", kuzhenga_replies_held(some), 1);
    expect("none are held", kuzhenga_replies_held(none), 0);
    expect("lane 0's refusal", kuzhenga_lane_refusal(some, 0), KUZHENGA_DONE);
    expect("lane 0's kind", kuzhenga_lane_kind(some, 0), KUZHENGA_ERPM);
    expect("lane 0's number", kuzhenga_lane_number(some, 0), 600);
    expect("lane 1's refusal", kuzhenga_lane_refusal(some, 1), KUZHENGA_NO_REPLY);
    expect("lane 1's kind", kuzhenga_lane_kind(some, 1), KUZHENGA_NO_KIND);
    expect("lane 1's number", kuzhenga_lane_number(some, 1), KUZHENGA_NO_NUMBER);
    expect("lane 2's kind", kuzhenga_lane_kind(some, 2), KUZHENGA_EDT);
    expect("lane 3's number", kuzhenga_lane_number(some, 3), 600000);
    expect("lane 4's refusal", kuzhenga_lane_refusal(some, 4), KUZHENGA_NO_SUCH_MOTOR);
    expect("lane 4's number", kuzhenga_lane_number(some, 4), KUZHENGA_NO_NUMBER);
    expect("the last lane's number", kuzhenga_lane_number(some, SIZE_MAX), KUZHENGA_NO_NUMBER);
    for (size_t n = 0; n < KUZHENGA_LANES; n++)
        expect("a number where none are held", kuzhenga_lane_number(none, n), KUZHENGA_NO_NUMBER);
    /* If a call is refused and leaves zeros, they must not read as a rotor at rest. */
    const struct kuzhenga_replies zeros = {{0}};
    expect("the refusal of zeros", kuzhenga_lane_refusal(zeros, 0), KUZHENGA_NO_REPLY);
    expect("the number of zeros", kuzhenga_lane_number(zeros, 0), KUZHENGA_NO_NUMBER);
}

/* The count in the i-th pair of slots is 65537 i. */
static void counts(void)
{
    struct kuzhenga_stats stats;
    struct kuzhenga_reply_stats of_replies;
    for (unsigned i = 0; i < KUZHENGA_STATS_SLOTS; i++)
        stats.slots[i] = (uint16_t)(i / 2);
    for (unsigned i = 0; i < KUZHENGA_REPLY_STATS_SLOTS; i++)
        of_replies.slots[i] = (uint16_t)(i / 2);
    expect("frames started", kuzhenga_frames_started(stats), 0);
    expect("frames completed", kuzhenga_frames_completed(stats), 65537);
    for (unsigned n = 0; n < KUZHENGA_LANES; n++) {
        expect("a lane's completions", kuzhenga_lane_completions(stats, n), 65537ul * (2 + n));
        expect("a lane's valid replies", kuzhenga_lane_valid(of_replies, n), 65537ul * n);
        expect("a lane's invalid replies", kuzhenga_lane_invalid(of_replies, n), 65537ul * (4 + n));
        expect("those in a row", kuzhenga_lane_invalid_in_a_row(of_replies, n), 65537ul * (8 + n));
    }
    expect("busy skips", kuzhenga_busy_skips(stats), 65537ul * 6);
    expect("lease expiries", kuzhenga_lease_expiries(stats), 65537ul * 7);
    expect("frame timeouts", kuzhenga_frame_timeouts(stats), 65537ul * 8);
    expect("DMA faults", kuzhenga_dma_faults(stats), 65537ul * 9);
    expect("spurious interrupts", kuzhenga_spurious_interrupts(stats), 65537ul * 10);
    expect("lane 4's completions", kuzhenga_lane_completions(stats, 4), 0);
    expect("lane 4's replies", kuzhenga_lane_invalid_in_a_row(of_replies, 4), 0);
}

static void orders(void)
{
    for (unsigned kind = KUZHENGA_EXCHANGE_BUFFER; kind <= KUZHENGA_END_RECEIVE; kind++)
        for (unsigned rest = 0; rest < 8; rest++) {
            uint16_t order = (uint16_t)(8 * kind + rest);
            expect("an order's kind", kuzhenga_order_kind(order), kind);
            expect("an order's buffer", kuzhenga_order_buffer(order), rest / 4);
            expect("an order's lane", kuzhenga_order_lane(order), rest % 4);
        }
}

/* Each refusal has a text of its own. All other numbers share one text. */
static void texts(void)
{
    for (uint32_t a = KUZHENGA_DONE; a <= KUZHENGA_REPLIES_UNSUPPORTED; a++)
        for (uint32_t b = a + 1; b <= KUZHENGA_REPLIES_UNSUPPORTED + 1; b++)
            expect("the same text twice", strcmp(kuzhenga_refusal_text(a), kuzhenga_refusal_text(b)) == 0, 0);
    expect("a text of none", strcmp(kuzhenga_refusal_text(23), kuzhenga_refusal_text(UINT32_MAX)) == 0, 1);
    expect("the text of 18", strcmp(kuzhenga_refusal_text(18), "the bank has latched a fault") == 0, 1);
    expect("the name of kind 0", strcmp(kuzhenga_kind_name(KUZHENGA_ERPM), "erpm") == 0, 1);
    expect("the name of kind 6", strcmp(kuzhenga_kind_name(KUZHENGA_DEBUG3), "debug3") == 0, 1);
    expect("the name of kind 8", strcmp(kuzhenga_kind_name(KUZHENGA_EDT), "edt") == 0, 1);
    expect("the name of no kind", strcmp(kuzhenga_kind_name(9), kuzhenga_kind_name(KUZHENGA_NO_KIND)) == 0, 1);
}

/* Adds and compares constants of different groups, as hosts do. */
static void sums(void)
{
    uint16_t answers[KUZHENGA_SERVICE_SLOTS + KUZHENGA_INTERRUPT_SLOTS + KUZHENGA_REPLIES_SLOTS] = {0};
    const unsigned late = KUZHENGA_VERSION_MAJOR > 0 || KUZHENGA_VERSION_MINOR >= 2;
    uint16_t value = late ? KUZHENGA_MAX_VALUE : KUZHENGA_MAX_THROTTLE;
    expect("slots", sizeof answers / sizeof *answers, 15 + 9 + 17);
    expect("the masks", KUZHENGA_PRESENT + KUZHENGA_LANES, KUZHENGA_MASKS);
    expect("the first duty", KUZHENGA_FIRST_ORDER + 2 * KUZHENGA_LANES + 1, KUZHENGA_FIRST_DUTY);
    expect("lane 3's reply", KUZHENGA_LANE_REPLY + KUZHENGA_LANE_REPLY_SLOTS * KUZHENGA_LANES, KUZHENGA_REPLIES_SLOTS);
    expect("a buffer", KUZHENGA_BUFFER_SLOTS / KUZHENGA_LANES, KUZHENGA_SEQUENCE_SLOTS);
    expect("a capture", KUZHENGA_CAPTURE_SAMPLES - 3 * KUZHENGA_WINDOW_SAMPLES, KUZHENGA_WINDOW_SAMPLES);
    expect("a command", KUZHENGA_COMMAND_SPIN_NORMAL + 1, KUZHENGA_COMMAND_SPIN_REVERSED);
    expect("a command that is one", KUZHENGA_COMMAND_SAVE_SETTINGS < KUZHENGA_MAX_COMMAND, 1);
    expect("a value", value, 2047);
#if KUZHENGA_VERSION_MAJOR == 0 && KUZHENGA_DSHOT600_HZ != 600000
#error "DShot600 has another bit rate"
#endif
}

int main(void)
{
    readings();
    replies();
    counts();
    orders();
    texts();
    sums();
    return expected();
}
