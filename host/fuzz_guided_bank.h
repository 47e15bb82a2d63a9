/* For host/fuzz_guided.c: an input as a list of calls of one bank, which is kept from call to call. Each call must
 * return, answer and leave the same as the bank of host/fuzz_guided_model.h.
 */
#ifndef FUZZ_GUIDED_BANK_H
#define FUZZ_GUIDED_BANK_H

#include "fuzz_guided_model.h"

static struct model model;
static uint16_t kept_bank[KUZHENGA_BANK_SLOTS];
static uint16_t kept_windows[KUZHENGA_CAPTURE_SAMPLES];
static uint16_t kept_buffers[2][KUZHENGA_BUFFER_SLOTS];
static uint64_t now_ms;

static struct slice *lend_bank(void)
{
    return lend_these(kept_bank, KUZHENGA_BANK_SLOTS, 2);
}

/* Ends a call that may write the bank. */
static int end_call(const char *name, uint32_t r, uint32_t wanted, uint32_t may)
{
    int done = check(name, r, may);
    memcpy(kept_bank, lent[0].at, sizeof kept_bank);
    agree("another answer than the model's", r, wanted);
    return done;
}

/* ---- looks ----------------------------------------------------------------------------------------------------- */

/* What a look gives. */
static const struct slice *looked(const char *name, look *call, size_t slots)
{
    struct slice *bank = show_these(kept_bank, KUZHENGA_BANK_SLOTS, 2), *out = lend_room(slots, 2);
    check(name, call(SLOTS(bank), SLOTS(out)), 0);
    return out;
}

static void check_flag(const char *name, look *call, int wanted)
{
    agree("another flag than the model's", slot(looked(name, call, 1), 0), wanted != 0);
}

static void check_counts(void)
{
    struct kuzhenga_stats stats;
    struct kuzhenga_reply_stats replies_of;
    memcpy(stats.slots, looked("bank_stats", kuzhenga_bank_stats, KUZHENGA_STATS_SLOTS)->at, sizeof stats.slots);
    for (size_t i = 0; i < STATS; i++)
        agree("another count than the model's", kuzhenga_pair_(stats.slots + 2 * i), model.counts[i]);
    memcpy(replies_of.slots, looked("bank_reply_stats", kuzhenga_bank_reply_stats, KUZHENGA_REPLY_STATS_SLOTS)->at,
           sizeof replies_of.slots);
    for (size_t n = 0; n < LANES; n++) {
        agree("another count of valid replies", kuzhenga_lane_valid(replies_of, n), model.lanes[n].valid);
        agree("another count of invalid replies", kuzhenga_lane_invalid(replies_of, n), model.lanes[n].invalid);
        agree("another count in a row", kuzhenga_lane_invalid_in_a_row(replies_of, n), model.lanes[n].in_a_row);
    }
}

/* Each lane sends the sequence that the model has in the lane's buffer. */
static void check_sending(void)
{
    for (size_t n = 0; n < LANES; n++) {
        struct slice *bank = show_these(kept_bank, KUZHENGA_BANK_SLOTS, 2);
        struct slice *first = show_these(kept_buffers[0], KUZHENGA_BUFFER_SLOTS, 2);
        struct slice *second = show_these(kept_buffers[1], KUZHENGA_BUFFER_SLOTS, 2);
        struct slice *out = lend_room(KUZHENGA_SEQUENCE_SLOTS, 2);
        check("bank_sending", kuzhenga_bank_sending(SLOTS(bank), SLOTS(first), SLOTS(second), n, SLOTS(out)), 0);
        if (memcmp(out->at, model.buffers[model.sends_from[n]] + KUZHENGA_SEQUENCE_SLOTS * n, out->bytes) != 0)
            fail("another sequence than the model's", n);
    }
}

static void check_looks(void)
{
    check_flag("bank_is_bidirectional", kuzhenga_bank_is_bidirectional, model.bidirectional);
    check_flag("bank_is_faulted", kuzhenga_bank_is_faulted, model.faulted);
    check_flag("bank_command_pending", kuzhenga_bank_command_pending, model.run_lane != NO_LANE);
    if (memcmp(looked("bank_requested_values", kuzhenga_bank_requested_values, LANES)->at, model.values,
               sizeof model.values) != 0)
        fail("other values than the model's", 0);
    check_counts();
}

/* ---- commands -------------------------------------------------------------------------------------------------- */

/* Mostly a lane that there is. */
static size_t some_lane(void)
{
    uint32_t drawn = below(32);
    return drawn < 31 ? drawn % LANES : lane();
}

static void new_bank(void)
{
    uint16_t timing[KUZHENGA_TIMING_SLOTS] = {279, 105, 210, 74};
    if (below(4) == 0)
        for (unsigned i = 0; i < KUZHENGA_TIMING_SLOTS; i++)
            timing[i] = (uint16_t)number();
    memset(kept_buffers, 0, sizeof kept_buffers);
    model_new(&model, timing);
    struct slice *bank = lend_room(KUZHENGA_BANK_SLOTS, 2), *of = show_these(timing, KUZHENGA_TIMING_SLOTS, 2);
    end_call("bank_from_lanes", kuzhenga_bank_from_lanes(SLOTS(of), SLOTS(bank)), KUZHENGA_DONE, 0);
}

static void enable(void)
{
    uint32_t receives = below(8);
    struct slice *bank = lend_bank();
    model.bidirectional = model.bidirectional || receives;
    end_call("bank_enable_bidirectional", kuzhenga_bank_enable_bidirectional(SLOTS(bank), receives),
             receives ? KUZHENGA_DONE : KUZHENGA_REPLIES_UNSUPPORTED, B(22));
}

static void stop(void)
{
    struct slice *bank = lend_bank();
    model_stop(&model);
    end_call("bank_command_stop", kuzhenga_bank_command_stop(SLOTS(bank)), KUZHENGA_DONE, 0);
}

static void throttle(void)
{
    uint16_t throttles[LANES];
    uint32_t lease_ms = below(16) ? below(8) : number();
    for (unsigned n = 0; n < LANES; n++)
        throttles[n] = (uint16_t)(below(4) ? 8 * below(251) : number());
    struct slice *bank = lend_bank(), *of = show_these(throttles, LANES, 2);
    end_call("bank_command_throttles", kuzhenga_bank_command_throttles(SLOTS(bank), SLOTS(of), now_ms, lease_ms),
             model_throttles(&model, throttles, now_ms, lease_ms), B(6) | B(18));
}

static void special(void)
{
    uint16_t run[KUZHENGA_RUN_SLOTS];
    size_t motor = some_lane();
    must(kuzhenga_command_spin_direction(below(2), run, KUZHENGA_RUN_SLOTS));
    if (below(2))
        run[3] = (uint16_t)below(4);
    if (below(4) == 0)
        run[below(KUZHENGA_RUN_SLOTS)] = (uint16_t)number();
    struct slice *bank = lend_bank(), *of = show_these(run, KUZHENGA_RUN_SLOTS, 2);
    end_call("bank_command_special", kuzhenga_bank_command_special(SLOTS(bank), motor, SLOTS(of)),
             model_special(&model, motor, run), B(12) | B(18) | B(19) | B(20));
}

static void request(void)
{
    size_t motor = some_lane();
    struct slice *bank = lend_bank();
    end_call("bank_request_telemetry", kuzhenga_bank_request_telemetry(SLOTS(bank), motor),
             model_request(&model, motor), B(12) | B(18) | B(21));
}

static void cancel(void)
{
    struct slice *bank = lend_bank();
    model.request = NO_LANE;
    end_call("bank_cancel_telemetry_request", kuzhenga_bank_cancel_telemetry_request(SLOTS(bank)), KUZHENGA_DONE, 0);
}

static void take_request_sent(void)
{
    struct slice *bank = lend_bank(), *out = lend_room(KUZHENGA_REQUEST_SENT_SLOTS, 2);
    int was_sent = model.request_sent != NO_LANE;
    end_call("bank_take_telemetry_request_sent", kuzhenga_bank_take_telemetry_request_sent(SLOTS(bank), SLOTS(out)),
             KUZHENGA_DONE, 0);
    agree("another flag of a request than the model's", slot(out, 0), (uint32_t)was_sent);
    agree("another lane of a request than the model's", slot(out, 1), was_sent ? model.request_sent : 0);
    model.request_sent = NO_LANE;
}

/* ---- replies --------------------------------------------------------------------------------------------------- */

static void take_replies(void)
{
    struct kuzhenga_replies taken;
    struct slice *bank = lend_bank(), *out = lend_room(KUZHENGA_REPLIES_SLOTS, 2);
    end_call("bank_take_replies", kuzhenga_bank_take_replies(SLOTS(bank), SLOTS(out)), KUZHENGA_DONE, 0);
    check_replies(out);
    memcpy(taken.slots, out->at, sizeof taken.slots);
    agree("another flag of replies than the model's", kuzhenga_replies_held(taken), (uint32_t)model.held);
    for (size_t n = 0; model.held && n < LANES; n++) {
        const struct lane_model *wanted = &model.lanes[n];
        agree("another refusal than the model's", kuzhenga_lane_refusal(taken, n), wanted->refusal);
        reached(REPLIES + (wanted->refusal ? 16 + wanted->refusal % 16 : kuzhenga_reading_kind(wanted->reading) % 16));
        if (wanted->refusal != KUZHENGA_DONE)
            continue;
        agree("another kind than the model's", kuzhenga_lane_kind(taken, n), kuzhenga_reading_kind(wanted->reading));
        agree("another number than the model's", kuzhenga_lane_number(taken, n),
              kuzhenga_reading_number(wanted->reading));
    }
    model.held = 0;
}

/* A simulated reply, at times with samples changed, or one level. */
static void change_window(size_t n)
{
    uint16_t *window = kept_windows + KUZHENGA_WINDOW_SAMPLES * n;
    if (below(8) == 0)
        memset(window, below(2) ? 0xff : 0, KUZHENGA_WINDOW_SAMPLES * sizeof *window);
    else
        must(kuzhenga_simulate_reply(window, KUZHENGA_WINDOW_SAMPLES, (uint32_t)random_number(2), below(90), 1));
    for (uint32_t left = below(4) ? 0 : below(8); left > 0; left--)
        window[below(KUZHENGA_WINDOW_SAMPLES)] ^= 1;
}

/* ---- services and interrupts ----------------------------------------------------------------------------------- */

static void check_answer(const struct slice *out, const struct model_answer *wanted, unsigned room)
{
    agree("another event than the model's", slot(out, KUZHENGA_EVENT), wanted->event);
    agree("another count of orders than the model's", slot(out, KUZHENGA_ORDERS), wanted->orders);
    for (unsigned i = 0; i < room; i++)
        agree("another order than the model's", slot(out, KUZHENGA_FIRST_ORDER + i), wanted->order[i]);
}

/* The hardware's answers: mostly all is well. */
static void serve(int all_well)
{
    uint16_t hardware[KUZHENGA_HARDWARE_SLOTS];
    struct model_answer wanted = {0};
    for (unsigned i = 0; i < KUZHENGA_HARDWARE_SLOTS; i++)
        hardware[i] = (uint16_t)(all_well || below(4) ? 1 : below(3));
    now_ms += all_well ? below(4) / 2 : below(4) ? below(4) : random_number(8);
    struct slice *bank = lend_bank(), *lanes = show_these(hardware, KUZHENGA_HARDWARE_SLOTS, 2);
    struct slice *first = lend_these(kept_buffers[0], KUZHENGA_BUFFER_SLOTS, 2);
    struct slice *second = lend_these(kept_buffers[1], KUZHENGA_BUFFER_SLOTS, 2);
    struct slice *samples = show_these(kept_windows, KUZHENGA_CAPTURE_SAMPLES, 2);
    struct slice *out = lend_room(KUZHENGA_SERVICE_SLOTS, 2);
    uint32_t r = kuzhenga_bank_service(SLOTS(bank), now_ms, SLOTS(lanes), SLOTS(first), SLOTS(second), SLOTS(samples),
                                       SLOTS(out));
    model_service(&model, now_ms, hardware, kept_windows, &wanted);
    memcpy(kept_buffers[0], first->at, first->bytes);
    memcpy(kept_buffers[1], second->at, second->bytes);
    end_call("bank_service", r, KUZHENGA_DONE, 0);
    if (memcmp(kept_buffers, model.buffers, sizeof kept_buffers) != 0)
        fail("other buffers than the model's", 0);
    check_answer(out, &wanted, KUZHENGA_FIRST_DUTY - KUZHENGA_FIRST_ORDER);
    for (unsigned n = 0; n < LANES; n++)
        agree("another first duty than the model's", slot(out, KUZHENGA_FIRST_DUTY + n), wanted.duties[n]);
    reached(SERVICES + 16u * wanted.event + wanted.orders);
    check_sending();
}

static void interrupt(struct interrupt i)
{
    struct model_answer wanted = {0};
    struct slice *bank = lend_bank(), *out = lend_room(KUZHENGA_INTERRUPT_SLOTS, 2);
    uint32_t r = kuzhenga_bank_on_dma_interrupt(SLOTS(bank), i.lane, i.complete, i.error, i.turned, i.turned_back,
                                                SLOTS(out));
    if (!end_call("bank_on_dma_interrupt", r, model_interrupt(&model, &i, &wanted), B(12)))
        return;
    check_answer(out, &wanted, KUZHENGA_INTERRUPT_SLOTS - KUZHENGA_FIRST_ORDER);
    reached(INTERRUPTS + 16u * wanted.event + wanted.orders);
}

/* An interrupt that is not due latches a fault, which ends what a list can reach. So most of those are left out. */
static void interrupt_if_due(struct interrupt i)
{
    int due = model.busy && i.lane < LANES && !(model.done >> i.lane & 1);
    if (due || below(8) == 0)
        interrupt(i);
}

/* Every lane's stream completes, and mostly the lanes turn. */
static void complete_all(void)
{
    uint32_t turned = below(8), turned_back = below(8);
    for (size_t n = 0; n < LANES; n++)
        interrupt_if_due((struct interrupt){n, 1, 0, turned, turned_back});
}

static void clocks(void)
{
    uint64_t started_ms = clock_ms(), later_ms = clock_ms();
    uint32_t lease_ms = number(), released_ms = number(), r;
    r = kuzhenga_command_lease_expired(started_ms, lease_ms, later_ms);
    note(calling = "command_lease_expired", r);
    agree("another answer than the clocks give", r, later_ms - started_ms > lease_ms);
    r = kuzhenga_fallback_release_due((uint32_t)later_ms, released_ms);
    note(calling = "fallback_release_due", r);
    agree("another answer than the clocks give", r, (uint32_t)later_ms - released_ms >= 2);
}

/* ---- the list -------------------------------------------------------------------------------------------------- */

/* A set and its windows. */
static void whole_set(void)
{
    serve(1);
    complete_all();
    if (model.receiving)
        complete_all();
}

/* A fault ends only with a new bank. */
static void begin_again(void)
{
    if (model.faulted || below(8) == 0)
        new_bank();
}

static void one_call(void)
{
    switch (below(18)) {
    case 0: begin_again(); break;
    case 1: enable(); break;
    case 2: stop(); break;
    case 3: throttle(); break;
    case 4: special(); break;
    case 5: request(); break;
    case 6: cancel(); break;
    case 7: take_request_sent(); break;
    case 8: take_replies(); break;
    case 9: change_window(below(LANES)); break;
    case 10: complete_all(); break;
    case 11: interrupt_if_due((struct interrupt){some_lane(), 1, 0, 1, 1}); break;
    case 12: interrupt((struct interrupt){some_lane(), below(4), below(4) == 0, below(4), below(4)}); break;
    case 13: serve(0); break;
    case 14: clocks(); break;
    case 15: whole_set(); break;
    default: serve(1);
    }
}

static void bank_list(const uint8_t *data, size_t size)
{
    take_numbers_from(data, size);
    for (size_t n = 0; n < LANES; n++)
        change_window(n);
    now_ms = seed;
    new_bank();
    if (below(4))
        enable();
    for (unsigned made = 0; made < 200 && source_left > 0; made++) {
        one_call();
        check_looks();
    }
}

#endif
