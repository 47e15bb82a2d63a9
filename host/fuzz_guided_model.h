/* For host/fuzz_guided_bank.h: a bank in C, as kuzhenga.h and crates/dshot_bank_spec describe it. Packets, sequences,
 * command runs and the readings of windows are left to the library's smaller calls.
 */
#ifndef FUZZ_GUIDED_MODEL_H
#define FUZZ_GUIDED_MODEL_H

enum { LANES = KUZHENGA_LANES, NO_LANE = LANES, ALL_DONE = 15 };

/* The counts of kuzhenga_bank_stats. */
enum { STARTED, ENDED, LANE_ENDED, BUSY_SKIPS = 6, LEASE_ENDS, TIMEOUTS, FAULTS, SPURIOUS, STATS };

struct lane_model {
    uint32_t refusal, valid, invalid, in_a_row;
    struct kuzhenga_reading reading;
};

struct model {
    uint16_t timing[KUZHENGA_TIMING_SLOTS], values[LANES], run[KUZHENGA_RUN_SLOTS];
    uint16_t buffers[2][KUZHENGA_BUFFER_SLOTS];
    int bidirectional, busy, faulted, receiving, waiting, held, leased;
    unsigned sends_from[LANES], done; /* the buffer of each lane; a bit for each lane that is done */
    size_t request, request_sent, run_lane;
    uint64_t started_ms, leased_ms;
    uint32_t lease_ms, counts[STATS];
    struct lane_model lanes[LANES];
};

struct model_answer {
    uint16_t event, orders, order[KUZHENGA_FIRST_DUTY - KUZHENGA_FIRST_ORDER], duties[LANES];
};

/* For the smaller calls, whose slices are right and whose numbers are in range. */
static void must(uint32_t refusal)
{
    if (refusal != KUZHENGA_DONE)
        fail("a smaller call is refused", refusal);
}

/* ---- commands -------------------------------------------------------------------------------------------------- */

static void model_new(struct model *m, const uint16_t *timing)
{
    memset(m, 0, sizeof *m);
    memcpy(m->timing, timing, sizeof m->timing);
    m->request = m->request_sent = m->run_lane = NO_LANE;
}

static void model_stop(struct model *m)
{
    memset(m->values, 0, sizeof m->values);
    m->leased = 0;
}

static int any_value(const uint16_t *values, unsigned above)
{
    for (unsigned n = 0; n < LANES; n++)
        if (values[n] > above)
            return 1;
    return 0;
}

static uint32_t model_throttles(struct model *m, const uint16_t *throttles, uint64_t now_ms, uint32_t lease_ms)
{
    if (m->faulted)
        return KUZHENGA_FAULTED;
    if (any_value(throttles, KUZHENGA_MAX_THROTTLE))
        return KUZHENGA_THROTTLE_OUT_OF_RANGE;
    model_stop(m);
    if (any_value(throttles, 0)) {
        must(kuzhenga_throttles_to_dshot(throttles, LANES, m->values, LANES));
        m->leased = 1, m->leased_ms = now_ms, m->lease_ms = lease_ms;
    }
    return KUZHENGA_DONE;
}

static uint32_t model_special(struct model *m, size_t motor, const uint16_t *run)
{
    if (motor >= LANES)
        return KUZHENGA_NO_SUCH_MOTOR;
    if (m->faulted)
        return KUZHENGA_FAULTED;
    if (m->leased || any_value(m->values, 0))
        return KUZHENGA_MOTORS_RUNNING;
    if (m->run_lane != NO_LANE)
        return KUZHENGA_COMMAND_PENDING;
    m->run_lane = motor;
    memcpy(m->run, run, sizeof m->run);
    return KUZHENGA_DONE;
}

static uint32_t model_request(struct model *m, size_t motor)
{
    if (motor >= LANES)
        return KUZHENGA_NO_SUCH_MOTOR;
    if (m->faulted)
        return KUZHENGA_FAULTED;
    if (m->request != NO_LANE)
        return KUZHENGA_TELEMETRY_PENDING;
    m->request = motor;
    return KUZHENGA_DONE;
}

/* ---- orders and faults ----------------------------------------------------------------------------------------- */

static void give_order(struct model_answer *a, unsigned kind, unsigned buffer, unsigned lane)
{
    a->order[a->orders++] = (uint16_t)(8 * kind + 4 * buffer + lane);
}

static void model_fault(struct model *m, int spurious, struct model_answer *a)
{
    m->counts[FAULTS] += !m->faulted;
    m->counts[SPURIOUS] += spurious != 0;
    m->faulted = 1;
    m->busy = m->receiving = m->waiting = 0;
    m->request = m->request_sent = m->run_lane = NO_LANE;
    model_stop(m);
    give_order(a, KUZHENGA_FORCE_OUTPUTS_LOW, 0, 0);
    for (unsigned n = 0; n < LANES; n++)
        give_order(a, KUZHENGA_PAUSE_AND_CLEAR, 0, n);
}

/* ---- a service ------------------------------------------------------------------------------------------------- */

static void model_read(struct model *m, const uint16_t *hardware, const uint16_t *windows)
{
    m->waiting = 0, m->held = 1;
    for (unsigned n = 0; n < LANES; n++) {
        struct lane_model *lane = &m->lanes[n];
        memset(&lane->reading, 0, sizeof lane->reading);
        lane->refusal = KUZHENGA_NO_REPLY;
        const uint16_t *window = windows + KUZHENGA_WINDOW_SAMPLES * n;
        if (hardware[KUZHENGA_PRESENT + n])
            lane->refusal = kuzhenga_decode_sampled_reply(window, KUZHENGA_WINDOW_SAMPLES,
                                                          hardware[KUZHENGA_MASKS + n], 0, lane->reading.slots,
                                                          KUZHENGA_READING_SLOTS);
        lane->valid += lane->refusal == KUZHENGA_DONE;
        lane->invalid += lane->refusal != KUZHENGA_DONE;
        lane->in_a_row = lane->refusal == KUZHENGA_DONE ? 0 : lane->in_a_row + 1;
    }
}

/* The packets of the next set, and the lane whose request it carries. A run's command comes before that. */
static size_t model_packets(struct model *m, uint16_t *packets)
{
    uint16_t values[LANES], command[KUZHENGA_COMMAND_SLOTS] = {0};
    size_t carried = m->request, marked = m->request;
    memcpy(values, m->values, sizeof values);
    if (m->run_lane != NO_LANE && !any_value(values, 0))
        must(kuzhenga_command_next_value(m->run, KUZHENGA_RUN_SLOTS, command, KUZHENGA_COMMAND_SLOTS));
    if (command[0]) {
        values[m->run_lane] = command[1];
        marked = m->run_lane, carried = NO_LANE;
    } else {
        m->run_lane = NO_LANE;
    }
    must(m->bidirectional ? kuzhenga_four_motor_bidirectional_packets(values, LANES, marked, packets, LANES)
                          : kuzhenga_four_motor_packets(values, LANES, marked, packets, LANES));
    return carried;
}

/* Every lane's sequence into the buffer that it does not send from. */
static void model_encode(struct model *m, const uint16_t *packets, uint16_t *duties)
{
    for (unsigned n = 0; n < LANES; n++)
        must(kuzhenga_encode_compare_sequence(packets[n], m->timing, KUZHENGA_TIMING_SLOTS, duties + n, 1,
                                              m->buffers[!m->sends_from[n]] + KUZHENGA_SEQUENCE_SLOTS * n,
                                              KUZHENGA_SEQUENCE_SLOTS));
}

static void model_send(struct model *m, uint64_t now_ms, const uint16_t *taken, struct model_answer *a)
{
    uint16_t packets[LANES], duties[LANES];
    size_t carried = model_packets(m, packets);
    model_encode(m, packets, duties);
    for (unsigned n = 0; n < LANES; n++) {
        give_order(a, KUZHENGA_EXCHANGE_BUFFER, !m->sends_from[n], n);
        if (!taken[n]) {
            model_fault(m, 0, a);
            return;
        }
        m->sends_from[n] = !m->sends_from[n];
    }
    for (unsigned n = 0; n < LANES; n++)
        give_order(a, KUZHENGA_START_DMA, 0, n);
    give_order(a, KUZHENGA_START_FRAME, 0, 0);
    memcpy(a->duties, duties, sizeof duties);
    m->busy = 1, m->done = 0, m->started_ms = now_ms;
    m->counts[STARTED]++;
    if (carried != NO_LANE)
        m->request = NO_LANE, m->request_sent = carried;
}

static void model_busy(struct model *m, uint64_t now_ms, int expired, struct model_answer *a)
{
    m->counts[BUSY_SKIPS]++;
    a->event = expired ? KUZHENGA_LEASE_EXPIRED : KUZHENGA_BUSY;
    if (now_ms - m->started_ms > 1) {
        m->counts[TIMEOUTS]++;
        model_fault(m, 0, a);
        a->event = KUZHENGA_SERVICE_FAULTED;
    }
}

static void model_service(struct model *m, uint64_t now_ms, const uint16_t *hardware, const uint16_t *windows,
                          struct model_answer *a)
{
    m->request_sent = NO_LANE;
    a->event = KUZHENGA_SERVICE_FAULTED;
    if (m->faulted)
        return;
    int expired = m->leased && now_ms - m->leased_ms > m->lease_ms;
    if (expired) {
        model_stop(m);
        m->counts[LEASE_ENDS]++;
    }
    if (m->busy) {
        model_busy(m, now_ms, expired, a);
        return;
    }
    if (m->waiting)
        model_read(m, hardware, windows);
    model_send(m, now_ms, hardware + KUZHENGA_TAKEN, a);
    if (!m->faulted)
        a->event = expired ? KUZHENGA_LEASE_EXPIRED : KUZHENGA_FRAME_STARTED;
}

/* ---- an interrupt ---------------------------------------------------------------------------------------------- */

struct interrupt {
    size_t lane;
    uint32_t complete, error, turned, turned_back;
};

/* Every lane is done: the lanes turn around, or the set ends. */
static void model_all_done(struct model *m, const struct interrupt *i, struct model_answer *a)
{
    int opens = m->bidirectional && !m->receiving;
    int turns = opens ? i->turned != 0 : !m->receiving || i->turned_back;
    give_order(a, opens ? KUZHENGA_BEGIN_RECEIVE : m->receiving ? KUZHENGA_END_RECEIVE : KUZHENGA_STOP_FRAME, 0, 0);
    if (!turns) {
        model_fault(m, 0, a);
        a->event = KUZHENGA_INTERRUPT_FAULTED;
        return;
    }
    if (opens) {
        m->done = 0;
    } else {
        m->waiting = m->waiting || m->receiving;
        m->busy = 0;
        m->counts[ENDED]++;
    }
    m->receiving = opens;
}

static uint32_t model_interrupt(struct model *m, const struct interrupt *i, struct model_answer *a)
{
    if (i->lane >= LANES)
        return KUZHENGA_NO_SUCH_MOTOR;
    int due = m->busy && !(m->done >> i->lane & 1);
    int spurious = !due || (!i->error && !i->complete);
    give_order(a, KUZHENGA_PAUSE_AND_CLEAR, 0, (unsigned)i->lane);
    a->event = KUZHENGA_COMPLETED;
    if (m->faulted) {
        a->event = KUZHENGA_INTERRUPT_FAULTED;
    } else if (spurious || i->error) {
        model_fault(m, spurious, a);
        a->event = spurious ? KUZHENGA_SPURIOUS : KUZHENGA_INTERRUPT_FAULTED;
    } else {
        m->counts[LANE_ENDED + i->lane] += !m->receiving;
        m->done |= 1u << i->lane;
        if (m->done == ALL_DONE)
            model_all_done(m, i, a);
    }
    return KUZHENGA_DONE;
}

#endif
