/* For host/fuzz_guided.c: an input as a capture file. What the calls give must agree with the file as kuzhenga.h
 * describes it, and with each other. The line of a file is that of its layers. What is read writes back to the same
 * bytes.
 */
#ifndef FUZZ_GUIDED_FILE_H
#define FUZZ_GUIDED_FILE_H

/* ---- a file, read by other code than the library's ------------------------------------------------------------- */

struct capture {
    uint32_t count, mask, edt;
    uint16_t samples[KUZHENGA_FILE_SAMPLES];
};

/* A number in the shortest form; 0 if there is none. */
static int read_number(const uint8_t **at, const uint8_t *end, uint32_t *number)
{
    *number = 0;
    for (unsigned shift = 0; shift < 21; shift += 7) {
        if (*at == end)
            return 0;
        uint8_t group = *(*at)++;
        *number |= (group & 127u) << shift;
        if (group < 128)
            return (shift == 0 || group != 0) && *number <= 65535;
    }
    return 0;
}

static int read_file(const uint8_t *at, size_t size, struct capture *read)
{
    const uint8_t *end = at + size;
    if (!read_number(&at, end, &read->count) || read->count > KUZHENGA_FILE_SAMPLES)
        return 0;
    if (!read_number(&at, end, &read->mask) || !read_number(&at, end, &read->edt) || read->edt > 1)
        return 0;
    for (uint32_t i = 0; i < read->count; i++) {
        uint32_t sample;
        if (!read_number(&at, end, &sample))
            return 0;
        read->samples[i] = (uint16_t)sample;
    }
    return at == end;
}

/* ---- reading and writing --------------------------------------------------------------------------------------- */

/* 1 if the bytes are a capture file, else 0. */
static int check_read(const uint8_t *data, size_t size, struct capture *wanted)
{
    int is_file = read_file(data, size, wanted);
    struct slice *file = show_these(data, size, 1);
    struct slice *samples = lend_room(KUZHENGA_FILE_SAMPLES, 2), *told = lend_room(KUZHENGA_COUNT_MASK_EDT_SLOTS, 2);
    size_t bytes = wanted->count * sizeof *wanted->samples;
    uint32_t r = kuzhenga_read_capture(BYTES(file), SLOTS(samples), SLOTS(told));
    check("read_capture", r, B(17));
    agree("no capture file was read, or one was refused", r, is_file ? KUZHENGA_DONE : KUZHENGA_NOT_A_CAPTURE);
    if (!is_file)
        return 0;
    agree("another count", slot(told, 0), wanted->count);
    agree("another mask", slot(told, 1), wanted->mask);
    agree("another EDT", slot(told, 2), wanted->edt);
    if (memcmp(samples->at, wanted->samples, bytes) != 0)
        fail("other samples", 0);
    if (memcmp(samples->at + bytes, samples->before + bytes, samples->bytes - bytes) != 0)
        fail("slots behind the samples were changed", 0);
    return 1;
}

static void check_written(const uint8_t *data, size_t size, const struct capture *c)
{
    struct slice *samples = show_these(c->samples, c->count, 2);
    struct slice *file = lend_room(KUZHENGA_FILE_BYTES, 1), *written = lend_room(1, 2);
    check("write_capture", kuzhenga_write_capture(SLOTS(samples), c->mask, c->edt, BYTES(file), SLOTS(written)), 0);
    agree("another length is written", slot(written, 0), size);
    if (memcmp(file->at, data, size) != 0)
        fail("other bytes are written", 0);
    if (memcmp(file->at + size, file->before + size, file->bytes - size) != 0)
        fail("bytes behind the file were changed", 0);
}

/* ---- the layers of a capture ----------------------------------------------------------------------------------- */

struct layers {
    uint32_t refusal, word, value;
    struct kuzhenga_reading reading;
};

static void count_edges(const struct capture *c)
{
    unsigned edges = 0;
    for (uint32_t i = 1; i < c->count; i++)
        edges += ((c->samples[i] & c->mask) != 0) != ((c->samples[i - 1] & c->mask) != 0);
    reached(EDGES + (edges < 63 ? edges : 63));
}

static struct layers read_layers(const struct capture *c)
{
    struct layers l = {.reading = KUZHENGA_NO_READING};
    struct slice *samples = show_these(c->samples, c->count, 2), *out = lend_room(KUZHENGA_WORD_SLOTS, 2);
    l.refusal = kuzhenga_reply_transitions(SLOTS(samples), c->mask, SLOTS(out));
    if (!check("reply_transitions", l.refusal, B(7) | B(8)))
        return l;
    l.word = slot(out, 0) | (uint32_t)slot(out, 1) << 16;
    reached(BITS + (unsigned)__builtin_popcount(l.word));
    out = lend_room(1, 2);
    l.refusal = kuzhenga_decode_gcr(l.word, SLOTS(out));
    if (!check("decode_gcr", l.refusal, B(9) | B(10)))
        return l;
    l.value = slot(out, 0);
    reached(VALUES + 16 * c->edt + (l.value >> 8 & 15));
    agree("a word that its value does not have", l.word, kuzhenga_reply_transitions_for(l.value));
    out = lend_room(KUZHENGA_READING_SLOTS, 2);
    l.refusal = kuzhenga_reply_from_value(l.value, c->edt, SLOTS(out));
    if (!check("reply_from_value", l.refusal, B(11)))
        return l;
    memcpy(l.reading.slots, out->at, out->bytes);
    reached(KINDS + (kuzhenga_reading_kind(l.reading) & 15));
    return l;
}

/* The reading at once is that of the layers. */
static void check_at_once(const struct capture *c, const struct layers *l)
{
    struct slice *samples = show_these(c->samples, c->count, 2), *out = lend_room(KUZHENGA_READING_SLOTS, 2);
    uint32_t r = kuzhenga_decode_sampled_reply(SLOTS(samples), c->mask, c->edt, SLOTS(out));
    if (check("decode_sampled_reply", r, B(7) | B(8) | B(9) | B(10) | B(11))
        && memcmp(out->at, l->reading.slots, out->bytes) != 0)
        fail("another reading than the layers give", slot(out, 0));
    agree("another answer than the layers give", r, l->refusal);
}

/* The simulated ESC's reply of the value reads as that value, wherever it begins. */
static void check_simulated(const struct capture *c, const struct layers *l)
{
    static struct capture simulated;
    simulated.count = KUZHENGA_WINDOW_SAMPLES, simulated.mask = c->mask, simulated.edt = c->edt;
    struct slice *samples = lend_room(KUZHENGA_WINDOW_SAMPLES, 2);
    check("simulate_reply", kuzhenga_simulate_reply(SLOTS(samples), l->value, 1 + l->word % 90, c->mask), 0);
    memcpy(simulated.samples, samples->at, samples->bytes);
    struct layers back = read_layers(&simulated);
    agree("another reading of the simulated reply", back.refusal, l->refusal);
    agree("another value of the simulated reply", back.value, l->value);
}

/* ---- the line -------------------------------------------------------------------------------------------------- */

static void check_line(const uint8_t *data, size_t size, const struct layers *l)
{
    static const char *const kinds[] = {"erpm", "temp", "volt", "amp", "debug1", "debug2", "debug3", "state", "edt"};
    char wanted[KUZHENGA_LINE_BYTES + 1] = {0};
    uint32_t kind = kuzhenga_reading_kind(l->reading);
    struct slice *file = show_these(data, size, 1);
    struct slice *line = lend_room(KUZHENGA_LINE_BYTES, 1), *length = lend_room(1, 2);
    check("list_capture", kuzhenga_list_capture(BYTES(file), BYTES(line), SLOTS(length)), 0);
    if (l->refusal != KUZHENGA_DONE)
        snprintf(wanted, sizeof wanted, "refused %u\n", (unsigned)l->refusal);
    else if (kind > KUZHENGA_EDT)
        fail("no such kind", kind);
    else
        snprintf(wanted, sizeof wanted, "%06x %03x %s %u\n", (unsigned)l->word, (unsigned)l->value, kinds[kind],
                 (unsigned)kuzhenga_reading_number(l->reading));
    agree("another length of the line", slot(length, 0), strlen(wanted));
    if (memcmp(line->at, wanted, KUZHENGA_LINE_BYTES) != 0)
        fail("another line than the layers give", l->refusal);
}

static void file_calls(const uint8_t *data, size_t size)
{
    static struct capture c;
    struct layers l = {.refusal = KUZHENGA_NOT_A_CAPTURE};
    if (check_read(data, size, &c)) {
        check_written(data, size, &c);
        count_edges(&c);
        l = read_layers(&c);
        check_at_once(&c, &l);
        if (l.refusal == KUZHENGA_DONE || l.refusal == KUZHENGA_ZERO_PERIOD)
            check_simulated(&c, &l);
    }
    check_line(data, size, &l);
}

#endif
