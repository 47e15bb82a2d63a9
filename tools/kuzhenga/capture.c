/* Reads a capture file, and asks the library what it says. */
#define _POSIX_C_SOURCE 200809L
#include "capture.h"

#include <errno.h>
#include <stdio.h>
#include <string.h>
#include <unistd.h>

static bool complain(const char *name)
{
    fprintf(stderr, "kuzhenga: %s: %s\n", name, strerror(errno));
    return false;
}

bool load_capture(const char *name, struct capture *capture)
{
    memset(capture, 0, sizeof *capture);
    bool standard = strcmp(name, "-") == 0;
    capture->name = standard ? "standard input" : name;
    if (standard && isatty(STDIN_FILENO))
        fprintf(stderr, "kuzhenga: waiting for a capture file on standard input\n");
    FILE *stream = standard ? stdin : fopen(name, "rb");
    if (stream == NULL)
        return complain(capture->name);
    capture->bytes = fread(capture->file, 1, sizeof capture->file, stream);
    bool failed = ferror(stream) != 0;
    if (failed)
        complain(capture->name);
    if (!standard)
        fclose(stream);
    return !failed;
}

static void read_line(const struct capture *capture, struct reply *reply)
{
    uint8_t line[KUZHENGA_LINE_BYTES];
    uint16_t length[1] = {0};
    uint32_t refusal = kuzhenga_list_capture(capture->file, capture->bytes, line, sizeof line, length, 1);
    if (refusal == KUZHENGA_DONE && length[0] > 0)
        memcpy(reply->line, line, length[0] - 1u);
}

static uint32_t read_file(struct capture *capture)
{
    uint16_t head[KUZHENGA_COUNT_MASK_EDT_SLOTS];
    uint32_t refusal = kuzhenga_read_capture(capture->file, capture->bytes, capture->samples, KUZHENGA_FILE_SAMPLES,
                                             head, KUZHENGA_COUNT_MASK_EDT_SLOTS);
    if (refusal == KUZHENGA_DONE) {
        capture->count = head[0];
        capture->mask = head[1];
        capture->edt = head[2];
    }
    return refusal;
}

static uint32_t read_layers(struct capture *capture, struct reply *reply)
{
    uint32_t refusal = read_file(capture);
    if (refusal != KUZHENGA_DONE)
        return refusal;
    struct kuzhenga_word word;
    refusal = kuzhenga_reply_transitions(capture->samples, capture->count, capture->mask, word.slots,
                                         KUZHENGA_WORD_SLOTS);
    if (refusal != KUZHENGA_DONE)
        return refusal;
    reply->has_word = true;
    reply->word = kuzhenga_word_bits(word);
    uint16_t value[1];
    refusal = kuzhenga_decode_gcr(reply->word, value, 1);
    if (refusal != KUZHENGA_DONE)
        return refusal;
    reply->has_value = true;
    reply->value = value[0];
    return kuzhenga_reply_from_value(reply->value, capture->edt, reply->reading.slots, KUZHENGA_READING_SLOTS);
}

void read_reply(struct capture *capture, struct reply *reply)
{
    memset(reply, 0, sizeof *reply);
    reply->reading = (struct kuzhenga_reading)KUZHENGA_NO_READING;
    read_line(capture, reply);
    reply->refusal = read_layers(capture, reply);
}

bool is_high(const struct capture *capture, size_t at)
{
    return (capture->samples[at] & capture->mask) != 0;
}

size_t run_end(const struct capture *capture, size_t from)
{
    size_t end = from + 1;
    while (end < capture->count && is_high(capture, end) == is_high(capture, from))
        end++;
    return end;
}
