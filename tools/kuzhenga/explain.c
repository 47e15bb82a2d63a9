/* Says in sentences what a reply means, or why a capture is refused. */
#include "explain.h"

#include <stdarg.h>
#include <stdio.h>
#include <string.h>

#include "symbols.h"

static const char *const places[] = {"first", "second", "third", "fourth"};

__attribute__((format(printf, 2, 3))) static void say(char *text, const char *format, ...)
{
    size_t used = strlen(text);
    if (used > 0 && used + 1 < EXPLANATION_BYTES)
        text[used++] = ' ';
    va_list words;
    va_start(words, format);
    vsnprintf(text + used, EXPLANATION_BYTES - used, format, words);
    va_end(words);
}

/* ---- refusals ----------------------------------------------------------------------------------------------- */

static void explain_edges(const struct capture *capture, const struct layout *layout, char *text)
{
    size_t low = is_high(capture, 0) ? run_end(capture, 0) : 0;
    if (!layout->started)
        say(text, "The line falls at sample %zu, and fewer than 57 samples are left. %s", low,
            "The reply comes too late, or the capture is too short.");
    else if (run_end(capture, layout->start) == capture->count)
        say(text, "The line stays low from sample %zu on: look at the wire and the pull-up.", layout->start);
    else
        say(text, "From the start edge at sample %zu on there are %u bits up to the last edge, and 18 are needed. %s",
            low, layout->count, "Look at the sample rate (three samples a bit), and for a spike before the reply.");
}

static void explain_no_reply(const struct capture *capture, const struct layout *layout, char *text)
{
    if (capture->count == 0)
        say(text, "The file has no samples.");
    else if (capture->mask == 0)
        say(text, "The mask is 0, so every sample is low: write the mask of the motor's pin into the file.");
    else if (run_end(capture, 0) < capture->count)
        explain_edges(capture, layout, text);
    else if (is_high(capture, 0))
        say(text, "The line stays high: the ESC sent nothing, the wire is off, or the mask is another pin's.");
    else
        say(text, "The line stays low: look at the wire, the pull-up and the mask.");
}

static void explain_symbols(const struct reply *reply, char *text)
{
    for (unsigned n = 0; n < SYMBOLS; n++) {
        unsigned symbol = symbol_at(reply->word, n);
        char bits[6] = "";
        for (unsigned i = 0; i < 5; i++)
            bits[i] = symbol >> (4 - i) & 1u ? '1' : '0';
        if (nibble_of(symbol) == NO_NIBBLE)
            say(text, "The five bits %s of the %s symbol stand for no nibble.", bits, places[n]);
    }
}

static void explain_checksum(const struct reply *reply, char *text)
{
    say(text, "The nibbles %x, %x and %x need the checksum %x, and the reply has %x.", nibble_at(reply->word, 0),
        nibble_at(reply->word, 1), nibble_at(reply->word, 2), needed_checksum(reply->word),
        nibble_at(reply->word, CHECKSUM_SYMBOL));
}

static void explain_other_edt(const struct capture *capture, const struct reply *reply, char *text)
{
    struct kuzhenga_reading other = KUZHENGA_NO_READING;
    if (capture->edt || kuzhenga_reply_from_value(reply->value, 1, other.slots, KUZHENGA_READING_SLOTS))
        return;
    uint32_t kind = kuzhenga_reading_kind(other);
    if (kind != KUZHENGA_ERPM)
        say(text, "The file says that EDT is off. If EDT is on in the ESC, this is %s %u.", kuzhenga_kind_name(kind),
            (unsigned)kuzhenga_reading_number(other));
}

/* ---- edges -------------------------------------------------------------------------------------------------- */

/* An edge between two symbols that is a bit early or late gives another reply in few cases. The library tells which. */
static void explain_moved_edge(const struct capture *capture, const struct reply *reply, char *text)
{
    for (unsigned boundary = 15; boundary >= 5; boundary -= 5) {
        uint32_t pair = UINT32_C(3) << (boundary - 1);
        uint32_t held = reply->word & pair;
        uint16_t value[1];
        struct kuzhenga_reading other = KUZHENGA_NO_READING;
        if (held == 0 || held == pair || kuzhenga_decode_gcr(reply->word ^ pair, value, 1) != KUZHENGA_DONE)
            continue;
        if (kuzhenga_reply_from_value(value[0], capture->edt, other.slots, KUZHENGA_READING_SLOTS) != KUZHENGA_DONE)
            continue;
        say(text, "Beware: if one edge between two symbols was a bit early or late, the ESC sent %03x (%s %u).",
            value[0], kuzhenga_kind_name(kuzhenga_reading_kind(other)), (unsigned)kuzhenga_reading_number(other));
        say(text, "Compare with the replies before and after.");
    }
}

static void explain_refusal(const struct capture *capture, const struct layout *layout, const struct reply *reply,
                            char *text)
{
    say(text, "Refused with %u: %s.", (unsigned)reply->refusal, kuzhenga_refusal_text(reply->refusal));
    switch (reply->refusal) {
    case KUZHENGA_NO_REPLY:
        explain_no_reply(capture, layout, text);
        break;
    case KUZHENGA_OVERLONG:
        say(text, "From the start edge at sample %zu on there are more than 21 bits.", layout->start);
        say(text, "Look at the sample rate (three samples a bit), and for a spike before the reply.");
        break;
    case KUZHENGA_INVALID_SYMBOL:
        explain_symbols(reply, text);
        break;
    case KUZHENGA_CHECKSUM:
        explain_checksum(reply, text);
        break;
    case KUZHENGA_ZERO_PERIOD:
        say(text, "The value %03x stands for a period of 0.", (unsigned)reply->value);
        explain_other_edt(capture, reply, text);
        explain_moved_edge(capture, reply, text);
        break;
    default:
        say(text, "It has %s%zu byte%s.", capture->bytes > KUZHENGA_FILE_BYTES ? "at least " : "", capture->bytes,
            capture->bytes == 1 ? "" : "s");
        say(text, "A number in it is wrong, samples are missing, or bytes follow the last sample.");
        break;
    }
}

/* ---- readings ----------------------------------------------------------------------------------------------- */

/* An ESC sends the smallest exponent that nine bits allow. Another value is a sign of a wrong bit. */
static bool is_usual(const struct reply *reply, unsigned us, char *text)
{
    uint16_t value[1];
    if (kuzhenga_period_value(us, value, 1) != KUZHENGA_DONE || value[0] == reply->value)
        return true;
    say(text, "Beware: an ESC usually sends %03x for this period, so a bit may be wrong.", value[0]);
    return false;
}

static void explain_speed(const struct reply *reply, char *text)
{
    struct kuzhenga_period period;
    if (kuzhenga_value_period(reply->value, period.slots, KUZHENGA_PERIOD_SLOTS) != KUZHENGA_DONE)
        return;
    unsigned us = (unsigned)kuzhenga_period_us(period);
    unsigned step = (unsigned)kuzhenga_period_step(period);
    if (us == 0) {
        say(text, "The rotor is at rest, or an electrical turn takes 65408 us or more.");
        return;
    }
    say(text, "The value stands for %u us an electrical turn. It is sent in nine bits, here in steps of %u us.", us,
        step);
    if (is_usual(reply, us, text) && step > 1)
        say(text, "If the ESC cuts off what does not fit, the true period is at least %u and less than %u us.", us,
            us + step);
}

static void explain_reading(const struct reply *reply, char *text)
{
    unsigned number = (unsigned)kuzhenga_reading_number(reply->reading);
    switch (kuzhenga_reading_kind(reply->reading)) {
    case KUZHENGA_ERPM:
        explain_speed(reply, text);
        break;
    case KUZHENGA_TEMP:
        say(text, "The temperature is %u degrees Celsius.", number);
        break;
    case KUZHENGA_VOLT:
        say(text, "The voltage is %u.%02u V.", number / 4, number % 4 * 25);
        break;
    case KUZHENGA_AMP:
        say(text, "The current is %u A.", number);
        break;
    case KUZHENGA_STATE:
        say(text, "The ESC reports the state or event byte %u.", number);
        break;
    case KUZHENGA_EDT:
        say(text, "The ESC acknowledges the command to turn on extended telemetry (EDT).");
        break;
    default:
        say(text, "The ESC sends the debug byte %u.", number);
        break;
    }
}

/* ---- the capture -------------------------------------------------------------------------------------------- */

/* No whole bit lasts a single sample. */
static void explain_spike(const struct capture *capture, const struct layout *layout, bool is_read, char *text)
{
    size_t end = layout->start + KUZHENGA_REPLY_SAMPLES;
    for (size_t from = layout->start; from < capture->count && from < end; from = run_end(capture, from)) {
        if (run_end(capture, from) == from + 1 && from + 1 < capture->count) {
            say(text, "Beware: the line keeps its level for a single sample at sample %zu. That is less than a bit.",
                from);
            say(text, is_read ? "If it is noise, the reading may be false." : "It may be noise.");
            return;
        }
    }
}

static void explain_end(const struct capture *capture, const struct layout *layout, char *text)
{
    size_t left = capture->count - layout->start;
    if (left < REPLY_BITS * SAMPLES_PER_BIT)
        say(text, "The capture ends %zu samples from the start edge on, and a whole reply takes %d.", left,
            REPLY_BITS * SAMPLES_PER_BIT);
}

void explain(const struct capture *capture, const struct layout *layout, const struct reply *reply, char *text)
{
    text[0] = '\0';
    if (reply->refusal != KUZHENGA_DONE) {
        explain_refusal(capture, layout, reply, text);
    } else {
        explain_reading(reply, text);
        explain_other_edt(capture, reply, text);
        explain_moved_edge(capture, reply, text);
    }
    if (reply->has_word) {
        explain_spike(capture, layout, reply->refusal == KUZHENGA_DONE, text);
        explain_end(capture, layout, text);
    }
}
