/* Makes one number of a call of the bank wrong on purpose. The linker's --wrap sends each call of a host here. The call
 * is made here, and then one number of what it gave is changed. host/seen_to_fail links hosts with this file.
 *
 * WRONG in the environment has a call's name, without `kuzhenga_`, and a place. If the call is done, place 0 is what it
 * returned. Places from 1 on are the slots that it wrote, one slice after the other. Place -1 is a slot that it was
 * lent to read, and -2 the slot behind its last slice. If the call refuses, place -3 is what it returned, and -4 a slot
 * that it was lent to write. If a host meets no such number, it ends with status 77.
 */
#include <stdio.h>
#include <stdlib.h>
#include <string.h>

#include "kuzhenga.h"

enum { RETURNED = 0, READ = -1, BEHIND = -2, REFUSED = -3, CHANGED = -4, NOT_MET = 77 };

struct part {
    const uint16_t *at;
    size_t len;
};

static int met;

static void end(void)
{
    if (met)
        return;
    fflush(stdout);
    _Exit(NOT_MET);
}

__attribute__((constructor)) static void begin_wrong(void)
{
    atexit(end);
}

/* Returns whether this call is the wrong one, and gives the place. */
static int asked(const char *name, long *place)
{
    const char *wrong = getenv("WRONG");
    size_t length = strlen(name);
    if (wrong == NULL || strncmp(wrong, name, length) != 0 || wrong[length] != ' ')
        return 0;
    *place = strtol(wrong + length, NULL, 10);
    return 1;
}

static void change(const uint16_t *slot)
{
    met = 1;
    *(uint16_t *)(uintptr_t)slot ^= 1;
}

/* Returns the slot at a place, counted from 1. If there is none, it returns NULL. */
static const uint16_t *slot_at(const struct part *parts, size_t count, size_t place)
{
    for (size_t i = 0; i < count; i++) {
        if (place <= parts[i].len)
            return parts[i].at + place - 1;
        place -= parts[i].len;
    }
    return NULL;
}

/* Returns the slot to change, if there is one. */
static const uint16_t *slot_of(long place, int done, struct part shown, const struct part *lent, size_t count)
{
    struct part last = lent[count - 1];
    if (done && place == READ)
        return shown.len > 0 ? shown.at : NULL;
    if (done && place == BEHIND)
        return last.len > 0 ? last.at + last.len : NULL;
    if (done && place > 0)
        return slot_at(lent, count, (size_t)place);
    return !done && place == CHANGED ? slot_at(lent, count, 1) : NULL;
}

static uint32_t spoil(const char *name, uint32_t returned, struct part shown, const struct part *lent, size_t count)
{
    int done = returned == KUZHENGA_DONE;
    long place;
    if (!asked(name, &place))
        return returned;
    if (place == (done ? RETURNED : REFUSED)) {
        met = 1;
        return done;
    }
    const uint16_t *slot = slot_of(place, done, shown, lent, count);
    if (slot != NULL)
        change(slot);
    return returned;
}

/* A call: its name, its parameters, its arguments, a slice that it reads, and the slices that it writes. */
#define WRAP(name, takes, passed, shown, ...)                                                                     \
    uint32_t __real_kuzhenga_##name takes;                                                                        \
    uint32_t __wrap_kuzhenga_##name takes;                                                                        \
    uint32_t __wrap_kuzhenga_##name takes                                                                         \
    {                                                                                                             \
        struct part lent[] = {__VA_ARGS__};                                                                       \
        return spoil(#name, __real_kuzhenga_##name passed, shown, lent, sizeof lent / sizeof *lent);              \
    }
#define LOOK(name)                                                                                                \
    WRAP(name, (const uint16_t *bank, size_t slots, uint16_t *out, size_t n), (bank, slots, out, n),              \
         PART(bank, slots), {out, n})
#define PART(at, len) ((struct part){at, len})
#define NONE PART(NULL, 0)

/* After a service or an interrupt, the bank's own slots are among those to change. A host prints them after every call
 * in the same way, so these two calls are enough. */
WRAP(bank_from_lanes, (const uint16_t *timing, size_t four, uint16_t *bank, size_t slots), (timing, four, bank, slots),
     PART(timing, four), NONE)
WRAP(bank_enable_bidirectional, (uint16_t *bank, size_t slots, uint32_t receives), (bank, slots, receives), NONE, NONE)
WRAP(bank_command_stop, (uint16_t *bank, size_t slots), (bank, slots), NONE, NONE)
WRAP(bank_command_throttles,
     (uint16_t *bank, size_t slots, const uint16_t *throttles, size_t four, uint64_t now_ms, uint32_t lease_ms),
     (bank, slots, throttles, four, now_ms, lease_ms), PART(throttles, four), NONE)
WRAP(bank_command_special, (uint16_t *bank, size_t slots, size_t motor, const uint16_t *run, size_t four),
     (bank, slots, motor, run, four), PART(run, four), NONE)
WRAP(bank_request_telemetry, (uint16_t *bank, size_t slots, size_t motor), (bank, slots, motor), NONE, NONE)
WRAP(bank_cancel_telemetry_request, (uint16_t *bank, size_t slots), (bank, slots), NONE, NONE)
WRAP(bank_take_telemetry_request_sent, (uint16_t *bank, size_t slots, uint16_t *out, size_t n), (bank, slots, out, n),
     NONE, {out, n})
WRAP(bank_service,
     (uint16_t *bank, size_t slots, uint64_t now_ms, const uint16_t *lanes, size_t twelve, uint16_t *first,
      size_t in_first, uint16_t *second, size_t in_second, const uint16_t *samples, size_t count, uint16_t *out, size_t n),
     (bank, slots, now_ms, lanes, twelve, first, in_first, second, in_second, samples, count, out, n),
     PART(lanes, twelve), {bank, slots}, {first, in_first}, {second, in_second}, {out, n})
WRAP(bank_on_dma_interrupt,
     (uint16_t *bank, size_t slots, size_t motor, uint32_t complete, uint32_t error, uint32_t turned, uint32_t back,
      uint16_t *out, size_t n),
     (bank, slots, motor, complete, error, turned, back, out, n), NONE, {bank, slots}, {out, n})
WRAP(bank_take_replies, (uint16_t *bank, size_t slots, uint16_t *out, size_t n), (bank, slots, out, n), NONE, {out, n})
LOOK(bank_is_bidirectional)
LOOK(bank_is_faulted)
LOOK(bank_command_pending)
LOOK(bank_requested_values)
LOOK(bank_stats)
LOOK(bank_reply_stats)
WRAP(bank_sending,
     (const uint16_t *bank, size_t slots, const uint16_t *first, size_t in_first, const uint16_t *second,
      size_t in_second, size_t motor, uint16_t *out, size_t n),
     (bank, slots, first, in_first, second, in_second, motor, out, n), PART(bank, slots), {out, n})
WRAP(fallback_release_due, (uint32_t now_ms, uint32_t last_ms), (now_ms, last_ms), NONE, NONE)
