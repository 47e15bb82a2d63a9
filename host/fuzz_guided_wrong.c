/* Calls that are wrong on purpose, for host/fuzz_guided --seen-to-fail: the linker's --wrap sends each call here. In
 * the environment WRONG names what is wrong. Most of it is wrong only for inputs that are not shipped, so the fuzzer
 * has to make one. This file is compiled without the fuzzer's counters, as the archive is.
 */
#include <stdlib.h>
#include <string.h>

#include "kuzhenga.h"

static int is_wrong(const char *name)
{
    const char *wrong = getenv("WRONG");
    return wrong != NULL && strcmp(wrong, name) == 0;
}

#define WRAP(name, takes)                  \
    uint32_t __real_kuzhenga_##name takes; \
    uint32_t __wrap_kuzhenga_##name takes; \
    uint32_t __wrap_kuzhenga_##name takes

/* sample: the last sample is wrong, of more samples than any shipped capture has.
 * refused: a refused call changes a slot. */
WRAP(read_capture, (const uint8_t *file, size_t bytes, uint16_t *samples, size_t count, uint16_t *told, size_t three))
{
    uint32_t r = __real_kuzhenga_read_capture(file, bytes, samples, count, told, three);
    if (is_wrong("sample") && r == KUZHENGA_DONE && told[0] > 160)
        samples[told[0] - 1] ^= 1;
    if (is_wrong("refused") && r == KUZHENGA_NOT_A_CAPTURE)
        told[0] ^= 1;
    return r;
}

/* mask: the last byte is wrong, if the mask has more than eight bits. */
WRAP(write_capture, (const uint16_t *samples, size_t count, uint32_t mask, uint32_t edt, uint8_t *file, size_t bytes,
                     uint16_t *written, size_t one))
{
    uint32_t r = __real_kuzhenga_write_capture(samples, count, mask, edt, file, bytes, written, one);
    if (is_wrong("mask") && r == KUZHENGA_DONE && mask > 255)
        file[written[0] - 1] ^= 1;
    return r;
}

/* overlong: the line of a capture with too many bits says 7 (no reply).
 * behind: the byte behind the line is written. */
WRAP(list_capture, (const uint8_t *file, size_t bytes, uint8_t *line, size_t room, uint16_t *written, size_t one))
{
    uint32_t r = __real_kuzhenga_list_capture(file, bytes, line, room, written, one);
    if (is_wrong("overlong") && r == KUZHENGA_DONE && memcmp(line, "refused 8\n", 10) == 0)
        line[8] = '7';
    if (is_wrong("behind") && r == KUZHENGA_DONE)
        line[room] = 0;
    return r;
}

/* period: a period of 0 is taken for a wrong checksum. */
WRAP(decode_sampled_reply, (const uint16_t *samples, size_t count, uint32_t mask, uint32_t edt, uint16_t *reading,
                            size_t three))
{
    uint32_t r = __real_kuzhenga_decode_sampled_reply(samples, count, mask, edt, reading, three);
    return is_wrong("period") && r == KUZHENGA_ZERO_PERIOD ? KUZHENGA_CHECKSUM : r;
}

/* lease: a lease that ends while a set is in flight is not told. */
WRAP(bank_service, (uint16_t *bank, size_t slots, uint64_t now_ms, const uint16_t *lanes, size_t twelve,
                    uint16_t *first, size_t in_first, uint16_t *second, size_t in_second, const uint16_t *samples,
                    size_t count, uint16_t *answer, size_t room))
{
    uint32_t r = __real_kuzhenga_bank_service(bank, slots, now_ms, lanes, twelve, first, in_first, second, in_second,
                                              samples, count, answer, room);
    if (is_wrong("lease") && r == KUZHENGA_DONE && answer[KUZHENGA_EVENT] == KUZHENGA_LEASE_EXPIRED
        && answer[KUZHENGA_ORDERS] == 0)
        answer[KUZHENGA_EVENT] = KUZHENGA_BUSY;
    return r;
}

/* turned: lanes that do not turn to receive are taken for lanes that do. */
WRAP(bank_on_dma_interrupt, (uint16_t *bank, size_t slots, size_t motor, uint32_t complete, uint32_t error,
                             uint32_t turned, uint32_t back, uint16_t *answer, size_t room))
{
    turned = turned || is_wrong("turned");
    return __real_kuzhenga_bank_on_dma_interrupt(bank, slots, motor, complete, error, turned, back, answer, room);
}

/* speed: the number of lane 3's speed is wrong. */
WRAP(bank_take_replies, (uint16_t *bank, size_t slots, uint16_t *replies, size_t room))
{
    uint16_t *lane = replies + KUZHENGA_LANE_REPLY + 3 * KUZHENGA_LANE_REPLY_SLOTS;
    uint32_t r = __real_kuzhenga_bank_take_replies(bank, slots, replies, room);
    if (is_wrong("speed") && r == KUZHENGA_DONE && replies[0] && lane[0] == 0 && lane[1] == KUZHENGA_ERPM)
        lane[2] ^= 1;
    return r;
}
