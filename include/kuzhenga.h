/* kuzhenga.h - a proved DShot library: packets, timing, sequences, ESC replies, and a bank of four motors.
 *
 * Every call checks what it is given. If a call can refuse, it returns the number of its refusal, or 0 when it is done.
 * If it refuses, it leaves every slot that it was lent as it was. If a call cannot refuse, it returns the result
 * itself. The first sentence of a call's comment names the call's refusals after a colon, in the order in which they
 * are decided. Each number has its name beside it, without KUZHENGA_.
 *
 * Check what a call returns before you read its slots. If the call refused, the slots hold what they held before it.
 * Zeros in a reading mean a rotor at rest.
 *
 * A slice is a pointer and the number of its elements, not of its bytes. If that number is 0, the pointer may be NULL.
 * If a slice has another length than its call names, the call refuses with 13 WRONG_LENGTH. A slot is a number of
 * 16 bits. A number of 32 bits takes two slots, the lowest bits first. In a flag, 0 means no, and any other number
 * means yes. Some parameters are wider than the numbers that they stand for. Their calls say what then counts.
 *
 * The library keeps no pointer, allocates nothing and has no state of its own. Its archive is for x86-64. It needs
 * memset and nothing else. Besides its arguments, a call takes at most 256 bytes of stack. Only kuzhenga_list_capture
 * takes more: up to 10 KiB.
 *
 * No call can check the following, so the host must see to it. If a call writes a slice, no other slice of that call
 * may overlap it. A pointer must lead to as many elements as the call is given, aligned for their type. Two calls on
 * the same slots must not run at the same time. If a host calls kuzhenga_bank_on_dma_interrupt from an interrupt, it
 * must hold that interrupt off during every other call on the bank.
 *
 * Three things are called telemetry. A telemetry request is a bit of a frame. The ESC answers it on its serial line,
 * which this library does not read. A reply is what an ESC of bidirectional DShot answers on the motor wire. EDT,
 * extended DShot telemetry, puts other readings than a speed into some of these replies.
 *
 * Each call's promise is in crates/kuzhenga/src, under the same name. host/host.c is an example of a host.
 */
#ifndef KUZHENGA_H
#define KUZHENGA_H

#include <stddef.h>
#include <stdint.h>

#ifdef __cplusplus
extern "C" {
#endif

/* Stands before each call that can refuse. The compiler warns if a host ignores what the call returns. */
#if defined(__cplusplus) && __cplusplus >= 201703L
#define KUZHENGA_CHECK [[nodiscard]]
#elif defined(__GNUC__)
#define KUZHENGA_CHECK __attribute__((warn_unused_result))
#else
#define KUZHENGA_CHECK
#endif

#define KUZHENGA_VERSION_MAJOR 0
#define KUZHENGA_VERSION_MINOR 3
#define KUZHENGA_VERSION_PATCH 0
#define KUZHENGA_LANES 4 /* a lane is one motor's timer channel and DMA stream, 0 to 3 */

/* ---- refusals --------------------------------------------------------------------------------------------------- */
#define KUZHENGA_DONE 0
/* because of the input */
#define KUZHENGA_ZERO_TIMER_CLOCK 1
#define KUZHENGA_ZERO_BITRATE 2
#define KUZHENGA_PERIOD_TOO_SHORT 3      /* too few timer ticks for a bit, or for a sample of a reply */
#define KUZHENGA_PERIOD_TOO_LONG 4       /* more than 65536 timer ticks for a bit */
#define KUZHENGA_VALUE_OUT_OF_RANGE 5    /* above KUZHENGA_MAX_VALUE */
#define KUZHENGA_THROTTLE_OUT_OF_RANGE 6 /* above KUZHENGA_MAX_THROTTLE */
#define KUZHENGA_NO_REPLY 7              /* 7 to 11: a capture or a value could not be read */
#define KUZHENGA_OVERLONG 8
#define KUZHENGA_INVALID_SYMBOL 9
#define KUZHENGA_CHECKSUM 10
#define KUZHENGA_ZERO_PERIOD 11
#define KUZHENGA_NO_SUCH_MOTOR 12        /* a lane above 3 */
#define KUZHENGA_NO_MASK 12              /* only of kuzhenga_simulate_reply: the mask is 0 */
#define KUZHENGA_WRONG_LENGTH 13
#define KUZHENGA_WRONG_DUTY 14           /* a duty that is neither high time, a last slot not 0, or equal high times */
#define KUZHENGA_PACKET_CHECKSUM 15      /* the checksum is neither plain nor inverted */
#define KUZHENGA_PERIOD_OUT_OF_RANGE 16  /* the simulated ESC's period is 0, or above 65535 microseconds */
#define KUZHENGA_NOT_A_CAPTURE 17
/* because of the bank's state */
#define KUZHENGA_FAULTED 18
#define KUZHENGA_MOTORS_RUNNING 19       /* there is a lease, or a requested value is not 0 */
#define KUZHENGA_COMMAND_PENDING 20
#define KUZHENGA_TELEMETRY_PENDING 21
#define KUZHENGA_REPLIES_UNSUPPORTED 22

/* The text of a refusal, in one line. */
static inline const char *kuzhenga_refusal_text(uint32_t number)
{
    static const char *const texts[] = {
        "done", "the timer clock is 0", "the bit rate is 0", "the period of a bit or of a sample is too short",
        "the period of a bit is too long", "a value is above 2047", "a throttle is above 2000", "there is no reply",
        "the reply has too many bits", "the reply has five bits that are no symbol", "the reply's checksum is wrong",
        "the reply's period is 0", "there is no such motor, or the mask is 0", "a slice has the wrong length",
        "a duty is neither high time, the last slot is not 0, or the high times are equal",
        "the packet's checksum is neither plain nor inverted", "the period is 0 or above 65535 microseconds",
        "the file is no capture file", "the bank has latched a fault", "a motor is running or under a lease",
        "a command run is pending", "a telemetry request is pending", "a lane cannot receive replies"};
    return number < sizeof texts / sizeof *texts ? texts[number] : "no refusal has this number";
}

/* ---- readings --------------------------------------------------------------------------------------------------- */
/* The kinds of readings, and what the number of each kind means. kuzhenga_list_capture names them in this order. */
#define KUZHENGA_ERPM 0   /* electrical turns a minute / 100, rounded to the nearest, halves up; 0 at rest */
#define KUZHENGA_TEMP 1   /* whole degrees Celsius */
#define KUZHENGA_VOLT 2   /* quarters of a volt */
#define KUZHENGA_AMP 3    /* whole amperes */
#define KUZHENGA_DEBUG1 4 /* kinds 4 to 6: the ESC's debug values of channels 1 to 3, a byte each */
#define KUZHENGA_DEBUG2 5
#define KUZHENGA_DEBUG3 6
#define KUZHENGA_STATE 7  /* a state or an event of the ESC, a byte */
#define KUZHENGA_EDT 8    /* the ESC acknowledged the command to turn EDT on; the number is 0 */
/* Turns of the rotor a minute = 100 x number of KUZHENGA_ERPM / (poles / 2). The poles are the magnets of the motor. */

/* The name of a kind, as kuzhenga_list_capture prints it. */
static inline const char *kuzhenga_kind_name(uint32_t kind)
{
    static const char *const names[] = {"erpm", "temp", "volt", "amp", "debug1", "debug2", "debug3", "state", "edt"};
    return kind < sizeof names / sizeof *names ? names[kind] : "no kind";
}

/* Only the helpers of this header use these two. They give the number in two slots, and that of lane n. */
static inline uint32_t kuzhenga_pair_(const uint16_t *at) { return (uint32_t)at[0] | (uint32_t)at[1] << 16; }
static inline uint32_t kuzhenga_lane_(const uint16_t *at, size_t n)
{
    return n < KUZHENGA_LANES ? kuzhenga_pair_(at + 2 * n) : 0;
}

/* A reading has three slots: one for the kind, two for the number. A host lends a call the slots, and gives a helper
 * the whole struct. Start each reading with NO_READING. If the call then refuses, the kind is NO_KIND and the number is
 * NO_NUMBER. No true reading has these. */
#define KUZHENGA_READING_SLOTS 3
#define KUZHENGA_NO_READING {{65535, 65535, 65535}}
#define KUZHENGA_NO_KIND 65535u
#define KUZHENGA_NO_NUMBER 4294967295u
struct kuzhenga_reading { uint16_t slots[KUZHENGA_READING_SLOTS]; };
static inline uint32_t kuzhenga_reading_kind(struct kuzhenga_reading reading) { return reading.slots[0]; }
static inline uint32_t kuzhenga_reading_number(struct kuzhenga_reading reading)
{
    return kuzhenga_pair_(reading.slots + 1);
}

/* ---- replies ---------------------------------------------------------------------------------------------------- */
/* Returns the reply word that an ESC sends for a value: 21 transition bits, the start edge first. Only the value's low
 * twelve bits count. */
uint32_t kuzhenga_reply_transitions_for(uint32_t value);

/* Gives the transition bits of a capture of any length, in two slots: 13 WRONG_LENGTH, 7 NO_REPLY, 8 OVERLONG. A
 * capture has three samples for each bit of the reply. A sample is high if it has a bit in common with the mask. Pin
 * n's mask is 1 << n. Only the mask's low sixteen bits count. A mask of 0 reads as 7 NO_REPLY, as a pulled wire
 * does. */
#define KUZHENGA_WORD_SLOTS 2
struct kuzhenga_word { uint16_t slots[KUZHENGA_WORD_SLOTS]; };
static inline uint32_t kuzhenga_word_bits(struct kuzhenga_word word) { return kuzhenga_pair_(word.slots); }
KUZHENGA_CHECK
uint32_t kuzhenga_reply_transitions(const uint16_t *samples, size_t samples_len, uint32_t pin_mask, uint16_t *word,
                                    size_t word_len /* 2 */);

/* Gives the checked value of transition bits, in one slot: 13 WRONG_LENGTH, 9 INVALID_SYMBOL, 10 CHECKSUM. Only the low
 * twenty bits count. */
KUZHENGA_CHECK
uint32_t kuzhenga_decode_gcr(uint32_t transitions, uint16_t *value, size_t value_len /* 1 */);

/* Gives the reading of a value: 13 WRONG_LENGTH, 11 ZERO_PERIOD. Only the value's low twelve bits count. The flag says
 * whether EDT is on in the ESC. */
KUZHENGA_CHECK
uint32_t kuzhenga_reply_from_value(uint32_t value, uint32_t extended_telemetry, uint16_t *reading,
                                   size_t reading_len /* 3 */);

/* Gives the reading of a capture, as the three calls above do together: 13 WRONG_LENGTH, 7 NO_REPLY, 8 OVERLONG,
 * 9 INVALID_SYMBOL, 10 CHECKSUM, 11 ZERO_PERIOD. If the flag is 0 and EDT is on in the ESC, a temperature reads as a
 * speed. */
KUZHENGA_CHECK
uint32_t kuzhenga_decode_sampled_reply(const uint16_t *samples, size_t samples_len, uint32_t pin_mask,
                                       uint32_t extended_telemetry, uint16_t *reading, size_t reading_len /* 3 */);

/* Gives the period of an electrical turn that a value stands for, and its step, both in microseconds: 13 WRONG_LENGTH,
 * 11 ZERO_PERIOD. At rest both are 0. Only the value's low twelve bits count. The value must be one that reads as a
 * speed: if EDT is on, some values are other readings. The simulated ESC drops the bits that do not fit. If an ESC does
 * so, its true period is at least the period, and less than period + step. */
#define KUZHENGA_PERIOD_SLOTS 2
struct kuzhenga_period { uint16_t slots[KUZHENGA_PERIOD_SLOTS]; };
static inline uint32_t kuzhenga_period_us(struct kuzhenga_period period) { return period.slots[0]; }
static inline uint32_t kuzhenga_period_step(struct kuzhenga_period period) { return period.slots[1]; }
KUZHENGA_CHECK
uint32_t kuzhenga_value_period(uint32_t value, uint16_t *period, size_t period_len /* 2 */);

/* ---- the simulated ESC ------------------------------------------------------------------------------------------ */
/* Gives the value that is sent for the period of an electrical turn, in one slot: 13 WRONG_LENGTH,
 * 16 PERIOD_OUT_OF_RANGE. The value is 512 x exponent + period / 2^exponent. The exponent is the smallest that leaves
 * at most 511. The bits that are shifted out are dropped. From 65408 on the value is 0xFFF, which reads as at rest. */
KUZHENGA_CHECK
uint32_t kuzhenga_period_value(uint32_t period_us, uint16_t *value, size_t value_len /* 1 */);

/* Writes the capture that a value's reply leaves: 13 WRONG_LENGTH (fewer samples than lead + 69 REPLY_SAMPLES),
 * 12 NO_MASK. `lead` is the number of high samples before the reply. Each bit takes three samples, and the rest is
 * high. The call writes every sample. A high sample is the whole mask, and a low one is 0. The value is one of
 * kuzhenga_period_value, not a period. Only the value's low twelve bits and the mask's low sixteen bits count. */
#define KUZHENGA_REPLY_SAMPLES 69
KUZHENGA_CHECK
uint32_t kuzhenga_simulate_reply(uint16_t *samples, size_t samples_len, uint32_t value, size_t lead, uint32_t pin_mask);

/* ---- capture files -----------------------------------------------------------------------------------------------
 *
 * A capture file holds the count of samples (at most 4096 FILE_SAMPLES), the mask, EDT (0 or 1) and the samples, and
 * nothing more. Each of these numbers is at most 65535. A number is written in groups of seven bits, one group a byte,
 * lowest first, in the shortest form. Every group of a number except its last has the top bit set. */
#define KUZHENGA_FILE_SAMPLES 4096
#define KUZHENGA_FILE_BYTES 12294 /* the longest file; read one byte more, so that a longer file is refused */

/* Reads a file: 13 WRONG_LENGTH, 17 NOT_A_CAPTURE. The file's samples fill the first slots of `samples`. The other
 * slots stay as they were. Three slots take the count of samples, the mask and EDT. */
#define KUZHENGA_COUNT_MASK_EDT_SLOTS 3
KUZHENGA_CHECK
uint32_t kuzhenga_read_capture(const uint8_t *file, size_t file_len, uint16_t *samples, size_t samples_len /* 4096 */,
                               uint16_t *count_mask_edt, size_t count_mask_edt_len /* 3 */);

/* Writes the file of at most 4096 samples: 13 WRONG_LENGTH. The file fills the first bytes of `file`. The other bytes
 * stay as they were. One slot takes the number of bytes in the file. Only the mask's low sixteen bits count. */
KUZHENGA_CHECK
uint32_t kuzhenga_write_capture(const uint16_t *samples, size_t samples_len, uint32_t pin_mask,
                                uint32_t extended_telemetry, uint8_t *file, size_t file_len /* 12294 */,
                                uint16_t *written, size_t written_len /* 1 */);

/* Gives the line that the bench prints for a file: 13 WRONG_LENGTH. The line holds the word (six hexadecimal digits),
 * the value (three), the kind and the number (decimal), with a space between them. The kind is erpm, temp, volt, amp,
 * debug1 to debug3, state or edt. If the capture is refused, the line is "refused" and the number, 7 to 11. If the file
 * is no capture file, the line is "refused 17". In both cases the call itself is done and returns 0. A line feed ends
 * the line, and zeros follow. One slot takes the line's length in bytes, with the line feed. */
#define KUZHENGA_LINE_BYTES 32
KUZHENGA_CHECK
uint32_t kuzhenga_list_capture(const uint8_t *file, size_t file_len, uint8_t *line, size_t line_len /* 32 */,
                               uint16_t *written, size_t written_len /* 1 */);

/* ---- packets -----------------------------------------------------------------------------------------------------
 *
 * The flag `telemetry` is the request bit. The ESC answers it on its serial line. A packet for bidirectional DShot has
 * its checksum inverted. The ESC replies to it on the motor wire. */
#define KUZHENGA_MAX_VALUE 2047

/* Returns the packet of a value. Only the value's low eleven bits count. The second call is for bidirectional DShot. */
uint32_t kuzhenga_packet_from_value(uint32_t value, uint32_t telemetry);
uint32_t kuzhenga_packet_from_value_bidirectional(uint32_t value, uint32_t telemetry);

/* Gives the packet of a value up to 2047 MAX_VALUE, in one slot: 13 WRONG_LENGTH, 5 VALUE_OUT_OF_RANGE. */
KUZHENGA_CHECK
uint32_t kuzhenga_packet_try_from_value(uint32_t value, uint32_t telemetry, uint16_t *packet,
                                        size_t packet_len /* 1 */);

/* Gives the packets of four motors: 13 WRONG_LENGTH. Only the low eleven bits of each value count. The packet of
 * telemetry_lane has the request bit. If telemetry_lane is above 3, no packet has it. The second call is for
 * bidirectional DShot. */
KUZHENGA_CHECK
uint32_t kuzhenga_four_motor_packets(const uint16_t *values, size_t values_len /* 4 */, size_t telemetry_lane,
                                     uint16_t *packets, size_t packets_len /* 4 */);
KUZHENGA_CHECK
uint32_t kuzhenga_four_motor_bidirectional_packets(const uint16_t *values, size_t values_len /* 4 */,
                                                   size_t telemetry_lane, uint16_t *packets,
                                                   size_t packets_len /* 4 */);

/* Reads a packet: 13 WRONG_LENGTH, 15 PACKET_CHECKSUM. A number above 65535 is refused with 15 PACKET_CHECKSUM too. The
 * three slots take the value, the request bit, and the kind of checksum: 0 for plain, 1 for inverted. */
#define KUZHENGA_FRAME_READ_SLOTS 3
KUZHENGA_CHECK
uint32_t kuzhenga_read_packet(uint32_t packet, uint16_t *frame, size_t frame_len /* 3 */);

/* ---- timing, duties and sequences ------------------------------------------------------------------------------- */
/* Gives the timing for a timer clock and a bit rate, both in Hz: 13 WRONG_LENGTH, 1 ZERO_TIMER_CLOCK, 2 ZERO_BITRATE,
 * 3 PERIOD_TOO_SHORT, 4 PERIOD_TOO_LONG. The slots take arr, zero_high, one_high and reply_sample_arr, in timer ticks.
 * arr is one less than the ticks of a bit. zero_high and one_high are the high ticks of a 0 and of a 1.
 * reply_sample_arr is one less than the ticks of a sample of a reply. */
#define KUZHENGA_TIMING_SLOTS 4
#define KUZHENGA_DSHOT600_HZ 600000 /* DShot600's bit rate */
KUZHENGA_CHECK
uint32_t kuzhenga_timing_from_clocks(uint32_t timer_hz, uint32_t bitrate_hz, uint16_t *timing,
                                     size_t timing_len /* 4 */);

/* Gives the high time of a bit in timer ticks, in one slot: 13 WRONG_LENGTH. The flag `set` is the bit. */
KUZHENGA_CHECK
uint32_t kuzhenga_duty_for_bit(const uint16_t *timing, size_t timing_len /* 4 */, uint32_t set, uint16_t *duty,
                               size_t duty_len /* 1 */);

/* Gives a packet's frame at a largest duty: 13 WRONG_LENGTH. The slots take sixteen duties, then six zeros. Only the
 * low sixteen bits of packet and max_duty count. */
#define KUZHENGA_FRAME_SLOTS 22
KUZHENGA_CHECK
uint32_t kuzhenga_encode_packet(uint32_t packet, uint32_t max_duty, uint16_t *output, size_t output_len /* 22 */);

/* Gives a packet's sequence of sixteen duties: 13 WRONG_LENGTH. `first` takes the first duty, which the host loads into
 * the timer itself. `dma_output` takes the other fifteen duties and a zero, which DMA sends. Only the packet's low
 * sixteen bits count. */
#define KUZHENGA_SEQUENCE_SLOTS 16
KUZHENGA_CHECK
uint32_t kuzhenga_encode_compare_sequence(uint32_t packet, const uint16_t *timing, size_t timing_len /* 4 */,
                                          uint16_t *first, size_t first_len /* 1 */, uint16_t *dma_output,
                                          size_t dma_output_len /* 16 */);

/* Reads a sequence into the slots of kuzhenga_read_packet: 13 WRONG_LENGTH, 14 WRONG_DUTY, 15 PACKET_CHECKSUM. A first
 * duty above 65535 is refused with 14 WRONG_DUTY too. `timing` is the timing that the sequence was made with. */
KUZHENGA_CHECK
uint32_t kuzhenga_read_compare_sequence(uint32_t first, const uint16_t *dma_output, size_t dma_output_len /* 16 */,
                                        const uint16_t *timing, size_t timing_len /* 4 */, uint16_t *frame,
                                        size_t frame_len /* 3 */);

/* ---- throttles, command runs and leases ------------------------------------------------------------------------- */
/* Returns the DShot value of a throttle: 0 for 0, and 48 to 2047 for 1 to 2000 MAX_THROTTLE. A throttle above 2000
 * counts as 2000. */
#define KUZHENGA_MAX_THROTTLE 2000
uint32_t kuzhenga_throttle_to_dshot(uint32_t value);

/* Gives the DShot values of four throttles: 13 WRONG_LENGTH. */
KUZHENGA_CHECK
uint32_t kuzhenga_throttles_to_dshot(const uint16_t *values, size_t values_len /* 4 */, uint16_t *out,
                                     size_t out_len /* 4 */);

/* A command run has four slots: two commands, the index of the next (0 or 1), and how often it is still to be sent. If
 * the index is above 1, the run is spent. Only the low byte of the last slot counts, and 0 means 256 times. Once the
 * first command is done, the second is sent ten times. */
#define KUZHENGA_RUN_SLOTS 4
#define KUZHENGA_COMMAND_SAVE_SETTINGS 12
#define KUZHENGA_COMMAND_SPIN_NORMAL 20
#define KUZHENGA_COMMAND_SPIN_REVERSED 21

/* Gives the run that sets the spin direction and then saves it, each command ten times: 13 WRONG_LENGTH. */
KUZHENGA_CHECK
uint32_t kuzhenga_command_spin_direction(uint32_t reversed, uint16_t *run, size_t run_len /* 4 */);

/* Takes the next command out of a run: 13 WRONG_LENGTH. The call steps the run. Two slots take 1 and the command. If
 * the run is spent, they take 0 and 0. */
#define KUZHENGA_COMMAND_SLOTS 2
KUZHENGA_CHECK
uint32_t kuzhenga_command_next_value(uint16_t *run, size_t run_len /* 4 */, uint16_t *value, size_t value_len /* 2 */);

/* Returns 1 if a lease is older than its duration, else 0. Its age is now_ms - started_ms, modulo 2^64. If the clock is
 * before the start, the lease counts as expired, unless that age is within the duration. */
uint32_t kuzhenga_command_lease_expired(uint64_t started_ms, uint32_t duration_ms, uint64_t now_ms);

/* ---- the bank ----------------------------------------------------------------------------------------------------
 *
 * A bank begins with kuzhenga_bank_from_lanes. Its state is 97 BANK_SLOTS. The host keeps them and lends them to each
 * call. What they hold is the library's own, and may change with the version. A host may copy, compare and keep them.
 * Any contents stand for some bank. If the library did not write them, the slots after a call mean the right bank, but
 * their exact values are not promised. Times are milliseconds of one clock, which may wrap.
 *
 * The host gives the hardware's answers with a call. The orders to the hardware are in the call's answer, and the host
 * does them in their order. An answer that a call does not ask for counts for nothing. The host gives some answers
 * before it does the order: whether a lane takes its buffer (TAKEN), and whether the lanes turn around (turned,
 * turned_back). If a host cannot know, it says yes.
 *
 * If an order then fails, the host latches a fault. For this it calls kuzhenga_bank_on_dma_interrupt for any lane with
 * dma_error 1, and does the orders of that answer. If a set is in flight and the lane is not done, the event is
 * KUZHENGA_INTERRUPT_FAULTED. If a fault was latched before, it is the same event. Otherwise it is KUZHENGA_SPURIOUS,
 * which latches a fault too.
 *
 * A frame set runs like this. The host calls kuzhenga_bank_service, which starts the set. Each lane's stream completes
 * and interrupts once. For each interrupt the host calls kuzhenga_bank_on_dma_interrupt, which orders the lane's pause.
 * In one direction, the last of the four also orders STOP_FRAME. In a bidirectional bank, the last orders BEGIN_RECEIVE
 * instead. Each lane's stream then fills the lane's window and interrupts once more. The last of these four orders
 * END_RECEIVE. The next service reads the windows and starts the next set.
 *
 * If a set is still in flight, a service starts nothing. Its event is BUSY, or LEASE_EXPIRED if the lease ends there.
 *
 * A service latches a fault if the set in flight is more than 1 ms old, or if a lane does not take its buffer. An
 * interrupt latches a fault if no set is in flight, or if the lane is done already. It also does if the stream is in
 * error or not complete, or if the lanes do not turn. A fault forces the outputs low. It ends only with a new bank.
 */
#define KUZHENGA_BANK_SLOTS 97
#define KUZHENGA_BUFFER_SLOTS (KUZHENGA_LANES * KUZHENGA_SEQUENCE_SLOTS) /* 64: each of the two sequence buffers */
#define KUZHENGA_WINDOW_SAMPLES 160
#define KUZHENGA_CAPTURE_SAMPLES (KUZHENGA_LANES * KUZHENGA_WINDOW_SAMPLES) /* 640: the four lanes' windows */

/* Makes a new bank with a timing, in one direction: 13 WRONG_LENGTH. Each lane starts with its 16 slots of the first
 * buffer as its DMA buffer. The second buffer is spare. */
KUZHENGA_CHECK
uint32_t kuzhenga_bank_from_lanes(const uint16_t *timing, size_t timing_len /* 4 */, uint16_t *bank,
                                  size_t bank_len /* 97 */);

/* Switches to bidirectional DShot: 13 WRONG_LENGTH, 22 REPLIES_UNSUPPORTED. The flag says whether every lane can
 * receive replies. If it is 0, the call refuses with 22 REPLIES_UNSUPPORTED. Call it before the first frame; a later
 * call is not refused. */
KUZHENGA_CHECK
uint32_t kuzhenga_bank_enable_bidirectional(uint16_t *bank, size_t bank_len, uint32_t receives_replies);

/* Sets the four requested values to 0 and ends the lease: 13 WRONG_LENGTH. The next set without a command stops the
 * motors. */
KUZHENGA_CHECK
uint32_t kuzhenga_bank_command_stop(uint16_t *bank, size_t bank_len);

/* Requests the throttles of the four motors for lease_ms milliseconds: 13 WRONG_LENGTH, 18 FAULTED,
 * 6 THROTTLE_OUT_OF_RANGE. The lease starts at now_ms, and each call renews it. If a service finds it expired, it stops
 * the motors. Four zeros are a stop, and end the lease. */
KUZHENGA_CHECK
uint32_t kuzhenga_bank_command_throttles(uint16_t *bank, size_t bank_len, const uint16_t *throttles,
                                         size_t throttles_len /* 4 */, uint64_t now_ms, uint32_t lease_ms);

/* Queues a command run for one motor: 13 WRONG_LENGTH, 12 NO_SUCH_MOTOR, 18 FAULTED, 19 MOTORS_RUNNING,
 * 20 COMMAND_PENDING. Each frame set sends one command, as it is given, with the request bit. The other motors get 0.
 * Numbers up to 47 MAX_COMMAND are commands to an ESC. A larger number is a throttle, which no lease ends. If a service
 * sends a requested value other than 0, it drops the rest of the run. A stop leaves the run. */
#define KUZHENGA_MAX_COMMAND 47
KUZHENGA_CHECK
uint32_t kuzhenga_bank_command_special(uint16_t *bank, size_t bank_len, size_t motor, const uint16_t *run,
                                       size_t run_len /* 4 */);

/* Requests telemetry of one motor: 13 WRONG_LENGTH, 12 NO_SUCH_MOTOR, 18 FAULTED, 21 TELEMETRY_PENDING. The next frame
 * set without a command carries the request bit. The ESC answers on its serial line. */
KUZHENGA_CHECK
uint32_t kuzhenga_bank_request_telemetry(uint16_t *bank, size_t bank_len, size_t motor);

/* Withdraws a telemetry request that no frame has carried yet: 13 WRONG_LENGTH. */
KUZHENGA_CHECK
uint32_t kuzhenga_bank_cancel_telemetry_request(uint16_t *bank, size_t bank_len);

/* Takes the lane whose telemetry request the last service sent: 13 WRONG_LENGTH. Two slots take 1 and the lane. If
 * there is none, they take 0 and 0. The next service forgets the lane, even if its event is BUSY. */
#define KUZHENGA_REQUEST_SENT_SLOTS 2
KUZHENGA_CHECK
uint32_t kuzhenga_bank_take_telemetry_request_sent(uint16_t *bank, size_t bank_len, uint16_t *motor,
                                                   size_t motor_len /* 2 */);

/* An order to the hardware is 8 x kind + 4 x buffer + lane. If an order is for all lanes, its lane is 0. Beside each
 * kind stands what the host does: */
#define KUZHENGA_EXCHANGE_BUFFER 1   /* give the lane its next DMA buffer: its 16 slots of the order's buffer, from slot
                                        16 x lane on. The order is given even if TAKEN is 0 for the lane */
#define KUZHENGA_START_DMA 2         /* enable the lane's stream; no timer request is open yet */
#define KUZHENGA_START_FRAME 3       /* load the first duties, open the timers' DMA requests, and start the timers so
                                        that all four lanes begin together */
#define KUZHENGA_STOP_FRAME 4        /* close the DMA requests, stop the timers, park every output low */
#define KUZHENGA_FORCE_OUTPUTS_LOW 5 /* stop, then gate every output off until the bank is rebuilt */
#define KUZHENGA_PAUSE_AND_CLEAR 6   /* disable the lane's stream and clear its flags */
#define KUZHENGA_BEGIN_RECEIVE 7     /* release the pins, retime the timers to reply_sample_arr, let each lane's
                                        stream fill its window from the pin, and start */
#define KUZHENGA_END_RECEIVE 8       /* turn every lane back to transmit, with its output parked */

/* The parts of an order. The buffer is 0 for `first` and 1 for `second`. Only EXCHANGE_BUFFER has a buffer. The other
 * orders have 0. */
static inline unsigned kuzhenga_order_kind(uint16_t order) { return order / 8u; }
static inline unsigned kuzhenga_order_lane(uint16_t order) { return order % 4u; }
static inline unsigned kuzhenga_order_buffer(uint16_t order) { return order / 4u % 2u; }

/* The answer of a service or an interrupt holds the event, the number of orders, the orders, and zeros after them. A
 * service has room for nine orders. After them come the four first duties for KUZHENGA_START_FRAME. Without that order
 * they are zeros. An interrupt has room for seven orders. The event is in the answer, never in what the call returns.
 * The two lists of events share numbers. */
#define KUZHENGA_EVENT 0
#define KUZHENGA_ORDERS 1
#define KUZHENGA_FIRST_ORDER 2
#define KUZHENGA_FIRST_DUTY 11
#define KUZHENGA_SERVICE_SLOTS 15
#define KUZHENGA_INTERRUPT_SLOTS 9

/* The events of a service. */
#define KUZHENGA_FRAME_STARTED 0     /* a set was started */
#define KUZHENGA_BUSY 1              /* a set is in flight; there are no orders */
#define KUZHENGA_LEASE_EXPIRED 2     /* the lease ended. With orders: a set without its throttles was started.
                                        Without orders: an earlier set is still in flight, and the next set has none
                                        of its throttles */
#define KUZHENGA_SERVICE_FAULTED 3   /* with orders: this call latched a fault. Without orders: a fault was latched
                                        before */
/* The events of an interrupt. */
#define KUZHENGA_COMPLETED 0         /* the lane is done */
#define KUZHENGA_INTERRUPT_FAULTED 1 /* this call latched a fault. If one was latched before, the lane's pause is the
                                        only order */
#define KUZHENGA_SPURIOUS 2          /* this call latched a fault: the interrupt was not due, or the transfer is not
                                        complete */

/* The hardware's answers to a service, the slice `lanes`. Each answer has four slots, one for each lane, from its slot
 * on. */
#define KUZHENGA_TAKEN 0             /* flag: the lane takes its buffer */
#define KUZHENGA_PRESENT 4           /* flag: the lane has a capture of the last set. Say no if the capture is older,
                                        or it is read as new */
#define KUZHENGA_MASKS 8             /* the mask of the lane's pin in that capture */
#define KUZHENGA_HARDWARE_SLOTS 12

/* Ends an expired lease, times out a frame in flight, reads the replies that wait, and sends the next frame set:
 * 13 WRONG_LENGTH. Lane n's sequence is written from slot 16 n of its spare buffer. The lanes send from the buffers
 * after the call, so the host must not change them. Lane n's window is the 160 WINDOW_SAMPLES from 160 n on. The host
 * lends all four windows, even if none is read. The bank stores what each window reads as. That may be a refusal, which
 * is no refusal of the call. If a lane has no capture, 7 NO_REPLY is stored. Windows are read with EDT off. So an EDT
 * reply reads as a speed or as 11 ZERO_PERIOD, and 0xE00 as 8 KUZHENGA_EDT. EDT must stay off in the ESCs of a bank. */
KUZHENGA_CHECK
uint32_t kuzhenga_bank_service(uint16_t *bank, size_t bank_len, uint64_t now_ms, const uint16_t *lanes,
                               size_t lanes_len /* 12 */, uint16_t *first, size_t first_len /* 64 */, uint16_t *second,
                               size_t second_len /* 64 */, const uint16_t *captures, size_t captures_len /* 640 */,
                               uint16_t *answer, size_t answer_len /* 15 */);

/* Handles a lane's DMA interrupt: 13 WRONG_LENGTH, 12 NO_SUCH_MOTOR. transfer_complete and dma_error are the status of
 * the lane's stream. The flag `turned` says whether every lane turns to receive, if this call orders BEGIN_RECEIVE.
 * `turned_back` says whether every lane turns back, if it orders END_RECEIVE. */
KUZHENGA_CHECK
uint32_t kuzhenga_bank_on_dma_interrupt(uint16_t *bank, size_t bank_len, size_t motor, uint32_t transfer_complete,
                                        uint32_t dma_error, uint32_t turned, uint32_t turned_back, uint16_t *answer,
                                        size_t answer_len /* 9 */);

/* Takes the replies that were read since the last call, once: 13 WRONG_LENGTH. If some are held, slot 0 is 1. Each lane
 * then has four slots. If it has a reading, they are 0, the kind and the number. If it was refused, they are the
 * refusal and zeros. If none are held, slot 0 is 0 and each lane has 7 NO_REPLY. */
#define KUZHENGA_REPLIES_SLOTS 17
#define KUZHENGA_LANE_REPLY 1        /* where lane 0's slots begin */
#define KUZHENGA_LANE_REPLY_SLOTS 4
struct kuzhenga_replies { uint16_t slots[KUZHENGA_REPLIES_SLOTS]; };
KUZHENGA_CHECK
uint32_t kuzhenga_bank_take_replies(uint16_t *bank, size_t bank_len, uint16_t *replies, size_t replies_len /* 17 */);

/* The first helper says whether replies were held: 1 or 0. Lane n's refusal is 7 to 11, or 0 if it has a reading. If
 * none were held, it is 7 NO_REPLY. If n is above 3, it is 12 NO_SUCH_MOTOR. If a lane has a refusal, its kind is
 * NO_KIND and its number is NO_NUMBER. */
static inline uint32_t kuzhenga_replies_held(struct kuzhenga_replies replies) { return replies.slots[0]; }
static inline uint32_t kuzhenga_lane_refusal(struct kuzhenga_replies replies, size_t n)
{
    if (n >= KUZHENGA_LANES)
        return KUZHENGA_NO_SUCH_MOTOR;
    return replies.slots[0] ? replies.slots[KUZHENGA_LANE_REPLY + KUZHENGA_LANE_REPLY_SLOTS * n] : KUZHENGA_NO_REPLY;
}
static inline uint32_t kuzhenga_lane_kind(struct kuzhenga_replies replies, size_t n)
{
    return kuzhenga_lane_refusal(replies, n) != KUZHENGA_DONE
               ? KUZHENGA_NO_KIND
               : replies.slots[KUZHENGA_LANE_REPLY + KUZHENGA_LANE_REPLY_SLOTS * n + 1];
}
static inline uint32_t kuzhenga_lane_number(struct kuzhenga_replies replies, size_t n)
{
    return kuzhenga_lane_refusal(replies, n) != KUZHENGA_DONE
               ? KUZHENGA_NO_NUMBER
               : kuzhenga_pair_(replies.slots + KUZHENGA_LANE_REPLY + KUZHENGA_LANE_REPLY_SLOTS * n + 2);
}

/* These calls only look at the bank: 13 WRONG_LENGTH. The first three give a flag in one slot, the last the four
 * values. If a call is done, it returns 0, whatever the flag in the slot is. A run is pending until the service after
 * its last command. */
KUZHENGA_CHECK
uint32_t kuzhenga_bank_is_bidirectional(const uint16_t *bank, size_t bank_len, uint16_t *flag, size_t flag_len);
KUZHENGA_CHECK
uint32_t kuzhenga_bank_is_faulted(const uint16_t *bank, size_t bank_len, uint16_t *flag, size_t flag_len);
KUZHENGA_CHECK
uint32_t kuzhenga_bank_command_pending(const uint16_t *bank, size_t bank_len, uint16_t *flag, size_t flag_len);
KUZHENGA_CHECK
uint32_t kuzhenga_bank_requested_values(const uint16_t *bank, size_t bank_len, uint16_t *values,
                                        size_t values_len /* 4 */);

/* Gives eleven counts of 32 bits, in the order of the helpers below: 13 WRONG_LENGTH. They wrap at 2^32. A lane's
 * completions count the frames that it transmitted, and not its windows. DMA faults count each fault that is latched,
 * whatever its cause. A timeout counts as a busy skip too. */
#define KUZHENGA_STATS_SLOTS 22
struct kuzhenga_stats { uint16_t slots[KUZHENGA_STATS_SLOTS]; };
KUZHENGA_CHECK
uint32_t kuzhenga_bank_stats(const uint16_t *bank, size_t bank_len, uint16_t *counts, size_t counts_len /* 22 */);

/* Gives twelve counts of 32 bits, three for each of the four lanes, in the order of the helpers below: 13 WRONG_LENGTH.
 * They wrap at 2^32. Only the invalid replies in a row do not wrap: they stop at 4294967295, the largest count. */
#define KUZHENGA_REPLY_STATS_SLOTS 24
struct kuzhenga_reply_stats { uint16_t slots[KUZHENGA_REPLY_STATS_SLOTS]; };
KUZHENGA_CHECK
uint32_t kuzhenga_bank_reply_stats(const uint16_t *bank, size_t bank_len, uint16_t *counts, size_t counts_len /* 24 */);

/* The counts. If n is above 3, lane n's count is 0. */
static inline uint32_t kuzhenga_frames_started(struct kuzhenga_stats s) { return kuzhenga_pair_(s.slots); }
static inline uint32_t kuzhenga_frames_completed(struct kuzhenga_stats s) { return kuzhenga_pair_(s.slots + 2); }
static inline uint32_t kuzhenga_lane_completions(struct kuzhenga_stats s, size_t n)
{
    return kuzhenga_lane_(s.slots + 4, n);
}
static inline uint32_t kuzhenga_busy_skips(struct kuzhenga_stats s) { return kuzhenga_pair_(s.slots + 12); }
static inline uint32_t kuzhenga_lease_expiries(struct kuzhenga_stats s) { return kuzhenga_pair_(s.slots + 14); }
static inline uint32_t kuzhenga_frame_timeouts(struct kuzhenga_stats s) { return kuzhenga_pair_(s.slots + 16); }
static inline uint32_t kuzhenga_dma_faults(struct kuzhenga_stats s) { return kuzhenga_pair_(s.slots + 18); }
static inline uint32_t kuzhenga_spurious_interrupts(struct kuzhenga_stats s) { return kuzhenga_pair_(s.slots + 20); }
static inline uint32_t kuzhenga_lane_valid(struct kuzhenga_reply_stats s, size_t n)
{
    return kuzhenga_lane_(s.slots, n);
}
static inline uint32_t kuzhenga_lane_invalid(struct kuzhenga_reply_stats s, size_t n)
{
    return kuzhenga_lane_(s.slots + 8, n);
}
static inline uint32_t kuzhenga_lane_invalid_in_a_row(struct kuzhenga_reply_stats s, size_t n)
{
    return kuzhenga_lane_(s.slots + 16, n);
}

/* Copies the sequence that a lane is sending, from the buffer that holds it: 13 WRONG_LENGTH, 12 NO_SUCH_MOTOR. */
KUZHENGA_CHECK
uint32_t kuzhenga_bank_sending(const uint16_t *bank, size_t bank_len, const uint16_t *first, size_t first_len /* 64 */,
                               const uint16_t *second, size_t second_len /* 64 */, size_t motor, uint16_t *slots,
                               size_t slots_len /* 16 */);

/* Returns 1 if no frame set was released for two milliseconds, else 0. The clock has 32 bits and may wrap. If it
 * returns 1 and there are no new throttles, the host calls kuzhenga_bank_service. That call also finds a lease that was
 * not renewed. */
uint32_t kuzhenga_fallback_release_due(uint32_t now_ms, uint32_t last_release_ms);

/* New in 0.3.0: kuzhenga_value_period and kuzhenga_kind_name.
 *
 * Changes in 0.2.0. If no replies are held, each lane has 7 NO_REPLY, and no longer zeros. An order to exchange
 * names its buffer. This header no longer says where the fields of a state lie. A state's stored replies have the kinds
 * of readings. If a run's index in a state is above 1, the run is spent, however large the index is. */

#ifdef __cplusplus
}
#endif

#endif
