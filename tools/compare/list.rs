//! Writes the stored list that a test program replays: one record a line, numbers in decimal.
//!
//! Kinds 1 to 5, 8 to 19 and 23 hold the source's answers. Kinds 6, 7 and 20 to 22, and each
//! refusal 13 (wrong length), hold those of document 01's sentences. There the source cannot be
//! asked. It has no simulated ESC (6, 7) and no readers (20, 21). It makes only two runs of
//! commands (22). Its buffers have the right length by their type (refusal 13). At a count of 0 the
//! sentences leave a step free. There kind 22 holds this port's choice, a byte that wraps. The last
//! records are wrong on purpose.
//!
//! This program is not linked with the library, so no answer of the library can get into the list.

mod answer;
mod captures;
mod damage;
// The list has no first state of a run by itself, and no duty of one bit.
#[allow(dead_code)]
mod frame_call;
mod frame_original;
mod frame_records;
mod frame_right;
mod list_captures;
mod list_clocks;
mod list_commands;
mod list_constants;
mod list_finding;
mod list_frames;
mod list_packets;
mod list_random;
mod list_random_frames;
mod list_readers;
mod list_sequences;
mod list_values;
mod list_wrong;
mod list_wrong_frames;
mod original;
mod plain;
mod plain_frames;
mod random;
mod random_captures;
mod records;
mod timings;

const FORMS: &str = "\
# Made by `tools/compare/run FOLDER --list` from the source at commit 9cb8aca1a6.
# 1 VALUE WORD: reply_transitions_for
# 2 WORD REFUSAL VALUE: decode_gcr
# 3 VALUE EDT REFUSAL KIND NUMBER: from_value
# 4 MASK RUNS (SAMPLE TIMES)*RUNS REFUSAL WORD: reply_transitions
# 5 MASK EDT RUNS (SAMPLE TIMES)*RUNS REFUSAL KIND NUMBER: decode_sampled_reply
# 6 PERIOD REFUSAL VALUE: period_value
# 7 LENGTH VALUE LEAD MASK REFUSAL RUNS (SAMPLE TIMES)*RUNS: simulate_reply, samples 43690 before
# 8 VALUE TELEMETRY REFUSAL PACKET: try_from_value
# 9 VALUE TELEMETRY PACKET: from_value
# 10 VALUE TELEMETRY PACKET: from_value_bidirectional
# 11 ASKED LANE VALUE*4 PACKET*4: four_motor_packets, no telemetry lane where ASKED is 0
# 12 ASKED LANE VALUE*4 PACKET*4: four_motor_bidirectional_packets
# 13 CLOCK RATE REFUSAL ARR ZERO ONE SAMPLE: from_clocks
# 14 PACKET DUTY REFUSAL SLOT*: encode_packet, as many slots as it is lent, 43690 before
# 15 PACKET ARR ZERO ONE SAMPLE REFUSAL FIRST SLOT*: encode_compare_sequence, likewise
# 16 THROTTLE VALUE: throttle_to_dshot
# 17 THROTTLE*4 VALUE*4: throttles_to_dshot
# 18 REVERSED (GIVEN COMMAND)*: next_value again and again, no command where GIVEN is 0
# 19 STARTED DURATION NOW EXPIRED: command_lease_expired
# 20 PACKET REFUSAL VALUE TELEMETRY CHECKSUM: read_packet, checksum 0 plain and 1 inverted
# 21 FIRST ARR ZERO ONE SAMPLE REFUSAL VALUE TELEMETRY CHECKSUM SLOT*: read_compare_sequence
# 22 COMMAND*2 INDEX LEFT GIVEN COMMAND COMMAND*2 INDEX LEFT: next_value of any run, and the run after it
# 23 CONSTANT*12: the public constants of dshot.rs, in its order
# Kinds 1 to 5, 8 to 19 and 23 hold the Rust's answers; 6, 7 and 20 to 22, and each refusal 13,
# those of document 01's sentences. A step at a count of 0 they leave free: it is this port's.
# What a refusal leaves out is 0, but for slots, which stay as they were. A capture is given as runs
# of equal samples. A record that is marked as wrong on purpose has one number that is not the right
# one: who replays the list must report it, and no other.";

fn main() {
    println!("{FORMS}");
    list_values::groups();
    list_captures::groups();
    list_finding::groups();
    list_random::groups();
    list_frames::groups();
    list_wrong::groups();
}
