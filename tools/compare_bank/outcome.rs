//! What a call gives: its answer, its orders, the bank's fields and the slots that it changed.

use crate::original::reply;
use crate::write_call::joined;
use dshot_bank::{DshotMotor, DshotReplies, DshotReplyStats, DshotStats, Fields};
use ferrowasp_output::dshot::DshotTiming;

pub struct Outcome {
    pub answer: Vec<u64>,
    pub orders: Vec<u64>,
    /// The fields after the call, and for each lane the buffer that it is sending from.
    pub fields: Fields,
    pub marks: [bool; 4],
    pub changed: Vec<u64>,
}

impl Outcome {
    pub fn line(&self, code: u64) -> String {
        let answer = [&[code][..], &self.answer].concat();
        let mut fields = field_numbers(&self.fields);
        fields.extend(self.marks.map(u64::from));
        [answer, self.orders.clone(), fields, self.changed.clone()]
            .map(|part| joined(&part))
            .join(" | ")
    }
}

fn field_numbers(fields: &Fields) -> Vec<u64> {
    let mut numbers = timing(fields.timing).to_vec();
    numbers.extend(fields.requested_values.map(u64::from));
    numbers.push(fields.lease_started_ms);
    numbers.extend(match fields.lease_duration_ms {
        Some(lease) => vec![1, lease.into()],
        None => vec![0],
    });
    numbers.push(lane(fields.telemetry_request));
    numbers.push(lane(fields.telemetry_request_sent));
    numbers.extend(match fields.command_sequence {
        Some((motor, run)) => {
            let ([first, second], index, left) = run.fields();
            let [index, left] = [index, left].map(u64::from);
            vec![lane(Some(motor)), first.into(), second.into(), index, left]
        }
        None => vec![0],
    });
    numbers.extend([fields.frame_started_ms, fields.completion_mask.into()]);
    let flags = [
        fields.busy,
        fields.faulted,
        fields.bidirectional,
        fields.receiving,
        fields.replies_waiting,
    ];
    numbers.extend(flags.map(u64::from));
    numbers.extend(replies(fields.replies));
    numbers.extend(counts(&fields.stats));
    numbers.extend(reply_counts(&fields.reply_stats));
    numbers
}

pub fn timing(timing: DshotTiming) -> [u64; 4] {
    [
        timing.arr,
        timing.zero_high,
        timing.one_high,
        timing.reply_sample_arr,
    ]
    .map(u64::from)
}

/// 0 for none, else one more than the lane.
pub fn lane(motor: Option<DshotMotor>) -> u64 {
    motor.map_or(0, |motor| motor.index() as u64 + 1)
}

/// 0 for none, else 1 and for each lane refusal, kind and number.
pub fn replies(replies: Option<DshotReplies>) -> Vec<u64> {
    let Some(replies) = replies else {
        return vec![0];
    };
    let mut numbers = vec![1];
    for lane in replies {
        let answer = reply(lane);
        let of_lane = [answer.refusal, answer.kind(), answer.number()];
        numbers.extend(of_lane.map(u64::from));
    }
    numbers
}

pub fn counts(stats: &DshotStats) -> [u64; 11] {
    let [a, b, c, d] = stats.lane_completions;
    [
        stats.frames_started,
        stats.frames_completed,
        a,
        b,
        c,
        d,
        stats.busy_skips,
        stats.lease_expiries,
        stats.frame_timeouts,
        stats.dma_faults,
        stats.spurious_interrupts,
    ]
    .map(u64::from)
}

pub fn reply_counts(stats: &DshotReplyStats) -> Vec<u64> {
    let lanes = [stats.valid, stats.invalid, stats.consecutive_invalid];
    lanes.concat().into_iter().map(u64::from).collect()
}
