//! Cases of counts at their largest value.

use crate::coverage::Case;
use crate::step::Step;
use dshot_bank::Fields;

pub const COUNTS: &[Case] = &[
    ("frames_started", |s| wrapped(s, |f| f.stats.frames_started)),
    ("frames_completed", |s| {
        wrapped(s, |f| f.stats.frames_completed)
    }),
    ("lane_completions of lane 0", |s| {
        wrapped(s, |f| f.stats.lane_completions[0])
    }),
    ("lane_completions of lane 1", |s| {
        wrapped(s, |f| f.stats.lane_completions[1])
    }),
    ("lane_completions of lane 2", |s| {
        wrapped(s, |f| f.stats.lane_completions[2])
    }),
    ("lane_completions of lane 3", |s| {
        wrapped(s, |f| f.stats.lane_completions[3])
    }),
    ("busy_skips", |s| wrapped(s, |f| f.stats.busy_skips)),
    ("lease_expiries", |s| wrapped(s, |f| f.stats.lease_expiries)),
    ("frame_timeouts", |s| wrapped(s, |f| f.stats.frame_timeouts)),
    ("dma_faults", |s| wrapped(s, |f| f.stats.dma_faults)),
    ("spurious_interrupts", |s| {
        wrapped(s, |f| f.stats.spurious_interrupts)
    }),
    ("valid of lane 0", |s| {
        wrapped(s, |f| f.reply_stats.valid[0])
    }),
    ("valid of lane 1", |s| {
        wrapped(s, |f| f.reply_stats.valid[1])
    }),
    ("valid of lane 2", |s| {
        wrapped(s, |f| f.reply_stats.valid[2])
    }),
    ("valid of lane 3", |s| {
        wrapped(s, |f| f.reply_stats.valid[3])
    }),
    ("invalid of lane 0", |s| {
        wrapped(s, |f| f.reply_stats.invalid[0])
    }),
    ("invalid of lane 1", |s| {
        wrapped(s, |f| f.reply_stats.invalid[1])
    }),
    ("invalid of lane 2", |s| {
        wrapped(s, |f| f.reply_stats.invalid[2])
    }),
    ("invalid of lane 3", |s| {
        wrapped(s, |f| f.reply_stats.invalid[3])
    }),
    ("consecutive_invalid of lane 0, stopped", |s| stopped(s, 0)),
    ("consecutive_invalid of lane 1, stopped", |s| stopped(s, 1)),
    ("consecutive_invalid of lane 2, stopped", |s| stopped(s, 2)),
    ("consecutive_invalid of lane 3, stopped", |s| stopped(s, 3)),
];

fn wrapped(step: &Step, count: fn(&Fields) -> u32) -> bool {
    let counted = step.service().is_some() || step.interrupt().is_some();
    counted && count(step.before) == u32::MAX && count(step.after()) == 0
}

/// One more bad reply at the largest value, which stays.
fn stopped(step: &Step, lane: usize) -> bool {
    let count = |fields: &Fields| fields.reply_stats.consecutive_invalid[lane];
    step.decoded() && count(step.before) == u32::MAX && count(step.after()) == u32::MAX
}
