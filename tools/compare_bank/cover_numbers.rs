//! Cases of numbers that show where they stand in a line, and how wide they are.

use crate::coverage::Case;
use crate::outcome::{counts, reply_counts, timing};
use crate::step::Step;
use crate::timings::dshot600;

pub const NUMBERS: &[Case] = &[
    ("another timing, of unlike numbers", |s| {
        let timing = timing(s.after().timing);
        timing != dshot600().map(u64::from) && unlike(&timing)
    }),
    ("unlike counts", |s| unlike(&counts(&s.after().stats))),
    ("unlike counts of replies", |s| {
        unlike(&reply_counts(&s.after().reply_stats))
    }),
    ("first duties of lanes 0 and 1 unlike", |s| duties(s, 0, 1)),
    ("first duties of lanes 1 and 2 unlike", |s| duties(s, 1, 2)),
    ("first duties of lanes 2 and 3 unlike", |s| duties(s, 2, 3)),
    ("lease of more than 16 bits", |s| {
        s.after().lease_duration_ms > Some(u16::MAX.into())
    }),
    ("lease's start of more than 32 bits", |s| {
        s.after().lease_started_ms > u32::MAX.into()
    }),
    ("frame's start of more than 32 bits", |s| {
        s.after().frame_started_ms > u32::MAX.into()
    }),
    ("run's index above 2", |s| {
        let run = s.after().command_sequence;
        run.is_some_and(|(_, run)| run.fields().1 > 2)
    }),
];

fn unlike(numbers: &[u64]) -> bool {
    let again = |place: usize| numbers[..place].contains(&numbers[place]);
    !(0..numbers.len()).any(again)
}

/// A frame's orders end with the first duties of its lanes.
fn duties(step: &Step, one: usize, other: usize) -> bool {
    let orders = &step.outcome.orders;
    let duty = |lane: usize| orders[orders.len() - 4 + lane];
    step.frame_started() && duty(one) != duty(other)
}
