//! Numbers of a list as the source's types.

use crate::call::Run;
use dshot_bank::{DshotCommandSequence, DshotMotor, DshotReplyStats, DshotStats};

/// Nothing, if there is no such lane.
pub fn lane_of(motor: u64) -> Option<DshotMotor> {
    DshotMotor::from_index(usize::try_from(motor).ok()?)
}

pub fn run_of(run: Run) -> DshotCommandSequence {
    DshotCommandSequence::of_fields(run.commands, run.index, run.repeats_left)
}

pub fn stats_of(counts: [u32; 11]) -> DshotStats {
    let [started, completed, a, b, c, d, skips, expiries, timeouts, faults, spurious] = counts;
    DshotStats {
        frames_started: started,
        frames_completed: completed,
        lane_completions: [a, b, c, d],
        busy_skips: skips,
        lease_expiries: expiries,
        frame_timeouts: timeouts,
        dma_faults: faults,
        spurious_interrupts: spurious,
    }
}

pub fn reply_stats_of(counts: [u32; 12]) -> DshotReplyStats {
    let four = |from: usize| [0, 1, 2, 3].map(|lane| counts[from + lane]);
    DshotReplyStats {
        valid: four(0),
        invalid: four(4),
        consecutive_invalid: four(8),
    }
}
