//! Cases of demands, requests, looks, views, writes and releases.

use crate::call::{Call, Run};
use crate::coverage::Case;
use crate::step::Step;

pub const CALLS: &[Case] = &[
    ("new bank after a fault", |s| {
        new_bank(s) && s.before.faulted
    }),
    ("new bank in the middle of a frame", |s| {
        new_bank(s) && s.before.busy
    }),
    ("turned bidirectional", |s| turned(s, |_| true)),
    ("turned in the middle of a frame", |s| {
        turned(s, |s| s.before.busy)
    }),
    ("22: lanes cannot receive", |s| s.refused(1, 22)),
    ("stop of a throttle", |s| {
        matches!(s.call, Call::CommandStop) && s.before.requested_values != [0; 4]
    }),
    ("throttles accepted", |s| s.refused(3, 0) && s.throttled()),
    ("throttles accepted, one of them 2000", |s| {
        s.refused(3, 0) && commands(s).contains(&2000)
    }),
    ("throttles all 0", |s| {
        s.refused(3, 0) && commands(s) == [0; 4]
    }),
    ("throttles while a run is pending", |s| {
        s.refused(3, 0) && s.throttled() && s.before.command_sequence.is_some()
    }),
    ("6: a throttle of 2001", |s| {
        s.refused(3, 6) && commands(s).contains(&2001)
    }),
    ("6: a throttle above it", |s| {
        s.refused(3, 6) && commands(s).iter().any(|command| *command > 2001)
    }),
    ("18: throttles", |s| s.refused(3, 18)),
    ("18: throttles, one of them above 2000", |s| {
        s.refused(3, 18) && commands(s).iter().any(|command| *command > 2000)
    }),
    ("run accepted, fresh", |s| {
        run(s, |r| (r.index, r.repeats_left) == (0, 10))
    }),
    ("run accepted, partly spent", |s| {
        run(s, |r| r.index < 2 && (1..10).contains(&r.repeats_left))
    }),
    ("run accepted, spent", |s| run(s, |r| r.index >= 2)),
    ("run accepted, at a count of 0", |s| {
        run(s, |r| r.index < 2 && r.repeats_left == 0)
    }),
    ("run accepted, commands above 2047", |s| {
        run(s, |r| r.commands.iter().any(|command| *command > 2047))
    }),
    ("12: run", |s| s.refused(4, 12)),
    ("12: run, in a faulted bank", |s| {
        s.refused(4, 12) && s.before.faulted
    }),
    ("18: run", |s| s.refused(4, 18)),
    ("19: run", |s| s.refused(4, 19)),
    ("19: run, one pending too", |s| {
        s.refused(4, 19) && s.before.command_sequence.is_some()
    }),
    ("20: run", |s| s.refused(4, 20)),
    ("request accepted", |s| s.refused(5, 0)),
    ("12: request", |s| s.refused(5, 12)),
    ("18: request", |s| s.refused(5, 18)),
    ("21: request", |s| s.refused(5, 21)),
    ("request cancelled", |s| {
        s.before.telemetry_request.is_some() && matches!(s.call, Call::CancelTelemetryRequest)
    }),
    ("sent lane taken", |s| {
        matches!(s.call, Call::TakeTelemetryRequestSent) && s.outcome.answer != [0]
    }),
    ("no sent lane to take", |s| {
        matches!(s.call, Call::TakeTelemetryRequestSent) && s.outcome.answer == [0]
    }),
    ("replies taken", |s| {
        replies(s) && s.before.replies.is_some()
    }),
    ("replies taken in a faulted bank", |s| {
        replies(s) && s.before.replies.is_some() && s.before.faulted
    }),
    ("no replies to take", |s| {
        replies(s) && s.before.replies.is_none()
    }),
    ("view of the first buffer", |s| view(s) == Some(false)),
    ("view of the second buffer", |s| view(s) == Some(true)),
    ("view of mixed marks", |s| {
        view(s).is_some() && s.outcome.marks != [s.outcome.marks[0]; 4]
    }),
    ("13: view", |s| s.refused(17, 13)),
    ("13: view, of a lane above 3", |s| {
        s.refused(17, 13) && matches!(s.call, Call::View { motor: 4.., .. })
    }),
    ("12: view", |s| s.refused(17, 12)),
    ("slot written of a sequence being sent", |s| {
        written(s) == Some(true)
    }),
    ("slot written of a spare", |s| written(s) == Some(false)),
    ("release due", |s| release(s, 1, |_, _| true)),
    ("release not due", |s| release(s, 0, |_, _| true)),
    ("release due across the wrap", |s| {
        release(s, 1, |now, last| now < last)
    }),
];

fn new_bank(step: &Step) -> bool {
    matches!(step.call, Call::FromLanes(_))
}

fn turned(step: &Step, when: fn(&Step) -> bool) -> bool {
    step.refused(1, 0) && !step.before.bidirectional && when(step)
}

fn commands(step: &Step) -> [u16; 4] {
    match step.call {
        Call::CommandThrottles { commands, .. } => *commands,
        _ => [0; 4],
    }
}

fn run(step: &Step, like: fn(Run) -> bool) -> bool {
    let alike = matches!(step.call, Call::CommandSpecial { run, .. } if like(*run));
    alike && step.refused(4, 0)
}

fn replies(step: &Step) -> bool {
    matches!(step.call, Call::TakeReplies)
}

/// Whether the view was of the second buffer.
fn view(step: &Step) -> Option<bool> {
    match step.call {
        Call::View { motor, .. } if step.refused(17, 0) => {
            Some(step.outcome.marks[*motor as usize])
        }
        _ => None,
    }
}

/// Whether the slot's lane is sending that buffer.
fn written(step: &Step) -> Option<bool> {
    match step.call {
        Call::Write { buffer, slot, .. } => Some(step.outcome.marks[slot / 16] == (*buffer == 1)),
        _ => None,
    }
}

fn release(step: &Step, due: u64, like: fn(u32, u32) -> bool) -> bool {
    match step.call {
        Call::FallbackReleaseDue { now, last } => step.outcome.answer == [due] && like(*now, *last),
        _ => false,
    }
}
