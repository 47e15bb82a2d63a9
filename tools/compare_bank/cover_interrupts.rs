//! Cases of interrupts.

use crate::call::Call;
use crate::coverage::Case;
use crate::step::Step;

pub const INTERRUPTS: &[Case] = &[
    ("Completed", |s| event(s, 1)),
    ("Faulted", |s| event(s, 2)),
    ("Spurious", |s| event(s, 3)),
    ("12: lane 4", |s| of_lane(s, 4)),
    ("12: lane 255", |s| of_lane(s, 255)),
    ("12: lane 256", |s| of_lane(s, 256)),
    ("12: lane 2^32", |s| of_lane(s, 1 << 32)),
    ("12: lane 2^64 - 1", |s| of_lane(s, u64::MAX)),
    ("12 in a faulted bank", |s| {
        s.refused(9, 12) && s.before.faulted
    }),
    ("lane sent", |s| event(s, 1) && !s.before.receiving),
    ("lane received", |s| event(s, 1) && s.before.receiving),
    ("window opened", |s| {
        !s.before.receiving && s.after().receiving
    }),
    ("window closed", |s| {
        !s.before.replies_waiting && s.after().replies_waiting
    }),
    ("frame ends without a window", |s| {
        event(s, 1) && !s.before.bidirectional && !s.after().busy
    }),
    ("faulted before", |s| {
        s.interrupt().is_some() && s.before.faulted
    }),
    ("bank not busy", |s| event(s, 3) && !s.before.busy),
    ("bank not busy, with an error", |s| {
        event(s, 3) && !s.before.busy && s.interrupt().is_some_and(|(_, status, _)| status.error)
    }),
    ("lane done already, while sending", |s| {
        done(s) && !s.before.receiving
    }),
    ("lane done already, while receiving", |s| {
        done(s) && s.before.receiving
    }),
    ("error", |s| status(s, true, true)),
    ("error, and not complete", |s| status(s, false, true)),
    ("not complete", |s| status(s, false, false)),
    ("turn refused", |s| turn(s) && !s.before.receiving),
    ("turn back refused", |s| turn(s) && s.before.receiving),
];

fn event(step: &Step, event: u64) -> bool {
    step.interrupt().is_some_and(|(_, _, given)| given == event)
}

fn of_lane(step: &Step, lane: u64) -> bool {
    matches!(step.call, Call::OnDmaInterrupt { motor, .. } if *motor == lane)
}

fn done(step: &Step) -> bool {
    event(step, 3) && step.before.busy && !step.awaited()
}

fn status(step: &Step, complete: bool, error: bool) -> bool {
    let alike = step
        .interrupt()
        .is_some_and(|(_, status, _)| (status.complete, status.error) == (complete, error));
    step.awaited() && alike
}

/// The last lane completed, but there was a fault.
fn turn(step: &Step) -> bool {
    status(step, true, false) && step.after().faulted
}
