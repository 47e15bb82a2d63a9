//! Cases of services.

use crate::call::{Call, SAMPLES, SLOTS};
use crate::coverage::Case;
use crate::step::Step;

pub const SERVICES: &[Case] = &[
    ("FrameStarted", |s| event(s, 1)),
    ("Busy", |s| event(s, 2)),
    ("LeaseExpired", |s| event(s, 3)),
    ("Faulted", |s| event(s, 4)),
    ("faulted before", |s| {
        s.service().is_some() && s.before.faulted
    }),
    ("13: the first buffer", |s| length(s, |w| w[0])),
    ("13: the second buffer", |s| length(s, |w| w[1])),
    ("13: the captures", |s| length(s, |w| w[2])),
    ("13 in a faulted bank", |s| {
        s.refused(8, 13) && s.before.faulted
    }),
    ("13 in a busy bank", |s| s.refused(8, 13) && s.before.busy),
    ("frame in a bidirectional bank", |s| {
        s.frame_started() && s.before.bidirectional
    }),
    ("frame in a unidirectional bank", |s| {
        s.frame_started() && !s.before.bidirectional
    }),
    ("frame of throttles", |s| s.frame_started() && s.throttled()),
    ("frame with a command", |s| s.command_sent()),
    ("frame of zeros", |s| {
        s.frame_started() && !s.throttled() && !s.command_sent()
    }),
    ("run cancelled by throttles", |s| {
        s.run_dropped() && s.throttled()
    }),
    ("run found spent", |s| s.run_dropped() && !s.throttled()),
    ("command sent at a count of 0", |s| {
        let run = s.before.command_sequence;
        s.command_sent() && run.is_some_and(|(_, run)| run.fields().2 == 0)
    }),
    ("second command begun", |s| {
        let index = |fields: &dshot_bank::Fields| {
            fields.command_sequence.map_or(0, |(_, run)| run.fields().1)
        };
        s.command_sent() && (index(s.before), index(s.after())) == (0, 1)
    }),
    ("request sent", |s| {
        s.frame_started() && s.after().telemetry_request_sent.is_some()
    }),
    ("request waits behind a command", |s| {
        s.command_sent() && s.after().telemetry_request.is_some()
    }),
    ("sent lane cleared", |s| {
        s.service().is_some() && s.before.telemetry_request_sent.is_some()
    }),
    ("exchange refused at lane 0", |s| {
        s.exchange_refused() == Some(0)
    }),
    ("exchange refused at lane 1", |s| {
        s.exchange_refused() == Some(1)
    }),
    ("exchange refused at lane 2", |s| {
        s.exchange_refused() == Some(2)
    }),
    ("exchange refused at lane 3", |s| {
        s.exchange_refused() == Some(3)
    }),
    ("marks mixed after it", |s| {
        s.exchange_refused().is_some() && s.outcome.marks != [s.outcome.marks[0]; 4]
    }),
    ("expiry while idle", |s| s.expired() && !s.before.busy),
    ("expiry while busy", |s| s.expired() && s.before.busy),
    ("expiry, and a frame of zeros", |s| {
        s.expired() && s.frame_started() && !s.command_sent()
    }),
    ("expiry, and a left run's command", |s| {
        s.expired() && s.command_sent()
    }),
    ("expiry and timeout at once", |s| {
        s.expired() && s.timed_out()
    }),
    ("expiry and exchange refused at once", |s| {
        s.expired() && s.exchange_refused().is_some()
    }),
    ("expiry of a lease of 0", |s| {
        s.expired() && s.before.lease_duration_ms == Some(0)
    }),
    ("expiry by an earlier clock", |s| s.expired() && earlier(s)),
    ("lease kept over a wrapped clock", |s| {
        s.served() && leased(s) && !s.expired() && earlier(s)
    }),
    ("lease kept at its last tick", |s| {
        let last = |lease| s.before.lease_started_ms.wrapping_add(u64::from(lease));
        let now = s.service().map(|(service, _)| service.now);
        s.served() && s.before.lease_duration_ms.map(last) == now && now.is_some()
    }),
    ("timeout while sending", |s| {
        s.timed_out() && !s.before.receiving
    }),
    ("timeout while receiving", |s| {
        s.timed_out() && s.before.receiving
    }),
    ("timeout after 2 ms", |s| {
        s.timed_out() && since_frame(s) == 2
    }),
    ("timeout by an earlier clock", |s| {
        s.timed_out() && since_frame(s) > u64::MAX / 2
    }),
    ("no timeout after 1 ms", |s| {
        waited(s) && since_frame(s) == 1
    }),
    ("no timeout over a wrapped clock", |s| {
        let now = s.service().map_or(0, |(service, _)| service.now);
        waited(s) && now < s.before.frame_started_ms
    }),
    ("windows decoded", |s| s.decoded()),
    ("replies stored over others that nobody took", |s| {
        s.decoded() && s.before.replies.is_some()
    }),
    ("replies stored, and then a fault", |s| {
        s.decoded() && s.after().faulted
    }),
];

fn event(step: &Step, event: u64) -> bool {
    step.service().is_some_and(|(_, given)| given == event)
}

/// Refused, and only this buffer has a wrong length.
fn length(step: &Step, alone: fn([bool; 3]) -> bool) -> bool {
    let Call::Service(service) = step.call else {
        return false;
    };
    let [first, second] = service.lengths.map(|length| length != SLOTS);
    let wrong = [first, second, service.capture_length != SAMPLES];
    wrong.iter().filter(|wrong| **wrong).count() == 1 && alone(wrong)
}

fn leased(step: &Step) -> bool {
    step.before.lease_duration_ms.is_some()
}

/// At a clock before the lease's start.
fn earlier(step: &Step) -> bool {
    let now = step.service().map(|(service, _)| service.now);
    now.is_some_and(|now| now < step.before.lease_started_ms)
}

/// A service in a busy bank that stays busy.
fn waited(step: &Step) -> bool {
    step.served() && step.before.busy && step.after().busy
}

fn since_frame(step: &Step) -> u64 {
    let started = step.before.frame_started_ms;
    let now = step.service().map_or(started, |(service, _)| service.now);
    now.wrapping_sub(started)
}
