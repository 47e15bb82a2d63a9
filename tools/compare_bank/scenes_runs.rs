//! Scenes of runs of commands.

use crate::call::{Call, Run};
use crate::outcome::lane;
use crate::script::{Script, BUSY, EXPIRED, REVERSE, STARTED};

pub fn scenes(script: &mut Script) {
    left(script);
    cancelled(script);
    spent(script);
    other_fields(script);
}

/// If throttles expire before a frame, they leave the run. Its next command is sent: here a first
/// command for the last time.
fn left(script: &mut Script) {
    script.bidirectional();
    let run = Run {
        repeats_left: 1,
        ..REVERSE
    };
    script.run(0, 1, run);
    script.throttles([5, 6, 7, 8], 10, 3);
    script.service(14, EXPIRED);
    script.pending(true);
    script.view(0, 1, [64; 2]);
}

/// If throttles are stopped before a frame, they leave the run too. Others cancel it when a frame
/// starts, and not before.
fn cancelled(script: &mut Script) {
    script.unidirectional();
    script.run(0, 0, REVERSE);
    script.throttles([5, 6, 7, 8], 1, 100);
    script.call(Call::CommandStop);
    script.service(1, STARTED);
    script.complete(&[0, 1, 2, 3]);
    script.throttles([0, 40, 0, 0], 1, 100);
    script.pending(true);
    script.service(2, STARTED);
    script.pending(false);
}

/// A whole run of twenty frames, and the frame that finds it spent, in a bank whose lanes cannot
/// receive. One request is cancelled. Another waits for the frame that finds the run spent. Nobody
/// takes its lane, which is gone at the service after that.
fn spent(script: &mut Script) {
    script.unidirectional();
    script.expect(22, Call::EnableBidirectional(false));
    script.expect(0, Call::IsBidirectional);
    script.run(0, 2, REVERSE);
    script.run(20, 3, REVERSE);
    script.request(0, 3);
    script.call(Call::CancelTelemetryRequest);
    script.request(0, 1);
    script.request(21, 0);
    for frame in 1..=20 {
        script.service(frame, STARTED);
        script.complete(&[0, 1, 2, 3]);
    }
    script.expect(0, Call::TakeTelemetryRequestSent);
    script.pending(true);
    script.service(21, STARTED);
    script.pending(false);
    let sent = script.record.bank.fields().telemetry_request_sent;
    assert_eq!(lane(sent), 2);
    script.service(22, BUSY);
    script.expect(0, Call::TakeTelemetryRequestSent);
}

/// A run that is spent from the start. Then a run whose count of 0 wraps and whose command is cut
/// to eleven bits.
fn other_fields(script: &mut Script) {
    script.unidirectional();
    let run = |index, repeats_left| Run {
        commands: [2047 + 48, 65535],
        index,
        repeats_left,
    };
    script.run(0, 3, run(2, 10));
    script.service(1, STARTED);
    script.pending(false);
    script.complete(&[0, 1, 2, 3]);
    script.run(0, 0, run(0, 0));
    script.service(2, STARTED);
    script.complete(&[0, 1, 2, 3]);
    script.throttles([1, 0, 0, 0], 2, 9);
    script.run(19, 0, REVERSE);
}
