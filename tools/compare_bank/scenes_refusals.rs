//! Scenes of refused calls. If a call could be refused for several reasons, they show the order.

use crate::call::{Call, Run, Service, Status};
use crate::script::{Script, BUSY, FAULT, FAULTED, REVERSE, SPURIOUS, STARTED};

pub fn scenes(script: &mut Script) {
    throttles(script);
    lanes(script);
    lengths(script);
    faulted(script);
}

fn throttles(script: &mut Script) {
    script.unidirectional();
    script.throttles_refused(6, [2000, 2001, 0, 0], 1, 9);
    script.throttles_refused(6, [0, 0, 0, 65535], 1, 9);
    script.throttles([2000; 4], 1, 9);
    script.throttles([0; 4], 2, 9);
    script.run(0, 0, REVERSE);
    script.throttles([0, 0, 1, 0], 2, 9);
    // 19 (motors running) comes before 20 (command pending).
    script.run(19, 0, REVERSE);
    script.call(Call::CommandStop);
    script.run(20, 0, REVERSE);
}

fn wide_lane(script: &mut Script, lane: u64) {
    script.run(12, lane, REVERSE);
    script.request(12, lane);
    let interrupt = Call::OnDmaInterrupt {
        motor: lane,
        status: Status::DONE,
    };
    script.expect(12, interrupt);
    script.view(12, lane, [64; 2]);
}

/// Lanes above 3. Their low bits may be those of a lane.
fn lanes(script: &mut Script) {
    script.unidirectional();
    wide_lane(script, 4);
    wide_lane(script, 255);
    wide_lane(script, 256);
    wide_lane(script, 1 << 32);
    script.request(12, u64::MAX);
}

fn lent(script: &mut Script, first: usize, second: usize, captures: usize) {
    let service = Service {
        lengths: [first, second],
        capture_length: captures,
        ..Service::at(1)
    };
    script.expect(13, Call::Service(service));
}

/// Buffers of a wrong length, of an idle and of a busy bank.
fn lengths(script: &mut Script) {
    script.bidirectional();
    for (first, second, captures) in [
        (0, 0, 0),
        (63, 64, 640),
        (64, 65, 640),
        (64, 64, 639),
        (64, 64, 641),
        (80, 80, 700),
    ] {
        lent(script, first, second, captures);
    }
    script.service(1, STARTED);
    lent(script, 64, 0, 640);
    script.service(1, BUSY);
    script.view(13, 0, [63, 64]);
    script.view(13, 0, [64, 65]);
    // The lengths come before the lane.
    script.view(13, 4, [0, 64]);
}

/// Every call on a faulted bank.
fn faulted(script: &mut Script) {
    script.bidirectional();
    script.run(0, 2, REVERSE);
    script.interrupt(2, Status::DONE, SPURIOUS);
    script.throttles_refused(18, [1, 2, 3, 2001], 1, 9);
    script.throttles_refused(18, [0; 4], 1, 9);
    script.run(12, 4, REVERSE);
    let spent = Run {
        index: 2,
        ..REVERSE
    };
    script.run(18, 3, spent);
    script.request(12, 4);
    script.request(18, 3);
    script.call(Call::CommandStop);
    script.call(Call::CancelTelemetryRequest);
    script.expect(0, Call::TakeTelemetryRequestSent);
    lent(script, 64, 64, 0);
    script.service(1, FAULTED);
    wide_interrupt(script);
    script.interrupt(0, Status::DONE, FAULT);
    script.expect(0, Call::TakeReplies);
    script.expect(0, Call::EnableBidirectional(true));
    script.expect(22, Call::EnableBidirectional(false));
    script.expect(1, Call::IsFaulted);
    script.expect(1, Call::IsBidirectional);
    script.pending(false);
    script.write(0, 0, 1);
    script.view(0, 0, [64; 2]);
}

fn wide_interrupt(script: &mut Script) {
    let interrupt = Call::OnDmaInterrupt {
        motor: u64::MAX,
        status: Status::DONE,
    };
    script.expect(12, interrupt);
}
