//! Scenes of faults.

use crate::call::{Call, Service, Status};
use crate::script::{Script, BUSY, EXPIRED, FAULT, FAULTED, SPURIOUS, STARTED};

pub fn scenes(script: &mut Script) {
    exchanges(script);
    timeouts(script);
    earlier_clocks(script);
    wrapped_clocks(script);
    spurious(script);
    failed(script);
    turns(script);
}

/// The buffers that the lanes take, up to one that does not.
fn taken_to(now: u64, lane: usize) -> Service {
    let mut service = Service::at(now);
    service.taken[lane] = false;
    service
}

/// First the exchange is refused at lane 2. Lanes 0 and 1 are sending the first buffer again, the
/// others the second, and all four spares are new. Then it is refused at the other lanes of new
/// banks. At lane 0 a lease has expired too.
fn exchanges(script: &mut Script) {
    script.unidirectional();
    script.throttles([100, 200, 300, 400], 10, 50);
    script.service(10, STARTED);
    script.complete(&[0, 1, 2, 3]);
    script.throttles([500, 600, 700, 800], 11, 50);
    script.request(0, 0);
    let outcome = script.served(taken_to(11, 2), FAULTED);
    assert_eq!(outcome.marks, [false, false, true, true]);
    script.views();
    script.expect(1, Call::IsFaulted);
    script.call(Call::RequestedValues);
    for lane in [0, 1, 3] {
        script.unidirectional();
        script.throttles([9, 8, 7, 6], 0, lane as u32);
        script.served(taken_to(1, lane), FAULTED);
    }
    script.view(0, 3, [64; 2]);
}

/// More than 1 ms is too long, for sending and for receiving. 1 ms is not.
fn timeouts(script: &mut Script) {
    script.bidirectional();
    script.service(10, STARTED);
    script.service(11, BUSY);
    script.service(12, FAULTED);
    script.service(12, FAULTED);
    script.bidirectional();
    script.service(20, STARTED);
    script.complete(&[1, 3, 0, 2]);
    script.service(21, BUSY);
    script.service(22, FAULTED);
    script.interrupt(1, Status::DONE, FAULT);
}

/// If the clock is before the frame's start, the frame is out of time. If it is before the lease's
/// start, the lease is expired.
fn earlier_clocks(script: &mut Script) {
    script.unidirectional();
    script.service(10, STARTED);
    script.service(9, FAULTED);
    script.unidirectional();
    script.throttles([9, 9, 9, 9], 100, 1000);
    script.service(99, EXPIRED);
}

/// A clock that has wrapped is not an earlier clock. It is within the lease and the frame's time.
fn wrapped_clocks(script: &mut Script) {
    let top = u64::MAX;
    script.unidirectional();
    script.throttles([9, 9, 9, 9], top, 1);
    script.service(0, STARTED);
    script.complete(&[0, 1, 2, 3]);
    script.service(top, STARTED);
    script.service(0, BUSY);
    script.service(1, FAULTED);
}

/// Interrupts of an idle bank, with and without an error, and of a lane that is done. Before the
/// last one a request was sent, which is too late to cancel, and the bank was turned once more.
fn spurious(script: &mut Script) {
    let error = Status {
        error: true,
        ..Status::DONE
    };
    for status in [Status::DONE, error] {
        script.bidirectional();
        script.interrupt(3, status, SPURIOUS);
    }
    script.unidirectional();
    script.service(1, STARTED);
    script.complete(&[2]);
    script.interrupt(2, error, SPURIOUS);
    script.bidirectional();
    script.request(0, 1);
    script.service(1, STARTED);
    script.call(Call::CancelTelemetryRequest);
    script.complete(&[0, 1, 2, 3]);
    script.expect(0, Call::EnableBidirectional(true));
    script.complete(&[0]);
    script.interrupt(0, Status::DONE, SPURIOUS);
}

/// An error is a fault, also if the transfer is not complete. By itself that would be spurious.
fn failed(script: &mut Script) {
    for (complete, error, event) in [
        (true, true, FAULT),
        (false, true, FAULT),
        (false, false, SPURIOUS),
    ] {
        script.unidirectional();
        script.service(1, STARTED);
        let status = Status {
            complete,
            error,
            ..Status::DONE
        };
        script.interrupt(1, status, event);
    }
}

/// Lanes that do not turn, and lanes that do not turn back.
fn turns(script: &mut Script) {
    let turned = Status {
        turned: false,
        ..Status::DONE
    };
    let back = Status {
        back: false,
        ..Status::DONE
    };
    script.bidirectional();
    script.service(1, STARTED);
    script.complete(&[0, 1, 2]);
    script.interrupt(3, turned, FAULT);
    script.bidirectional();
    script.service(1, STARTED);
    script.complete(&[3, 2, 1, 0]);
    script.complete(&[0, 2, 3]);
    script.interrupt(1, back, FAULT);
    script.service(2, FAULTED);
}
