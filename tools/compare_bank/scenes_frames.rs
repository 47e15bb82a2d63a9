//! Scenes of frames, leases and releases.

use crate::call::{Call, Service, Status};
use crate::script::{Script, BUSY, EXPIRED, FAULTED, SPURIOUS, STARTED};
use crate::windows::Window;

pub fn scenes(script: &mut Script) {
    ordinary(script);
    expired(script);
    turned_late(script);
    writes(script);
    releases(script);
}

/// Four different throttles and a telemetry request. The four replies differ, at different places
/// and pins.
fn ordinary(script: &mut Script) {
    script.bidirectional();
    script.expect(1, Call::IsBidirectional);
    script.throttles([1, 500, 1000, 2000], 100, 50);
    script.call(Call::RequestedValues);
    script.request(0, 2);
    script.service(100, STARTED);
    script.expect(3, Call::TakeTelemetryRequestSent);
    script.expect(0, Call::TakeTelemetryRequestSent);
    script.views();
    script.service(100, BUSY);
    script.cycle();
    script.expect(0, Call::TakeReplies);
    let windows = [
        Window::reply(0x123, 10, 0x0001),
        Window::reply(0xfff, 0, 0x8000),
        Window::reply(0xe00, 40, 0x0ff0),
        Window::reply(0xabc, 91, 0x0004),
    ];
    script.served(Service::at(102).with_windows(&windows), STARTED);
    script.expect(1, Call::TakeReplies);
    script.expect(0, Call::TakeReplies);
    script.call(Call::Stats);
    script.call(Call::ReplyStats);
}

/// A lease is kept at its last tick. One tick later it is over. If the bank is idle, a frame of
/// zeros starts. If it is busy, it waits on. If it is out of time, it counts the expiry and faults.
fn expired(script: &mut Script) {
    script.unidirectional();
    script.throttles([7, 8, 9, 10], 100, 5);
    script.service(105, STARTED);
    script.complete(&[0, 1, 2, 3]);
    script.service(106, EXPIRED);
    script.view(0, 3, [64; 2]);
    script.throttles([0, 0, 0, 300], 106, 0);
    script.service(106, BUSY);
    script.service(107, EXPIRED);
    script.service(107, BUSY);
    script.throttles([300, 0, 0, 0], 107, 0);
    script.service(108, FAULTED);
    assert_eq!(script.record.bank.fields().stats.lease_expiries, 3);
}

/// The bank is turned bidirectional in the middle of a frame, which then has a window. One
/// interrupt too many is a fault, and then that window is not read.
fn turned_late(script: &mut Script) {
    script.unidirectional();
    script.service(1, STARTED);
    script.complete(&[0, 1]);
    script.expect(0, Call::EnableBidirectional(true));
    script.complete(&[2, 3]);
    script.complete(&[3, 0, 1, 2]);
    assert!(script.record.bank.fields().replies_waiting);
    script.interrupt(0, Status::DONE, SPURIOUS);
    script.service(2, FAULTED);
}

/// The caller's own writes: into what is sent, into the spare, and of a value that is there
/// already.
fn writes(script: &mut Script) {
    script.unidirectional();
    script.write(0, 5, 77);
    script.write(1, 63, 65535);
    script.view(0, 0, [64; 2]);
    script.service(1, STARTED);
    script.write(0, 5, 77);
    script.write(1, 31, 9);
    script.view(0, 1, [64; 2]);
}

/// A release is due two ticks after the last one, also across the wrap, in any state of the bank.
fn releases(script: &mut Script) {
    script.bidirectional();
    script.throttles([1, 2, 3, 4], 100, 9);
    script.release(false, 101, 100);
    script.service(102, STARTED);
    script.release(true, 102, 100);
    script.release(true, 103, 100);
    script.release(false, 65537, 65536);
    script.release(false, 0, u32::MAX);
    script.release(true, 1, u32::MAX);
}
