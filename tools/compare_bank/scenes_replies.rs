//! Scenes of replies and counts.

use crate::call::{Call, Service, Status};
use crate::damage::damaged;
use crate::original::{decode_gcr, reply_transitions_for};
use crate::outcome::replies;
use crate::script::{Script, EXPIRED, FAULTED, SPURIOUS, STARTED};
use crate::windows::{Window, WINDOW};

pub fn scenes(script: &mut Script) {
    refusals(script);
    each_lane(script);
    kept_over_a_fault(script);
    full_counts(script);
    other_full_counts(script);
}

/// The refusals by which the lanes' replies are counted.
fn expect_refusals(script: &mut Script, now: u64, windows: [Window; 4], right: [u64; 4]) {
    let outcome = script.served(Service::at(now).with_windows(&windows), STARTED);
    let stored = replies(outcome.fields.replies);
    assert_eq!([1, 4, 7, 10].map(|place| stored[place]), right);
}

/// A capture for each refusal from 7 to 10 (no reply, overlong, invalid symbol, checksum). One
/// damaged word of 0x123 has an invalid symbol, and one a wrong checksum.
fn refused() -> [Window; 4] {
    let bad = |refusal: u32| {
        let mut words = damaged(reply_transitions_for(0x123));
        let word = words.find(|word| decode_gcr(*word).refusal == refusal);
        Window::word(word.expect("there is such damage"), 5, 2)
    };
    let missing = Window::of(&[true; WINDOW], 2);
    [missing, Window::bits(23, 2), bad(9), bad(10)]
}

/// Each refusal of a reply. Replies that nobody takes make room for the next. After a bad reply, an
/// edge is one bit late, so another value is read.
fn refusals(script: &mut Script) {
    script.bidirectional();
    script.service(1, STARTED);
    script.cycle();
    expect_refusals(script, 2, refused(), [7, 8, 9, 10]);
    script.cycle();
    let windows = [
        Window::reply(0, 20, 2),
        Window::word(0x1d_6776, 20, 2),
        Window::reply(0x123, 20, 2).absent(),
        Window {
            mask: 0,
            ..Window::reply(0x123, 20, 2)
        },
    ];
    expect_refusals(script, 3, windows, [11, 0, 7, 7]);
    script.expect(1, Call::TakeReplies);
    script.call(Call::ReplyStats);
}

/// Each lane gets each reply once: each refusal, a speed, and the acknowledgement.
fn each_lane(script: &mut Script) {
    let taken = [0, 0x123, 0xe00].map(|value| Window::reply(value, 20, 2));
    let replies = [&refused()[..], &taken].concat();
    script.bidirectional();
    script.service(0, STARTED);
    for first in 0..replies.len() {
        let of_lane = |lane: usize| replies[(first + lane) % replies.len()].clone();
        let windows = [0, 1, 2, 3].map(of_lane);
        script.cycle();
        let now = first as u64 + 1;
        script.served(Service::at(now).with_windows(&windows), STARTED);
    }
    // The replies stay where they are, beside other counts.
    script.call(Call::SetReplyStats([7; 12]));
    script.expect(1, Call::TakeReplies);
}

/// Replies that were read before an exchange is refused can still be taken.
fn kept_over_a_fault(script: &mut Script) {
    script.bidirectional();
    script.service(1, STARTED);
    script.cycle();
    let windows = [0x111, 0x222, 0x333, 0x444].map(|value| Window::reply(value, 12, 8));
    let mut service = Service::at(2).with_windows(&windows);
    service.taken = [false; 4];
    script.served(service, FAULTED);
    script.expect(1, Call::TakeReplies);
    script.expect(0, Call::TakeReplies);
}

/// Counts at their largest values. All wrap except the count of bad replies in a row.
fn full_counts(script: &mut Script) {
    script.bidirectional();
    script.call(Call::SetStats([u32::MAX; 11]));
    script.call(Call::SetReplyStats([u32::MAX; 12]));
    script.throttles([1, 2, 3, 4], 5, 0);
    script.service(5, STARTED);
    script.service(6, EXPIRED);
    script.cycle();
    let good = Window::reply(0x123, 10, 1);
    let windows = [
        good.clone(),
        good.clone().absent(),
        good.clone(),
        good.absent(),
    ];
    let outcome = script.served(Service::at(7).with_windows(&windows), STARTED);
    let counts = outcome.fields.reply_stats;
    assert_eq!(counts.consecutive_invalid, [0, u32::MAX, 0, u32::MAX]);
    script.call(Call::Stats);
    script.call(Call::ReplyStats);
    script.service(9, FAULTED);
    script.unidirectional();
    script.call(Call::SetStats([u32::MAX; 11]));
    script.interrupt(0, Status::DONE, SPURIOUS);
    assert_eq!(script.record.bank.fields().stats.spurious_interrupts, 0);
}

/// The same counts of replies, each for the other kind of reply.
fn other_full_counts(script: &mut Script) {
    script.bidirectional();
    script.call(Call::SetReplyStats([u32::MAX; 12]));
    script.service(5, STARTED);
    script.cycle();
    let good = Window::reply(0x123, 10, 1);
    let absent = good.clone().absent();
    let windows = [absent.clone(), good.clone(), absent, good];
    let outcome = script.served(Service::at(6).with_windows(&windows), STARTED);
    let counts = outcome.fields.reply_stats;
    assert_eq!(counts.consecutive_invalid, [u32::MAX, 0, u32::MAX, 0]);
}
