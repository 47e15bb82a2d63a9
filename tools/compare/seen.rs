//! Sees the comparison fail. First a call of each kind is compared once for each number of its
//! answer, with that number spoiled. Then every part runs with what each call returns spoiled.

use crate::capture_check::capture;
use crate::checks;
use crate::frame_call::{Call, ROOM};
use crate::frame_check::frame;
use crate::library::BEHIND;
use crate::period_check::value_period;
use crate::spoil::{spoil, spoil_nothing, ANY, FRAMES, SAMPLED_WITH_EDT, VALUE_PERIOD};
use crate::tally::Tally;
use crate::{frames, plain, replies, timings};

const LENGTH: usize = 71;

/// What a call returns, and four slots.
const ANSWER: usize = 1 + 4;

/// The kind of a call, how many numbers its answer has, and the comparison of such a call.
type Kind = (usize, usize, fn(&mut Tally));

const REPLIES: [Kind; 9] = [
    (1, 1, |tally| checks::reply_transitions_for(tally, 0x123)),
    (2, ANSWER, |tally| checks::decode_gcr(tally, 0x17_bdf9)),
    (3, ANSWER, |tally| checks::reply_from_value(tally, 0x123, 0)),
    (4, ANSWER, a_capture),
    (5, ANSWER, a_capture),
    (SAMPLED_WITH_EDT, ANSWER, a_capture),
    (VALUE_PERIOD, ANSWER, |tally| value_period(tally, 0x534)),
    (6, ANSWER, |tally| checks::period_value(tally, 1000)),
    (7, 1 + LENGTH + BEHIND, |tally| {
        checks::simulate_reply(tally, LENGTH, 0x123, 1, 1);
    }),
];

fn a_capture(tally: &mut Tally) {
    capture(tally, &plain::simulate_reply(LENGTH, 0x123, 1, 1).1, 1);
}

/// A call of each sort on frames, with what it returns and three buffers.
const FRAME: usize = 1 + 3 * ROOM;

fn frame_calls() -> [Call; 16] {
    let (four, timing) = ([0, 48, 1046, 2047], timings::dshot600());
    [
        Call::FromValue(1046, 1),
        Call::Bidirectional(1046, 1),
        Call::TryFromValue(1046, 1),
        Call::FourMotors(four, 2),
        Call::FourBidirectional(four, 2),
        Call::FromClocks(168_000_000, 600_000),
        Call::DutyForBit(timing, 1),
        Call::EncodePacket(0xa5c3, 279),
        Call::EncodeSequence(0xa5c3, timing),
        Call::Throttle(1000),
        Call::Throttles(four),
        Call::SpinDirection(1),
        Call::NextValue([20, 12, 0, 10]),
        Call::LeaseExpired(1000, 500, 1500),
        Call::ReadPacket(33495),
        Call::ReadSequence(210, [105; 16], timing),
    ]
}

/// How many wrong answers were not seen.
struct Unseen {
    wrong: u64,
    unseen: u64,
}

impl Unseen {
    /// Compares a call unspoiled, and then with each number of its answer spoiled.
    fn call(&mut self, name: &str, kind: usize, numbers: usize, compare: impl Fn(&mut Tally)) {
        spoil_nothing();
        self.count(&format!("{name}, unspoiled"), 0, &compare);
        for place in 0..numbers {
            spoil(kind, place);
            self.count(&format!("{name}, number {place}"), 1, &compare);
        }
        spoil_nothing();
    }

    fn count(&mut self, name: &str, right: u64, compare: &impl Fn(&mut Tally)) {
        let mut tally = Tally::new("");
        compare(&mut tally);
        self.wrong += right;
        if tally.differ != right {
            println!("not as it should be: {name}: {} differ", tally.differ);
            self.unseen += 1;
        }
    }

    /// A part whose every answer was wrong.
    fn part(&mut self, found: &Tally) {
        self.wrong += found.compared;
        if found.differ == 0 {
            println!("not seen: {}", found.name);
            self.unseen += 1;
        }
    }
}

/// How many wrong answers were not seen. The argument is how many captures part 8 takes.
pub fn unseen(count: u64) -> u64 {
    let mut seen = Unseen {
        wrong: 0,
        unseen: 0,
    };
    for (kind, numbers, compare) in REPLIES {
        seen.call(&format!("kind {kind}"), kind, numbers, compare);
    }
    for call in frame_calls() {
        let compare = |tally: &mut Tally| {
            frame(tally, call);
        };
        seen.call(&format!("{call:?}"), FRAMES, FRAME, compare);
    }
    spoil(ANY, 0);
    replies(count, &mut |found: Tally| seen.part(&found));
    frames(&mut |found: Tally| seen.part(&found));
    spoil_nothing();
    println!("{} wrong answers, {} not seen", seen.wrong, seen.unseen);
    seen.unseen
}
