//! Part 19: buffers of a wrong length, which only the library can be lent. Each call answers 13
//! (wrong length), before any other refusal, and writes nothing.

use crate::frame_call::Call;
use crate::frame_check::lent;
use crate::frame_original::{encode_sequence, from_value};
use crate::tally::Tally;
use crate::timings;

const LONGEST: usize = 24;

/// Calls that are taken with buffers of the right length.
fn taken() -> [Call; 12] {
    let timing = timings::dshot600();
    let packet = from_value(1046, 1).into();
    let (first, slots) = encode_sequence(packet, timing);
    [
        Call::TryFromValue(1046, 1),
        Call::FourMotors([0, 48, 1046, 2047], 2),
        Call::FourBidirectional([0, 48, 1046, 2047], 2),
        Call::FromClocks(168_000_000, 600_000),
        Call::DutyForBit(timing, 1),
        Call::EncodePacket(packet, 279),
        Call::EncodeSequence(packet, timing),
        Call::Throttles([0, 1, 1000, 2000]),
        Call::SpinDirection(1),
        Call::NextValue([20, 12, 0, 10]),
        Call::ReadPacket(packet),
        Call::ReadSequence(first.into(), slots, timing),
    ]
}

/// Calls that would be refused for something else.
fn refused() -> [Call; 10] {
    let timing = timings::dshot600();
    let (first, slots) = encode_sequence(0, timing);
    [
        Call::TryFromValue(2048, 0),
        Call::FromClocks(0, 0),
        Call::FromClocks(1, 0),
        Call::FromClocks(1, 1),
        Call::FromClocks(u32::MAX, 1),
        Call::ReadPacket(1),
        Call::ReadPacket(1 << 16),
        Call::ReadSequence(first.into(), slots, timings::EQUAL[0]),
        Call::ReadSequence(1 << 16, slots, timing),
        Call::ReadSequence(first.into(), [1; 16], timing),
    ]
}

/// Each buffer has every wrong length, by itself and together with all others.
pub fn wrong_lengths() -> Tally {
    let mut tally = Tally::new("19 buffers of a wrong length");
    for call in taken().into_iter().chain(refused()) {
        let right = call.lengths();
        for length in 0..=LONGEST {
            let alone = (0..right.len()).map(|buffer| {
                let mut lengths = right.to_vec();
                lengths[buffer] = length;
                lengths
            });
            let all = (right.len() > 1).then(|| vec![length; right.len()]);
            for lengths in alone.chain(all).filter(|lengths| lengths != right) {
                lent(&mut tally, call, &lengths);
            }
        }
    }
    tally
}
