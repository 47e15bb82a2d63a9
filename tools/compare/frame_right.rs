//! The right answer of a call on frames. It is the source's. For the readers and for any run of
//! commands it is that of a plain construction.

use crate::frame_call::{put, Buffer, Call, Left};
use crate::{frame_original as original, plain_frames as plain};

/// A buffer of a wrong length is refused before anything else.
pub fn right(call: &Call, lengths: &[usize]) -> Left {
    let mut left = call.before();
    left.returned = match lengths == call.lengths() {
        true => done(call, &mut left.buffers),
        false => 13,
    };
    left
}

fn done(call: &Call, [first, second, third]: &mut [Buffer; 3]) -> u32 {
    match *call {
        Call::FromValue(value, flag) => original::from_value(value, flag).into(),
        Call::Bidirectional(value, flag) => original::bidirectional(value, flag).into(),
        Call::TryFromValue(value, flag) => filled(first, original::try_from_value(value, flag)),
        Call::FourMotors(values, lane) => filled(second, Ok(original::four_motors(values, lane))),
        Call::FourBidirectional(values, lane) => {
            filled(second, Ok(original::four_bidirectional(values, lane)))
        }
        Call::FromClocks(clock, rate) => filled(first, original::from_clocks(clock, rate)),
        Call::DutyForBit(timing, set) => filled(second, Ok([original::duty_for_bit(timing, set)])),
        Call::EncodePacket(packet, duty) => {
            filled(first, Ok(original::encode_packet(packet, duty)))
        }
        Call::EncodeSequence(packet, timing) => {
            let (duty, slots) = original::encode_sequence(packet, timing);
            put(second, &[duty]);
            filled(third, Ok(slots))
        }
        Call::Throttle(value) => original::throttle(value).into(),
        Call::Throttles(values) => filled(second, Ok(original::throttles(values))),
        Call::SpinDirection(reversed) => {
            let run = original::spin_direction(reversed);
            filled(first, Ok(original::fields(&run)))
        }
        Call::NextValue(run) => {
            let (after, value) = plain::next_value(run);
            put(first, &after);
            filled(second, Ok(value))
        }
        Call::LeaseExpired(started, duration, now) => {
            original::lease_expired(started, duration, now).into()
        }
        Call::ReadPacket(packet) => filled(first, plain::read_packet(packet)),
        Call::ReadSequence(duty, slots, timing) => {
            filled(third, plain::read_sequence(duty, slots, timing))
        }
    }
}

/// The refusal's number; or 0, with the slots filled.
fn filled<const N: usize>(buffer: &mut Buffer, answer: Result<[u16; N], u32>) -> u32 {
    match answer {
        Ok(slots) => {
            put(buffer, &slots);
            0
        }
        Err(refusal) => refusal,
    }
}
