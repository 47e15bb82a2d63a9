//! The library's calls on frames, through its archive. The callers say how many slots each buffer
//! has. If they test for refusal 13 (wrong length), they say a wrong number on purpose.

use crate::exports::*;
use crate::frame_call::{Buffer, Call, Left};
use crate::spoil::{self, FRAMES};

pub fn answer(call: &Call, lengths: &[usize]) -> Left {
    let mut left = call.before();
    left.returned = returned(call, &mut left.buffers, lengths);
    let slots = left.buffers.as_flattened_mut();
    spoil::pass(FRAMES, &mut left.returned, slots);
    left
}

/// An address and a length, as a host in C passes a buffer: an empty one has no address.
fn lent(buffer: &mut Buffer, lengths: &[usize], number: usize) -> (*mut u16, usize) {
    match lengths.get(number) {
        None | Some(0) => (std::ptr::null_mut(), 0),
        Some(&length) => {
            assert!(length < buffer.len());
            (buffer.as_mut_ptr(), length)
        }
    }
}

fn returned(call: &Call, [a, b, c]: &mut [Buffer; 3], lengths: &[usize]) -> u32 {
    let (a, b, c) = (
        lent(a, lengths, 0),
        lent(b, lengths, 1),
        lent(c, lengths, 2),
    );
    unsafe {
        match *call {
            Call::FromValue(value, flag) => kuzhenga_packet_from_value(value, flag),
            Call::Bidirectional(value, flag) => {
                kuzhenga_packet_from_value_bidirectional(value, flag)
            }
            Call::TryFromValue(value, flag) => {
                kuzhenga_packet_try_from_value(value, flag, a.0, a.1)
            }
            Call::FourMotors(_, lane) => kuzhenga_four_motor_packets(a.0, a.1, lane, b.0, b.1),
            Call::FourBidirectional(_, lane) => {
                kuzhenga_four_motor_bidirectional_packets(a.0, a.1, lane, b.0, b.1)
            }
            Call::FromClocks(clock, rate) => kuzhenga_timing_from_clocks(clock, rate, a.0, a.1),
            Call::DutyForBit(_, set) => kuzhenga_duty_for_bit(a.0, a.1, set, b.0, b.1),
            Call::EncodePacket(packet, duty) => kuzhenga_encode_packet(packet, duty, a.0, a.1),
            Call::EncodeSequence(packet, _) => {
                kuzhenga_encode_compare_sequence(packet, a.0, a.1, b.0, b.1, c.0, c.1)
            }
            Call::Throttle(value) => kuzhenga_throttle_to_dshot(value),
            Call::Throttles(_) => kuzhenga_throttles_to_dshot(a.0, a.1, b.0, b.1),
            Call::SpinDirection(flag) => kuzhenga_command_spin_direction(flag, a.0, a.1),
            Call::NextValue(_) => kuzhenga_command_next_value(a.0, a.1, b.0, b.1),
            Call::LeaseExpired(from, time, now) => kuzhenga_command_lease_expired(from, time, now),
            Call::ReadPacket(packet) => kuzhenga_read_packet(packet, a.0, a.1),
            Call::ReadSequence(duty, _, _) => {
                kuzhenga_read_compare_sequence(duty, a.0, a.1, b.0, b.1, c.0, c.1)
            }
        }
    }
}
