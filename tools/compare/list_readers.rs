//! The list's groups of the readers, with document 01's answers.

use crate::frame_call::Call;
use crate::frame_original::{encode_sequence, from_value};
use crate::frame_records::line;
use crate::frame_right::right;
use crate::list_frames::show;
use crate::list_sequences::words;
use crate::timings::{self, EQUAL, ODD};

pub fn groups() {
    println!("# words read: packets of both kinds, and other checksums: 15");
    for word in words() {
        show(Call::ReadPacket(word));
    }
    let packet = u32::from(from_value(1046, 1));
    for change in 0..16 {
        let answer = if matches!(change, 0 | 15) { 0 } else { 15 };
        held(Call::ReadPacket(packet ^ change), answer);
    }
    for bit in 4..16 {
        held(Call::ReadPacket(packet ^ 1 << bit), 15);
    }
    println!("# sequences read at DShot600 and at odd timings");
    for word in words() {
        let (first, slots) = encode_sequence(word, timings::dshot600());
        show(Call::ReadSequence(first.into(), slots, timings::dshot600()));
    }
    for timing in ODD {
        let (first, slots) = encode_sequence(packet, timing);
        held(Call::ReadSequence(first.into(), slots, timing), 0);
    }
    println!("# equal high times: 14");
    for timing in EQUAL {
        let (first, slots) = encode_sequence(packet, timing);
        held(Call::ReadSequence(first.into(), slots, timing), 14);
    }
    faults(packet);
}

/// The refusal is asserted, so a group's name says only what its records do.
fn held(call: Call, refusal: u32) {
    assert_eq!(right(&call, call.lengths()).returned, refusal);
    show(call);
}

fn faults(packet: u32) {
    let timing = timings::dshot600();
    let [_, zero_high, one_high, _] = timing;
    let (first, slots) = encode_sequence(packet, timing);
    let first = u32::from(first);
    let with = |place: usize, duty: u16| {
        let mut slots = slots;
        slots[place] = duty;
        Call::ReadSequence(first, slots, timing)
    };
    println!("# a duty that is neither high time: 14");
    for duty in [0, 1, 65535] {
        held(Call::ReadSequence(duty, slots, timing), 14);
        held(with(0, duty as u16), 14);
        held(with(14, duty as u16), 14);
    }
    println!("# a last slot that is not 0: 14");
    for duty in [1, zero_high, one_high, 65535] {
        held(with(15, duty), 14);
    }
    println!("# one duty is the other high time: 15");
    for place in [0, 7, 14] {
        let other = zero_high + one_high - slots[place];
        held(with(place, other), 15);
    }
    println!("# sequences of a wrong length: 13, whatever else is wrong");
    for timing in [timing, EQUAL[0]] {
        for length in [0, 15, 17] {
            let call = Call::ReadSequence(first, slots, timing);
            println!("{}", line(&call, &[length, 4, 3]));
        }
    }
}
