//! The list's groups of packets as duties.

use crate::frame_call::Call;
use crate::frame_original::{bidirectional, from_value};
use crate::frame_records::line;
use crate::list_frames::show;
use crate::timings::{self, EQUAL, ODD};

/// Words with one bit at either end, with all bits, with none, and packets of both kinds.
pub fn words() -> [u32; 7] {
    let plain = from_value(1046, 1).into();
    let inverted = bidirectional(1046, 0).into();
    [0, 1, 0x8000, 0xffff, 0x5555, plain, inverted]
}

pub fn groups() {
    println!("# packets as a frame of 22 slots");
    for word in words() {
        show(Call::EncodePacket(word, 279));
    }
    println!("# the highest duty at its limits");
    for duty in [0, 1, 2, 3, 65535] {
        show(Call::EncodePacket(0xa5c3, duty));
    }
    println!("# frames of a wrong length: 13");
    for length in [0, 21, 23] {
        println!("{}", line(&Call::EncodePacket(0xa5c3, 279), &[length]));
    }
    println!("# packets as a sequence, DShot600 at 168 MHz");
    let timing = timings::dshot600();
    for word in words() {
        show(Call::EncodeSequence(word, timing));
    }
    println!("# the same packet at odd timings");
    for timing in ODD.into_iter().chain(EQUAL) {
        show(Call::EncodeSequence(0xa5c3, timing));
    }
    println!("# sequences of a wrong length: 13");
    for length in [0, 15, 17] {
        let call = Call::EncodeSequence(0xa5c3, timing);
        println!("{}", line(&call, &[4, 1, length]));
    }
}
