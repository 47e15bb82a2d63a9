//! Parts 13 and 14: bits and packets as duties, and sequences of duties that are read back.

use crate::frame_call::{Call, Left};
use crate::frame_check::frame;
use crate::random::Random;
use crate::tally::Tally;
use crate::timings::{self, EQUAL, ODD};

const PACKETS: [u32; 6] = [0, 0xffff, 0x5555, 0xaaaa, 0x8001, 0x1234];
const DUTIES: [u32; 8] = [0, 1, 2, 3, 7, 279, 43691, 65535];

/// Every flag except 0 is yes, also one whose low bits are 0.
const FLAGS: [u32; 7] = [0, 1, 2, 256, 1 << 16, 1 << 31, u32::MAX];

pub fn duty_for_bit() -> Tally {
    let mut tally = Tally::new("13 duty_for_bit, random timings");
    let mut random = Random::new(24);
    let any = (0..100_000).map(|_| [(); 4].map(|()| random.word() as u16));
    let known = ODD.into_iter().chain(EQUAL).chain([timings::dshot600()]);
    for timing in known.chain(any) {
        for set in FLAGS {
            frame(&mut tally, Call::DutyForBit(timing, set));
        }
    }
    tally
}

/// The low 16 bits of both numbers count.
pub fn encode_packet() -> Tally {
    let mut tally = Tally::new("13 encode_packet, all duties and all words");
    let mut random = Random::new(16);
    for number in 0..1 << 16 {
        for packet in PACKETS {
            frame(&mut tally, Call::EncodePacket(packet, number));
        }
        for duty in DUTIES {
            frame(&mut tally, Call::EncodePacket(number, duty));
        }
        let (packet, duty) = (random.word(), random.word() << 16 | number);
        frame(&mut tally, Call::EncodePacket(packet, duty));
    }
    tally
}

/// The first duty and the slots that a sequence is written into.
fn written(left: &Left) -> (u32, [u16; 16]) {
    let [_, first, slots] = &left.buffers;
    let slots = slots[..16].try_into().expect("a buffer has more");
    (first[0].into(), slots)
}

/// Encodes every word, and reads what the source encodes it as.
pub fn sequences() -> [Tally; 2] {
    let mut encoded = Tally::new("14 encode_compare_sequence, all words at 11 timings");
    let mut taken = Tally::new("14 read_compare_sequence, what was encoded");
    let mut random = Random::new(17);
    let mut read = 0;
    let unlike = [&[timings::dshot600()], &ODD[..]].concat();
    for timing in unlike.iter().chain(&EQUAL) {
        for word in 0..1 << 16 {
            let left = frame(&mut encoded, Call::EncodeSequence(word, *timing));
            let (first, slots) = written(&left);
            let answer = frame(&mut taken, Call::ReadSequence(first, slots, *timing));
            read += u64::from(answer.returned == 0);
        }
        // The low 16 bits of a packet count.
        for _ in 0..1000 {
            frame(&mut encoded, Call::EncodeSequence(random.word(), *timing));
        }
    }
    taken.expect("read", read, unlike.len() as u64 * 4 * 2048);
    [encoded, taken]
}
