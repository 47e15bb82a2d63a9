//! Parts 10 and 11: packets of all values, and what all words say.

use crate::frame_call::Call;
use crate::frame_check::frame;
use crate::plain_frames;
use crate::random::Random;
use crate::tally::Tally;

fn each_packet(tally: &mut Tally, value: u32, telemetry: u32) {
    frame(tally, Call::FromValue(value, telemetry));
    frame(tally, Call::Bidirectional(value, telemetry));
    frame(tally, Call::TryFromValue(value, telemetry));
}

pub fn packets() -> Tally {
    let mut tally = Tally::new("10 packets, all 16-bit values with both telemetry bits");
    for value in 0..1 << 16 {
        each_packet(&mut tally, value, 0);
        each_packet(&mut tally, value, 1);
    }
    tally
}

/// The low 11 bits of a wide value count, or it is refused. Every flag except 0 is yes.
pub fn wide_packets() -> Tally {
    let mut tally = Tally::new("10 packets of wide values");
    let mut random = Random::new(10);
    let limits = [2048, 65536, 65536 + 2047, 67584, 1 << 31, u32::MAX];
    let numbers = (0..100_000).map(|_| random.word() >> random.below(16));
    for (number, value) in limits.into_iter().chain(numbers).enumerate() {
        each_packet(&mut tally, value, 0);
        each_packet(&mut tally, value, 1 << (number % 32));
        each_packet(&mut tally, value, u32::MAX);
    }
    tally
}

/// A lane above 3 marks no packet, whatever its low bits are. `usize::MAX` stands for no lane.
const LANES: [usize; 11] = [
    0,
    1,
    2,
    3,
    4,
    255,
    256,
    1 << 16,
    1 << 32,
    usize::MAX - 1,
    usize::MAX,
];

pub fn four_motors() -> Tally {
    let mut tally = Tally::new("10 packets of four motors, random values");
    let mut random = Random::new(11);
    for _ in 0..50_000 {
        let shift = random.below(8);
        let values = [(); 4].map(|()| random.word() as u16 >> shift);
        for lane in LANES {
            frame(&mut tally, Call::FourMotors(values, lane));
            frame(&mut tally, Call::FourBidirectional(values, lane));
        }
    }
    tally
}

/// Every packet of both kinds, as a word of sixteen bits.
const PACKETS: u64 = 2 * 2 * 2048;

/// The source reads no packet. A word says what the source makes it from.
pub fn words() -> Tally {
    let mut tally = Tally::new("11 read_packet, all words, against the packets of the source");
    let mut read = 0;
    for word in 0..1 << 16 {
        let answer = frame(&mut tally, Call::ReadPacket(word));
        read += u64::from(answer.returned == 0);
    }
    tally.expect("words read", read, PACKETS);
    tally
}

/// A wide word is no packet, even if its low sixteen bits are one.
pub fn wide_words() -> Tally {
    let mut tally = Tally::new("11 read_packet, wide words, most of them above a packet");
    let mut random = Random::new(12);
    let mut refused = 0;
    for word in 0..1 << 16 {
        let high = random.word() << 16 | 1 << random.below(16) << 16;
        frame(&mut tally, Call::ReadPacket(high | word));
        if plain_frames::read_packet(word).is_ok() {
            for bit in 16..32 {
                let answer = frame(&mut tally, Call::ReadPacket(1 << bit | word));
                refused += u64::from(answer.returned == 15);
            }
        }
    }
    tally.expect("refused above a packet", refused, 16 * PACKETS);
    tally
}
