//! The list's random records of calls on frames.

use crate::frame_call::Call;
use crate::frame_original::{encode_sequence, from_clocks, from_value};
use crate::list_frames::show;
use crate::random::Random;

const EACH: usize = 4;

pub fn groups() {
    let mut random = Random::new(23);
    println!("# random records of frames");
    for _ in 0..EACH {
        packets(&mut random);
        timings(&mut random);
        show(Call::Throttle(random.below(2001) as u32));
        show(Call::Throttles([(); 4].map(|()| random.below(2001) as u16)));
    }
}

fn packets(random: &mut Random) {
    let (value, telemetry) = (random.word() >> 20, random.below(2) as u32);
    show(Call::TryFromValue(value, telemetry));
    show(Call::FromValue(value, telemetry));
    show(Call::Bidirectional(value, telemetry));
    let values = [(); 4].map(|()| random.word() as u16 >> 5);
    show(Call::FourMotors(values, random.below(5)));
    show(Call::FourBidirectional(values, random.below(5)));
    show(Call::ReadPacket(random.word() >> 16));
    let word = u32::from(from_value(value, telemetry));
    show(Call::ReadPacket(word));
    show(Call::EncodePacket(word, random.word() >> 16));
}

/// A timing, and a packet that is encoded and read at it.
fn timings(random: &mut Random) {
    let rate = 1 + (random.word() >> (1 + random.below(24)));
    let clock = rate.saturating_mul(4 + random.below(400) as u32);
    show(Call::FromClocks(clock, rate));
    let Ok(timing) = from_clocks(clock, rate) else {
        return;
    };
    let word = from_value(random.word(), 0).into();
    show(Call::EncodeSequence(word, timing));
    let (first, slots) = encode_sequence(word, timing);
    show(Call::ReadSequence(first.into(), slots, timing));
}
