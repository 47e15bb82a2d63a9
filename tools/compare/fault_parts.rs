//! Part 15: sequences with some wrong numbers.

use crate::frame_call::Call;
use crate::frame_check::frame;
use crate::frame_original::{bidirectional, encode_sequence, from_value};
use crate::random::Random;
use crate::tally::Tally;
use crate::timings::{self, EQUAL, ODD};

/// A word whose checksum is plain, inverted or any.
fn word(random: &mut Random) -> u32 {
    let (value, telemetry) = (random.word(), random.below(2) as u32);
    match random.below(3) {
        0 => from_value(value, telemetry).into(),
        1 => bidirectional(value, telemetry).into(),
        _ => random.word() >> 16,
    }
}

/// The timing of DShot600, an odd one, or any. Few have equal high times.
fn timing(random: &mut Random) -> [u16; 4] {
    match random.below(8) {
        0..=3 => timings::dshot600(),
        4 | 5 => ODD[random.below(ODD.len())],
        6 => [(); 4].map(|()| random.word() as u16),
        _ => EQUAL[random.below(EQUAL.len())],
    }
}

/// Either high time, a neighbour of one, 0 or any number.
fn duty(timing: &[u16; 4], random: &mut Random) -> u16 {
    let [_, zero_high, one_high, _] = *timing;
    match random.below(8) {
        0 | 1 => zero_high,
        2 | 3 => one_high,
        4 => zero_high.wrapping_add(1),
        5 => one_high.wrapping_sub(1),
        6 => 0,
        _ => random.word() as u16,
    }
}

/// First one of the 17 numbers of each sequence is wrong. Then a second and a third are wrong too.
/// Last, the first duty is too wide.
pub fn faults() -> Tally {
    let mut tally = Tally::new("15 read_compare_sequence, sequences with faults");
    let mut random = Random::new(18);
    for _ in 0..30_000 {
        let timing = timing(&mut random);
        let (right_first, right_slots) = encode_sequence(word(&mut random), timing);
        for place in 0..17 {
            let (mut first, mut slots) = (right_first, right_slots);
            for place in [place, random.below(17), random.below(17)] {
                match place {
                    0 => first = duty(&timing, &mut random),
                    _ => slots[place - 1] = duty(&timing, &mut random),
                }
                frame(&mut tally, Call::ReadSequence(first.into(), slots, timing));
            }
        }
        let wide = u32::from(right_first) | 1 << (16 + random.below(16));
        frame(&mut tally, Call::ReadSequence(wide, right_slots, timing));
    }
    tally
}

/// All four bits of the checksum are turned over, so it is of the other kind.
pub fn other_checksums() -> Tally {
    let mut tally = Tally::new("15 read_compare_sequence, checksums with each change");
    let timing = timings::dshot600();
    let mut random = Random::new(19);
    for _ in 0..2_000 {
        let value = random.word();
        for change in 0..16 {
            let word = from_value(value, value >> 31) ^ change;
            let (first, slots) = encode_sequence(word.into(), timing);
            frame(&mut tally, Call::ReadSequence(first.into(), slots, timing));
        }
    }
    tally
}
