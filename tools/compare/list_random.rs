//! The list's random records, sixty for each of the kinds 1 to 5.

use crate::original::reply_transitions_for;
use crate::random::Random;
use crate::random_captures::{faulty, length, mask, random_runs};
use crate::{captures, records};

const EACH: usize = 60;

pub fn groups() {
    let mut random = Random::new(20);
    println!("# random records");
    for _ in 0..EACH {
        println!("{}", records::reply_transitions_for(value(&mut random)));
        println!("{}", records::decode_gcr(word(&mut random)));
        let edt = random.below(2) as u32;
        println!("{}", records::reply_from_value(value(&mut random), edt));
        let (samples, mask) = capture(&mut random);
        println!("{}", records::reply_transitions(&samples, mask));
        let (samples, mask) = capture(&mut random);
        println!("{}", records::decode_sampled_reply(&samples, mask, edt));
    }
}

fn value(random: &mut Random) -> u32 {
    random.word() >> 16
}

/// A reply word, one with a changed bit, or any number.
fn word(random: &mut Random) -> u32 {
    let reply = reply_transitions_for(random.word());
    match random.below(3) {
        0 => reply,
        1 => reply ^ 1 << random.below(20),
        _ => random.word(),
    }
}

/// Mostly near replies. Few have noise on the other pins, which makes long lines.
fn capture(random: &mut Random) -> (Vec<u16>, u32) {
    let mask = mask(random);
    let levels = match random.below(4) {
        0 => random_runs(random),
        _ => faulty(random),
    };
    let noise = mask != 0 && random.one_in(12);
    let mut samples = match noise {
        true => captures::noisy(&levels, mask, random),
        false => captures::clean(&levels, mask),
    };
    samples.truncate(length(random));
    (samples, mask.into())
}
