//! Part 9: calls that are lent a wrong number of slots. Only the library can be lent these. Each
//! answers 13 (wrong length), before any other refusal, and writes nothing.

use crate::answer::Answer;
use crate::library::{self, PERIOD, READING, VALUE, WORD};
use crate::tally::Tally;
use crate::{original, plain};

/// What the calls are given: first inputs that they take, then inputs that they would refuse.
struct Given<'a> {
    samples: &'a [u16],
    word: u32,
    value: u32,
    period: u32,
}

pub fn wrong_slots() -> Tally {
    let mut tally = Tally::new("9 a wrong number of slots");
    let reply = plain::simulate_reply(160, 0x123, 10, 1).1;
    let taken = Given {
        samples: &reply,
        word: original::reply_transitions_for(0x123),
        value: 0x123,
        period: 0x123,
    };
    let refused = Given {
        samples: &[],
        word: 0,
        value: 0,
        period: 0,
    };
    for given in [taken, refused] {
        for slots in 0..=4 {
            each_call(&mut tally, &given, slots);
        }
    }
    tally
}

fn each_call(tally: &mut Tally, given: &Given, slots: usize) {
    let samples = given.samples;
    let word = library::reply_transitions(samples, 1, slots);
    let value = library::decode_gcr(given.word, slots);
    let reading = library::reply_from_value(given.value, 0, slots);
    let sampled = library::decode_sampled_reply(samples, 1, 0, slots);
    let told = library::value_period(given.value, slots);
    let period = library::period_value(given.period, slots);
    let answers = [
        ("reply_transitions", WORD, word),
        ("decode_gcr", VALUE, value),
        ("reply_from_value", READING, reading),
        ("decode_sampled_reply", READING, sampled),
        ("value_period", PERIOD, told),
        ("period_value", VALUE, period),
    ];
    for (name, right, answer) in answers {
        if slots != right {
            tally.compare(13, answer == Answer::refused(13), slots, || {
                format!("{name} with {slots} slots: {answer:?}")
            });
        }
    }
}
