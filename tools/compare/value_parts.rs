//! Parts 1 to 3: the calls on numbers, over all or nearly all of their inputs.

use crate::checks;
use crate::period_check::value_period;
use crate::random::Random;
use crate::tally::Tally;

pub fn all_words() -> Tally {
    let mut tally = Tally::new("1 decode_gcr, all words of 21 bits");
    for word in 0..1 << 21 {
        checks::decode_gcr(&mut tally, word);
    }
    tally
}

/// Bits 21 and up, which must not matter.
pub fn wide_words() -> Tally {
    let mut tally = Tally::new("1 decode_gcr, random words of 32 bits");
    let mut random = Random::new(1);
    for _ in 0..1_000_000 {
        checks::decode_gcr(&mut tally, random.word());
    }
    tally
}

pub fn values() -> Tally {
    let mut tally = Tally::new("2 reply_from_value, all 16-bit values, EDT off and on");
    let mut random = Random::new(2);
    for value in 0..1 << 16 {
        checks::reply_from_value(&mut tally, value, 0);
        checks::reply_from_value(&mut tally, value, 1);
        // The low 12 bits of a wide value count, and every flag except 0 is yes.
        let wide = random.word() << 16 | value;
        checks::reply_from_value(&mut tally, wide, 0);
        checks::reply_from_value(&mut tally, wide, 1 << (value % 32));
    }
    tally
}

pub fn reply_words() -> Tally {
    let mut tally = Tally::new("2 reply_transitions_for, all 16-bit values");
    let mut random = Random::new(3);
    for value in 0..1 << 16 {
        checks::reply_transitions_for(&mut tally, value);
        checks::reply_transitions_for(&mut tally, random.word() << 16 | value);
    }
    tally
}

pub fn value_periods() -> Tally {
    let mut tally = Tally::new("2 value_period, all 16-bit values, with the source's speeds");
    let mut random = Random::new(25);
    for value in 0..1 << 16 {
        value_period(&mut tally, value);
        value_period(&mut tally, random.word() << 16 | value);
    }
    tally
}

/// The source turns no period into a value. So the library is compared with document 01's sentence,
/// which plain.rs writes out.
pub fn periods() -> Tally {
    let mut tally = Tally::new("3 period_value, against document 01's sentence and no source");
    let mut random = Random::new(4);
    for period in 0..=1 << 16 {
        checks::period_value(&mut tally, period);
    }
    // If a period near a power of 2 were cut to fewer bits, it would look small.
    for power in (17..32).map(|exponent| 1 << exponent) {
        for period in [power - 1, power, power + 1, power + 511] {
            checks::period_value(&mut tally, period);
        }
    }
    checks::period_value(&mut tally, u32::MAX);
    for _ in 0..1000 {
        checks::period_value(&mut tally, random.word());
    }
    tally
}
