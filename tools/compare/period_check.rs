//! One value put to the library's value_period. The source keeps a value's period to itself: document
//! 01's sentence, written out here, is what the library is held to, and the sentence to the source's
//! speeds.

use crate::answer::Answer;
use crate::checks::against;
use crate::library::{self, PERIOD};
use crate::original;
use crate::tally::Tally;

/// EDT is acknowledged, which is no speed.
const ACKNOWLEDGED: u32 = 0xe00;

/// The low nine bits shifted left by the top three, and the step; 0xFFF is at rest.
fn sentence(value: u32) -> Answer {
    let (exponent, left) = (value % 4096 / 512, value % 512);
    match value % 4096 {
        0xfff => Answer::done(&[0, 0]),
        _ if left == 0 => Answer::refused(11),
        _ => Answer::done(&[(left << exponent) as u16, 1 << exponent]),
    }
}

/// The reading that a period tells: at rest 0, else eRPM / 100, halves up.
fn reading(period: &Answer) -> Answer {
    match (period.refusal, period.value()) {
        (0, 0) => Answer::of_reading(0, 0),
        (0, us) => Answer::of_reading(0, (600_000 + us / 2) / us),
        (refusal, _) => Answer::refused(refusal),
    }
}

pub fn value_period(tally: &mut Tally, value: u32) {
    let right = sentence(value);
    let given = library::value_period(value, PERIOD);
    let speed = original::reply_from_value(value, 0);
    let told = value % 4096 == ACKNOWLEDGED || reading(&right) == speed;
    let same = told && given == right;
    tally.compare(right.refusal, same, value as usize, || {
        let record = format!("value_period {value}: {right:?}, {speed:?}");
        against(record, &given)
    });
}
