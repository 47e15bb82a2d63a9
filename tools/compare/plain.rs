//! The simulated ESC, written out plainly from document 01's sentences. The source has none, so
//! there is nothing else to compare the library's with.

use crate::answer::{Answer, UNTOUCHED};
use crate::captures::{clean, exact, levels, Ending, READ};
use crate::original;

/// The value of a period. Its exponent is the smallest for which nine bits hold what is left.
pub fn period_value(period: u32) -> Answer {
    if period == 0 || period > 65535 {
        return Answer::refused(16);
    }
    let fits = |exponent: &u32| period >> exponent <= 511;
    let exponent = (0..8).find(fits).expect("65535 >> 7 is 511");
    Answer::of_value((exponent << 9 | period >> exponent) as u16)
}

/// The refusal, and what a buffer of `length` samples holds after the call.
pub fn simulate_reply(length: usize, value: u32, lead: usize, mask: u32) -> (u32, Vec<u16>) {
    let untouched = vec![UNTOUCHED; length];
    // There is no sum here, because a large lead would overflow it.
    if length < READ || length - READ < lead {
        return (13, untouched);
    }
    if mask as u16 == 0 {
        return (12, untouched);
    }
    let times = exact(original::reply_transitions_for(value));
    let wire = levels(lead, &times, Ending::Closed, length);
    (0, clean(&wire, mask as u16))
}
