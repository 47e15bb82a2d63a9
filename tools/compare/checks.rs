//! Puts one input to both sides. If the answers differ, the input is described by its record of the
//! stored list and by what the library gave. The record has the right answer.

use crate::answer::{Answer, UNTOUCHED};
use crate::library::{self, BEHIND, READING, VALUE};
use crate::tally::Tally;
use crate::{original, plain, records};

pub fn against(record: String, given: &Answer) -> String {
    let Answer { refusal, slots } = given;
    format!("{record}; the library: {refusal}, slots {slots:?}")
}

pub fn reply_transitions_for(tally: &mut Tally, value: u32) {
    let right = original::reply_transitions_for(value);
    let given = library::reply_transitions_for(value);
    tally.compare(0, given == right, value as usize, || {
        let record = records::reply_transitions_for(value);
        format!("{record}; the library: {given}")
    });
}

pub fn decode_gcr(tally: &mut Tally, word: u32) {
    let right = original::decode_gcr(word);
    let given = library::decode_gcr(word, VALUE);
    tally.compare(right.refusal, given == right, word as usize, || {
        against(records::decode_gcr(word), &given)
    });
}

pub fn reply_from_value(tally: &mut Tally, value: u32, edt: u32) {
    let right = original::reply_from_value(value, edt);
    let given = library::reply_from_value(value, edt, READING);
    tally.compare(right.refusal, given == right, value as usize, || {
        against(records::reply_from_value(value, edt), &given)
    });
}

pub fn period_value(tally: &mut Tally, period: u32) {
    let right = plain::period_value(period);
    let given = library::period_value(period, VALUE);
    tally.compare(right.refusal, given == right, period as usize, || {
        against(records::period_value(period), &given)
    });
}

/// Gives the right buffer, for the readers.
pub fn simulate_reply(
    tally: &mut Tally,
    length: usize,
    value: u32,
    lead: usize,
    mask: u32,
) -> Vec<u16> {
    let (right, mut samples) = plain::simulate_reply(length, value, lead, mask);
    let (given, after) = library::simulate_reply(length, value, lead, mask);
    samples.resize(length + BEHIND, UNTOUCHED);
    tally.compare(right, (given, &after) == (right, &samples), length, || {
        let record = records::simulate_reply(length, value, lead, mask);
        let runs = records::runs_of(&after);
        format!("{record}; the library, and {BEHIND} samples behind the buffer: {given} {runs}")
    });
    samples.truncate(length);
    samples
}
