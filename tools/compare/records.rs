//! One line of the stored list for each kind of record, with the expected answer. Kinds 1 to 5 have
//! the source's, kinds 6 and 7 have document 01's. If a comparison fails, such a line names its
//! input.

use crate::{original, plain};

/// A capture as runs of equal samples: how many runs, then the sample and the length of each.
pub fn runs_of(samples: &[u16]) -> String {
    let runs: Vec<&[u16]> = samples.chunk_by(|a, b| a == b).collect();
    let mut text = runs.len().to_string();
    for run in runs {
        text += &format!(" {} {}", run[0], run.len());
    }
    text
}

pub fn reply_transitions_for(value: u32) -> String {
    format!("1 {value} {}", original::reply_transitions_for(value))
}

pub fn decode_gcr(word: u32) -> String {
    let answer = original::decode_gcr(word);
    format!("2 {word} {} {}", answer.refusal, answer.value())
}

pub fn reply_from_value(value: u32, edt: u32) -> String {
    let answer = original::reply_from_value(value, edt);
    let (kind, number) = (answer.kind(), answer.number());
    format!("3 {value} {edt} {} {kind} {number}", answer.refusal)
}

pub fn reply_transitions(samples: &[u16], mask: u32) -> String {
    let answer = original::reply_transitions(samples, mask);
    let runs = runs_of(samples);
    format!("4 {mask} {runs} {} {}", answer.refusal, answer.word())
}

pub fn decode_sampled_reply(samples: &[u16], mask: u32, edt: u32) -> String {
    let answer = original::decode_sampled_reply(samples, mask, edt);
    let (kind, number) = (answer.kind(), answer.number());
    let runs = runs_of(samples);
    format!("5 {mask} {edt} {runs} {} {kind} {number}", answer.refusal)
}

pub fn period_value(period: u32) -> String {
    let answer = plain::period_value(period);
    format!("6 {period} {} {}", answer.refusal, answer.value())
}

pub fn simulate_reply(length: usize, value: u32, lead: usize, mask: u32) -> String {
    let (refusal, after) = plain::simulate_reply(length, value, lead, mask);
    format!(
        "7 {length} {value} {lead} {mask} {refusal} {}",
        runs_of(&after)
    )
}
