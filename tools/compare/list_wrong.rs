//! The list's wrong records. They are right records of every kind, each with one number of its
//! answer changed, and with a comment that says which. A program that replays the list must report
//! each.

use crate::original::reply_transitions_for;
use crate::records::{self, runs_of};
use crate::{list_wrong_frames, plain};

pub fn groups() {
    println!("# records that are wrong on purpose, each in one number of its answer");
    values();
    captures();
    simulated();
    list_wrong_frames::groups();
}

fn show(record: &str, what: &str) {
    println!("{record} # wrong on purpose: the {what}");
}

/// Writes a record once for each name of a number, with that number's lowest bit turned over. The
/// named numbers follow each other from a place on. The kind is at place 0.
pub fn wrong(record: &str, from: usize, names: &[&str]) {
    let words: Vec<&str> = record.split(' ').collect();
    for (place, name) in (from..).zip(names) {
        let number: u64 = words[place].parse().expect("a number");
        let other = (number ^ 1).to_string();
        let mut words = words.clone();
        words[place] = &other;
        show(&words.join(" "), name);
    }
}

/// The same for the numbers that a record ends with.
pub fn wrong_at_end(record: &str, names: &[&str]) {
    let numbers = record.split(' ').count();
    wrong(record, numbers - names.len(), names);
}

fn values() {
    wrong_at_end(&records::reply_transitions_for(0x123), &["word"]);
    let record = records::decode_gcr(reply_transitions_for(0x123));
    wrong_at_end(&record, &["refusal", "value"]);
    let record = records::reply_from_value(0x2a5, 1);
    wrong_at_end(&record, &["refusal", "kind", "number"]);
    wrong_at_end(&records::period_value(1000), &["refusal", "value"]);
}

fn captures() {
    let samples = plain::simulate_reply(69, 0x2a5, 0, 1).1;
    let record = records::reply_transitions(&samples, 1);
    wrong_at_end(&record, &["refusal", "word"]);
    let record = records::decode_sampled_reply(&samples, 1, 1);
    wrong_at_end(&record, &["refusal", "kind", "number"]);
}

/// The samples are written as runs, so one sample is changed before they are written.
fn simulated() {
    let (length, value, lead, mask) = (71, 0x123, 1, 1);
    let record = records::simulate_reply(length, value, lead, mask);
    wrong(&record, 5, &["refusal"]);
    let right = plain::simulate_reply(length, value, lead, mask).1;
    let with = |place: usize| {
        let mut samples = right.clone();
        samples[place] ^= 1;
        samples
    };
    let longer = [&right[..], &[mask as u16]].concat();
    for (samples, what) in [
        (with(0), "first sample"),
        (with(length - 1), "last sample"),
        (right[..length - 1].to_vec(), "length, a sample less"),
        (longer, "length, a sample more"),
    ] {
        let runs = runs_of(&samples);
        show(&format!("7 {length} {value} {lead} {mask} 0 {runs}"), what);
    }
}
