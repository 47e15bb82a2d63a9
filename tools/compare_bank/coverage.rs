//! How often the lists met each case that a reader may ask for.

use crate::call::NAMES;
use crate::cover_calls::CALLS;
use crate::cover_counts::COUNTS;
use crate::cover_interrupts::INTERRUPTS;
use crate::cover_numbers::NUMBERS;
use crate::cover_services::SERVICES;
use crate::outcome::replies;
use crate::step::Step;
use crate::words::{self, Word};
use crate::write_call::{code, joined};
use std::collections::BTreeMap;

/// A case, and whether a call belongs to it.
pub type Case = (&'static str, fn(&Step) -> bool);

/// The groups of cases under their titles.
const GROUPS: [(&str, &[Case]); 5] = [
    (
        "demands, requests, looks, views, writes and releases",
        CALLS,
    ),
    ("services", SERVICES),
    ("interrupts", INTERRUPTS),
    ("counts that wrap, or stop at their largest value", COUNTS),
    ("numbers at their places", NUMBERS),
];

/// What a lane's reply can be. The source reads with EDT off.
const REPLIES: [&str; 9] = [
    "absent: 7",
    "NoReply: 7",
    "Overlong: 8",
    "InvalidSymbol: 9",
    "Checksum: 10",
    "ZeroPeriod: 11",
    "speed",
    "stopped",
    "acknowledgement",
];

pub struct Coverage {
    calls: [u64; NAMES.len()],
    cases: Vec<Vec<u64>>,
    replies: [u64; REPLIES.len()],
    words: BTreeMap<Word, u64>,
}

impl Coverage {
    pub fn new() -> Self {
        Self {
            calls: [0; NAMES.len()],
            cases: GROUPS
                .iter()
                .map(|(_, cases)| vec![0; cases.len()])
                .collect(),
            replies: [0; REPLIES.len()],
            words: words::all().into_iter().map(|word| (word, 0)).collect(),
        }
    }

    pub fn count(&mut self, step: &Step) {
        self.calls[code(step.call) as usize] += 1;
        for ((_, cases), counts) in GROUPS.iter().zip(&mut self.cases) {
            for ((_, is_one), count) in cases.iter().zip(counts) {
                *count += u64::from(is_one(step));
            }
        }
        if step.decoded() {
            self.count_replies(step);
        }
        for word in words::told(step) {
            self.words.entry(word).and_modify(|count| *count += 1);
        }
    }

    fn count_replies(&mut self, step: &Step) {
        let present = step
            .service()
            .map_or([true; 4], |(service, _)| service.present);
        // After the first number, three for each lane.
        let stored = &replies(step.after().replies)[1..];
        for (reply, present) in stored.chunks(3).zip(present) {
            let place = match reply {
                [7, ..] if !present => 0,
                [refusal @ 7..=11, ..] => *refusal as usize - 6,
                [0, 0, 0] => 7,
                [0, 0, _] => 6,
                _ => 8,
            };
            self.replies[place] += 1;
        }
    }

    /// Takes in what another thread has counted.
    pub fn join(&mut self, other: Self) {
        add(&mut self.calls, &other.calls);
        for (sums, more) in self.cases.iter_mut().zip(&other.cases) {
            add(sums, more);
        }
        add(&mut self.replies, &other.replies);
        for (word, more) in other.words {
            self.words.entry(word).and_modify(|count| *count += more);
        }
    }

    /// The groups, and under each title its cases with their counts.
    fn groups(&self) -> Vec<(&'static str, Vec<(String, u64)>)> {
        let named = |name: &str, count: &u64| (name.to_string(), *count);
        let list = |names: &[&str], counts: &[u64]| -> Vec<_> {
            let both = names.iter().zip(counts);
            both.map(|(name, count)| named(name, count)).collect()
        };
        let mut groups = vec![("calls", list(&NAMES, &self.calls))];
        for ((title, cases), counts) in GROUPS.iter().zip(&self.cases) {
            let names: Vec<&str> = cases.iter().map(|(name, _)| *name).collect();
            groups.push((title, list(&names, counts)));
        }
        groups.push(("replies stored", list(&REPLIES, &self.replies)));
        let word = |((name, numbers), count): (&Word, &u64)| {
            named(&format!("{name} {}", joined(numbers)), count)
        };
        groups.push(("words", self.words.iter().map(word).collect()));
        groups
    }

    /// The cases that no call belonged to.
    pub fn at_zero(&self) -> Vec<String> {
        let cases = self.groups().into_iter().flat_map(|(_, counts)| counts);
        let missed = cases.filter(|(_, count)| *count == 0);
        missed.map(|(name, _)| name).collect()
    }

    /// Prints the counts, and answers how many are 0.
    pub fn report(&self) -> u64 {
        for (title, counts) in self.groups() {
            println!("{title}:");
            for (name, count) in counts {
                println!("    {count:>9}  {name}");
            }
        }
        let at_zero = self.at_zero().len() as u64;
        println!("cases at zero: {at_zero}");
        at_zero
    }
}

fn add(sums: &mut [u64], more: &[u64]) {
    for (sum, more) in sums.iter_mut().zip(more) {
        *sum += more;
    }
}
