//! The lines of the program that differ from the source's: how many, and the first of each kind.

use crate::call::NAMES;
use crate::program::Given;
use crate::record::Record;
use std::collections::BTreeMap;
use std::path::Path;
use std::{fs, io};

/// The parts of a line, which are compared one by one.
pub const PARTS: [&str; 4] = ["answer", "orders", "fields", "slots"];

#[derive(Default)]
pub struct Differences {
    pub lines: u64,
    /// The first of each kind. The kind is the call and what differs.
    first: BTreeMap<String, Difference>,
}

struct Difference {
    list: u64,
    line: usize,
    right: String,
    given: String,
    /// The calls up to that line, with the last one by itself.
    before: String,
    call: String,
}

impl Differences {
    /// Only the first difference of each list is kept. Later ones may follow from it.
    pub fn compare(&mut self, list: u64, record: &Record, given: &Given) {
        let calls = record.calls.len();
        let shown = |line: usize| given.lines.get(line).map_or("no line", String::as_str);
        let differs = |line: &usize| shown(*line) != record.right[*line];
        let lines: Vec<usize> = (0..calls).filter(differs).collect();
        let more = given.lines.len().saturating_sub(calls);
        self.lines += (lines.len() + more) as u64 + u64::from(given.failure.is_some());
        if let Some(&line) = lines.first() {
            let kind = kind(&record.calls[line], &record.right[line], shown(line));
            self.keep(kind, difference(list, record, line, shown(line)));
        } else if more > 0 {
            let last = difference(list, record, calls - 1, shown(calls));
            self.keep("more lines than calls".to_string(), last);
        }
        if let Some(failure) = &given.failure {
            let last = difference(list, record, calls - 1, failure);
            self.keep("a status that is not 0".to_string(), last);
        }
    }

    fn keep(&mut self, kind: String, difference: Difference) {
        let kept = self.first.get(&kind);
        if kept.is_none_or(|kept| difference.list < kept.list) {
            self.first.insert(kind, difference);
        }
    }

    pub fn kinds(&self) -> Vec<&str> {
        self.first.keys().map(String::as_str).collect()
    }

    /// Takes in what another thread has found.
    pub fn join(&mut self, other: Self) {
        self.lines += other.lines;
        for (kind, difference) in other.first {
            self.keep(kind, difference);
        }
    }

    /// Prints the first difference of each kind, and keeps its list in the folder.
    pub fn report(&self, folder: &Path) -> io::Result<()> {
        for (place, (kind, found)) in self.first.iter().enumerate() {
            let file = folder.join(format!("differs_{}", place + 1));
            fs::write(&file, format!("{}{}\n", found.before, found.call))?;
            println!("differs: {kind}");
            println!("    list {}, line {}", found.list, found.line);
            println!("    the list up to that line: {}", file.display());
            println!("    call:  {}", found.call);
            println!("    right: {}", found.right);
            println!("    given: {}", found.given);
        }
        Ok(())
    }
}

fn difference(list: u64, record: &Record, line: usize, given: &str) -> Difference {
    let before = record.calls[..line].iter();
    Difference {
        list,
        line: line + 1,
        right: record.right[line].clone(),
        given: given.to_string(),
        before: before.map(|call| format!("{call}\n")).collect(),
        call: record.calls[line].clone(),
    }
}

/// The call, and the first part that differs.
fn kind(call: &str, right: &str, given: &str) -> String {
    let code: usize = call
        .split(' ')
        .next()
        .map_or(0, |code| code.parse().expect("a code"));
    let name = NAMES[code];
    let (right, given) = (parts(right), parts(given));
    if right.len() != given.len() {
        return format!("call {code}, {name}: not a line of four parts");
    }
    let part = (0..right.len()).find(|part| right[*part] != given[*part]);
    let part = part.expect("the lines differ");
    format!("call {code}, {name}: {}", PARTS[part])
}

fn parts(line: &str) -> Vec<&str> {
    line.split(" | ").collect()
}
