//! Sees the comparison fail. The source's own lines stand for a program's, with one number of one
//! line changed. This is done for each call and each number of its line. Each change must be
//! reported as what it is.

use crate::call::NAMES;
use crate::coverage::Coverage;
use crate::differences::{Differences, PARTS};
use crate::program::Given;
use crate::random_list;
use crate::record::Record;

struct Seen {
    wrong: u64,
    unseen: u64,
}

impl Seen {
    /// Compares. `wrong` says how many of these lines are wrong, and `why` says why.
    fn compare(&mut self, record: &Record, given: Given, wrong: u64, why: &str) {
        let mut found = Differences::default();
        found.compare(0, record, &given);
        let right = if wrong == 0 { vec![] } else { vec![why] };
        self.wrong += wrong;
        if (found.lines, found.kinds()) != (wrong, right) {
            println!("not as it should be: {why}: {} lines differ", found.lines);
            self.unseen += 1;
        }
    }

    /// Each number of a line, one after the other.
    fn line(&mut self, record: &Record, line: usize) {
        let code: usize = code(&record.right[line]);
        for (part, name) in PARTS.into_iter().enumerate() {
            let why = format!("call {code}, {}: {name}", NAMES[code]);
            for other in changed(&record.right[line], part) {
                let mut given = same(record);
                given.lines[line] = other;
                self.compare(record, given, 1, &why);
            }
        }
    }

    /// No change, a line too few or too many, and a program that fails.
    fn ends(&mut self, record: &Record) {
        self.compare(record, same(record), 0, "nothing is wrong");
        let last = code(record.right.last().expect("a list has lines"));
        let mut given = same(record);
        given.lines.pop();
        let why = format!("call {last}, {}: not a line of four parts", NAMES[last]);
        self.compare(record, given, 1, &why);
        let mut given = same(record);
        given.lines.push(String::new());
        self.compare(record, given, 1, "more lines than calls");
        let given = Given {
            failure: Some("status 1".to_string()),
            ..same(record)
        };
        self.compare(record, given, 1, "a status that is not 0");
    }
}

/// What a program without a fault gives.
fn same(record: &Record) -> Given {
    Given {
        lines: record.right.clone(),
        failure: None,
    }
}

fn code(line: &str) -> usize {
    let word = line.split(' ').next().expect("a line has a code");
    word.parse().expect("a number")
}

/// The line with each number of a part changed. If the part has none, the line with a number added.
fn changed(line: &str, part: usize) -> Vec<String> {
    let parts: Vec<&str> = line.split(" | ").collect();
    let words: Vec<&str> = parts[part].split(' ').collect();
    let with = |place: usize| {
        let number: u64 = words[place].parse().unwrap_or(0);
        let other = (number ^ 1).to_string();
        let (mut parts, mut words) = (parts.clone(), words.clone());
        words[place] = &other;
        let text = words.join(" ");
        parts[part] = &text;
        parts.join(" | ")
    };
    (0..words.len()).map(with).collect()
}

/// How many wrong lines were not seen. The lists are the first random ones, until every call has
/// been met.
pub fn unseen() -> u64 {
    let mut seen = Seen {
        wrong: 0,
        unseen: 0,
    };
    // If nothing was called, every case is at zero.
    assert!(Coverage::new().at_zero().len() > NAMES.len());
    let mut met = [false; NAMES.len()];
    for number in 0.. {
        let record = random_list::list(number, &mut Coverage::new());
        seen.ends(&record);
        for line in 0..record.right.len() {
            if !std::mem::replace(&mut met[code(&record.right[line])], true) {
                seen.line(&record, line);
            }
        }
        if met == [true; NAMES.len()] {
            break;
        }
    }
    println!("{} wrong lines, {} not seen", seen.wrong, seen.unseen);
    seen.unseen
}
