//! A random list, which its number determines.

use crate::coverage::Coverage;
use crate::maker::Maker;
use crate::record::Record;

/// A list's text has fewer bytes than the first number. If it has more than the second, no call is
/// added. A line is shorter than the difference.
pub const LONGEST: usize = 60_000;
const FULL: usize = LONGEST - 10_000;

pub fn list(number: u64, seen: &mut Coverage) -> Record {
    let mut maker = Maker::new(number);
    let mut record = Record::new();
    for _ in 0..maker.length() {
        if record.bytes > FULL {
            break;
        }
        let call = maker.next(&record.bank.fields());
        record.counted(&call, seen);
    }
    assert!(record.bytes < LONGEST);
    record
}
