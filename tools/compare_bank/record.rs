//! A list as it grows: its lines, the source's line for each, and the source's bank after them.

use crate::bank::Bank;
use crate::call::Call;
use crate::coverage::Coverage;
use crate::outcome::Outcome;
use crate::step::Step;
use crate::{read_call, write_call};

pub struct Record {
    pub bank: Bank,
    pub calls: Vec<String>,
    pub right: Vec<String>,
    /// How long the text of the calls is.
    pub bytes: usize,
}

impl Record {
    /// There is no bank before the first call of a list, which makes one.
    pub fn new() -> Self {
        Self {
            bank: Bank::new([0; 4]),
            calls: Vec::new(),
            right: Vec::new(),
            bytes: 0,
        }
    }

    fn call(&mut self, call: &Call) -> Outcome {
        let line = write_call::line(call);
        // The call that is made is the one that the line says.
        assert_eq!(read_call::call(&line).as_ref(), Some(call));
        let outcome = self.bank.step(call);
        self.right.push(outcome.line(write_call::code(call)));
        self.bytes += line.len() + 1;
        self.calls.push(line);
        outcome
    }

    /// The same. It also counts the cases that the call belongs to.
    pub fn counted(&mut self, call: &Call, seen: &mut Coverage) -> Outcome {
        let before = self.bank.fields();
        let outcome = self.call(call);
        seen.count(&Step {
            call,
            before: &before,
            outcome: &outcome,
        });
        outcome
    }

    pub fn text(&self) -> String {
        self.calls.join("\n") + "\n"
    }
}
