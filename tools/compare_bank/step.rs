//! A call with the bank's fields before it and what it gave, and what can be said of it.

use crate::call::{Call, Service, Status};
use crate::outcome::Outcome;
use crate::write_call::code;
use dshot_bank::Fields;

pub struct Step<'a> {
    pub call: &'a Call,
    pub before: &'a Fields,
    pub outcome: &'a Outcome,
}

impl Step<'_> {
    pub fn after(&self) -> &Fields {
        &self.outcome.fields
    }

    /// Whether this is the call with the code `of`, and its answer starts with `number`.
    pub fn refused(&self, of: u64, number: u64) -> bool {
        code(self.call) == of && self.outcome.answer[0] == number
    }

    /// A service that was not refused, and its event.
    pub fn service(&self) -> Option<(&Service, u64)> {
        match (self.call, &self.outcome.answer[..]) {
            (Call::Service(service), [0, event]) => Some((service, *event)),
            _ => None,
        }
    }

    /// An interrupt that was not refused, and its event.
    pub fn interrupt(&self) -> Option<(usize, &Status, u64)> {
        match (self.call, &self.outcome.answer[..]) {
            (Call::OnDmaInterrupt { motor, status }, [0, event]) => {
                Some((*motor as usize, status, *event))
            }
            _ => None,
        }
    }

    /// A service that looks at more than the fault.
    pub fn served(&self) -> bool {
        self.service().is_some() && !self.before.faulted
    }

    pub fn expired(&self) -> bool {
        self.served() && self.after().stats.lease_expiries != self.before.stats.lease_expiries
    }

    pub fn timed_out(&self) -> bool {
        self.served() && self.before.busy && self.after().faulted
    }

    pub fn decoded(&self) -> bool {
        self.served() && !self.before.busy && self.before.replies_waiting
    }

    pub fn frame_started(&self) -> bool {
        self.served() && !self.before.busy && self.after().busy
    }

    pub fn throttled(&self) -> bool {
        self.after().requested_values != [0; 4]
    }

    /// A frame with a command. After it the run is still there, spent or not.
    pub fn command_sent(&self) -> bool {
        self.frame_started() && self.after().command_sequence.is_some()
    }

    /// A frame that found the run cancelled or spent.
    pub fn run_dropped(&self) -> bool {
        let (before, after) = (self.before, self.after());
        self.frame_started()
            && before.command_sequence.is_some()
            && after.command_sequence.is_none()
    }

    /// The lane that did not take its buffer.
    pub fn exchange_refused(&self) -> Option<usize> {
        let (service, _) = self.service()?;
        let refused = self.served() && !self.before.busy && self.after().faulted;
        let lane = || service.taken.iter().position(|taken| !taken);
        refused.then(lane).flatten()
    }

    /// An interrupt in a busy bank, for a lane that was not done.
    pub fn awaited(&self) -> bool {
        let done = |lane: usize| self.before.completion_mask >> lane & 1 == 1;
        let open = self.interrupt().is_some_and(|(lane, ..)| !done(lane));
        open && !self.before.faulted && self.before.busy
    }
}
