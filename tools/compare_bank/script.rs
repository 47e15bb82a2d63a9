//! A list that is written by hand. What a scene says of its calls is asserted of the source. So
//! each scene shows what it says.

use crate::call::{Call, Run, Service, Status, SLOTS};
use crate::coverage::Coverage;
use crate::outcome::Outcome;
use crate::record::Record;
use crate::timings::dshot600;

/// A service's events.
pub const STARTED: u64 = 1;
pub const BUSY: u64 = 2;
pub const EXPIRED: u64 = 3;
pub const FAULTED: u64 = 4;

/// An interrupt's events.
pub const COMPLETED: u64 = 1;
pub const FAULT: u64 = 2;
pub const SPURIOUS: u64 = 3;

/// Reverses the motor's direction, and saves it.
pub const REVERSE: Run = Run {
    commands: [21, 12],
    index: 0,
    repeats_left: 10,
};

pub struct Script {
    pub record: Record,
    pub seen: Coverage,
}

impl Script {
    pub fn new() -> Self {
        Self {
            record: Record::new(),
            seen: Coverage::new(),
        }
    }

    pub fn call(&mut self, call: Call) -> Outcome {
        self.record.counted(&call, &mut self.seen)
    }

    /// A call whose answer starts with this number: a refusal, or a flag, or a lane.
    pub fn expect(&mut self, number: u64, call: Call) {
        let outcome = self.call(call.clone());
        assert_eq!(outcome.answer[0], number, "{call:?}");
    }

    pub fn unidirectional(&mut self) {
        self.call(Call::FromLanes(dshot600()));
    }

    pub fn bidirectional(&mut self) {
        self.unidirectional();
        self.expect(0, Call::EnableBidirectional(true));
    }

    pub fn throttles(&mut self, commands: [u16; 4], now: u64, lease: u32) {
        self.throttles_refused(0, commands, now, lease);
    }

    pub fn throttles_refused(&mut self, refusal: u64, commands: [u16; 4], now: u64, lease: u32) {
        let call = Call::CommandThrottles {
            commands,
            now,
            lease,
        };
        self.expect(refusal, call);
    }

    /// A run of commands for a motor, and the answer to it.
    pub fn run(&mut self, refusal: u64, motor: u64, run: Run) {
        self.expect(refusal, Call::CommandSpecial { motor, run });
    }

    pub fn request(&mut self, refusal: u64, motor: u64) {
        self.expect(refusal, Call::RequestTelemetry(motor));
    }

    /// A service without captures.
    pub fn service(&mut self, now: u64, event: u64) {
        self.served(Service::at(now), event);
    }

    pub fn served(&mut self, service: Service, event: u64) -> Outcome {
        let outcome = self.call(Call::Service(service));
        assert_eq!(outcome.answer, [0, event]);
        outcome
    }

    pub fn interrupt(&mut self, motor: u64, status: Status, event: u64) {
        let outcome = self.call(Call::OnDmaInterrupt { motor, status });
        assert_eq!(outcome.answer, [0, event]);
    }

    /// These lanes complete in this order, and the lanes turn if they are asked to.
    pub fn complete(&mut self, motors: &[u64]) {
        for &motor in motors {
            self.interrupt(motor, Status::DONE, COMPLETED);
        }
    }

    /// All lanes send and then receive.
    pub fn cycle(&mut self) {
        self.complete(&[0, 1, 2, 3]);
        self.complete(&[2, 0, 3, 1]);
        assert!(self.record.bank.fields().replies_waiting);
    }

    pub fn view(&mut self, refusal: u64, motor: u64, lengths: [usize; 2]) {
        self.expect(refusal, Call::View { motor, lengths });
    }

    pub fn views(&mut self) {
        for motor in 0..4 {
            self.view(0, motor, [SLOTS; 2]);
        }
    }

    pub fn write(&mut self, buffer: usize, slot: usize, value: u16) {
        self.call(Call::Write {
            buffer,
            slot,
            value,
        });
    }

    /// Whether a release is due.
    pub fn release(&mut self, due: bool, now: u32, last: u32) {
        self.expect(due.into(), Call::FallbackReleaseDue { now, last });
    }

    /// Whether a run is pending.
    pub fn pending(&mut self, pending: bool) {
        self.expect(pending.into(), Call::CommandPending);
    }
}
