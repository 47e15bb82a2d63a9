//! The calls of a list, made on the source's bank.
//!
//! The refusals 12 (no such motor) and 13 (wrong length) are document 01's. They are made here,
//! because the source's types have no room for such lanes and lengths.

use crate::arguments::{lane_of, reply_stats_of, run_of, stats_of};
use crate::bank::Bank;
use crate::call::{Call, Service, Status, SLOTS};
use crate::outcome::{counts, lane, replies, reply_counts};
use crate::refusals::{self, LENGTH, MOTOR};
use dshot_bank::{fallback_release_due, DshotInterruptEvent, DshotServiceEvent};

impl Bank {
    pub fn answer(&mut self, call: &Call) -> Vec<u64> {
        let bank = &mut self.bank;
        match call {
            Call::Service(service) => self.service(service),
            Call::OnDmaInterrupt { motor, status } => self.interrupt(*motor, *status),
            Call::View { motor, lengths } => self.view(*motor, *lengths),
            Call::TakeTelemetryRequestSent => vec![lane(bank.take_telemetry_request_sent())],
            Call::TakeReplies => replies(bank.take_replies()),
            Call::IsBidirectional => vec![bank.is_bidirectional().into()],
            Call::IsFaulted => vec![bank.is_faulted().into()],
            Call::Stats => counts(&bank.stats()).to_vec(),
            Call::RequestedValues => bank.requested_values().map(u64::from).to_vec(),
            Call::CommandPending => vec![bank.command_pending().into()],
            Call::ReplyStats => reply_counts(&bank.reply_stats()),
            Call::FallbackReleaseDue { now, last } => {
                vec![fallback_release_due(*now, *last).into()]
            }
            _ => self.demand(call).into_iter().collect(),
        }
    }

    /// The calls that answer a refusal's number or 0 for done, and those that answer nothing.
    fn demand(&mut self, call: &Call) -> Option<u64> {
        let bank = &mut self.bank;
        match *call {
            Call::FromLanes(timing) => *self = Self::new(timing),
            Call::Write {
                buffer,
                slot,
                value,
            } => self.write(buffer, slot, value),
            Call::SetStats(counts) => bank.set_stats(stats_of(counts)),
            Call::SetReplyStats(counts) => bank.set_reply_stats(reply_stats_of(counts)),
            _ => return Some(self.refusal(call)),
        }
        None
    }

    fn refusal(&mut self, call: &Call) -> u64 {
        let bank = &mut self.bank;
        match *call {
            Call::EnableBidirectional(receives) => {
                bank.hardware_mut().answers.receives = receives;
                refusals::number(bank.enable_bidirectional())
            }
            Call::CommandThrottles {
                commands,
                now,
                lease,
            } => refusals::number(bank.command_throttles(commands, now, lease)),
            Call::CommandSpecial { motor, run } => lane_of(motor).map_or(MOTOR, |motor| {
                refusals::number(bank.command_special(motor, run_of(run)))
            }),
            Call::RequestTelemetry(motor) => lane_of(motor).map_or(MOTOR, |motor| {
                refusals::number(bank.request_telemetry(motor))
            }),
            Call::CommandStop => {
                bank.command_stop();
                0
            }
            Call::CancelTelemetryRequest => {
                bank.cancel_telemetry_request();
                0
            }
            _ => unreachable!("every other call answers more than a refusal"),
        }
    }

    fn service(&mut self, service: &Service) -> Vec<u64> {
        if !service.lengths_right() {
            return vec![LENGTH, 0];
        }
        let answers = &mut self.bank.hardware_mut().answers;
        answers.taken = service.taken;
        answers.present = service.present;
        answers.masks = service.masks;
        answers.captures = service.captures();
        let event = match self.bank.service(service.now) {
            DshotServiceEvent::FrameStarted => 1,
            DshotServiceEvent::Busy => 2,
            DshotServiceEvent::LeaseExpired => 3,
            DshotServiceEvent::Faulted => 4,
        };
        vec![0, event]
    }

    fn interrupt(&mut self, motor: u64, status: Status) -> Vec<u64> {
        let Some(motor) = lane_of(motor) else {
            return vec![MOTOR, 0];
        };
        let answers = &mut self.bank.hardware_mut().answers;
        answers.complete = status.complete;
        answers.error = status.error;
        answers.turned = status.turned;
        answers.back = status.back;
        let event = match self.bank.on_dma_interrupt(motor) {
            DshotInterruptEvent::Completed => 1,
            DshotInterruptEvent::Faulted => 2,
            DshotInterruptEvent::Spurious => 3,
        };
        vec![0, event]
    }

    fn view(&self, motor: u64, lengths: [usize; 2]) -> Vec<u64> {
        match lane_of(motor) {
            _ if lengths != [SLOTS; 2] => vec![LENGTH],
            None => vec![MOTOR],
            Some(motor) => {
                let sent = &self.bank.hardware().current[motor.index()];
                let slots = sent.iter().map(|slot| u64::from(*slot));
                std::iter::once(0).chain(slots).collect()
            }
        }
    }
}
