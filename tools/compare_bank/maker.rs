//! Makes the calls of a random list one by one. It sees the bank as the calls before have left it.
//! So whole frames and windows are common, and each fault is made where it can happen.

use crate::call::{Call, Service, SLOTS};
use crate::clock::Clock;
use crate::random::Random;
use crate::random_demands::{above, counts, look, motor, release, special, throttles, view, write};
use crate::random_interrupts::{again, any, any_status, completion, failed, turn_refused};
use crate::random_services::{in_time, refused, service, too_late, unasked, wrong_length};
use crate::settings::Settings;
use dshot_bank::Fields;
use std::collections::VecDeque;

/// One in this many calls makes a new bank. The first number is for a bank without a fault, the
/// second after a fault.
const WELL: usize = 1000;
const AFTER_FAULT: usize = 12;

pub struct Maker {
    random: Random,
    settings: Settings,
    clock: Clock,
    /// Calls that come next, whatever the bank is like.
    planned: VecDeque<Call>,
}

impl Maker {
    pub fn new(seed: u64) -> Self {
        let mut random = Random::new(seed);
        let mut maker = Self {
            settings: Settings::any(&mut random),
            clock: Clock::any(&mut random),
            planned: VecDeque::new(),
            random,
        };
        maker.new_bank();
        maker
    }

    /// How many calls a list has.
    pub fn length(&mut self) -> usize {
        300 + self.random.below(200)
    }

    fn new_bank(&mut self) {
        self.settings = Settings::any(&mut self.random);
        self.planned
            .push_back(Call::FromLanes(self.settings.timing));
        let turn = self.settings.receives.map(Call::EnableBidirectional);
        self.planned.extend(turn);
        if self.settings.full_counts {
            self.set_counts();
        }
    }

    fn set_counts(&mut self) {
        let stats = Call::SetStats(counts(&mut self.random));
        let reply_stats = Call::SetReplyStats(counts(&mut self.random));
        self.planned.extend([stats, reply_stats]);
    }

    pub fn next(&mut self, fields: &Fields) -> Call {
        if self.planned.is_empty() {
            self.plan(fields);
        }
        self.planned.pop_front().expect("a call is planned")
    }

    fn plan(&mut self, fields: &Fields) {
        let chances = if fields.faulted { AFTER_FAULT } else { WELL };
        if self.random.one_in(chances) {
            return self.new_bank();
        }
        let onward = self.random.below(100) < self.settings.onward;
        let call = match onward {
            false => return self.aside(fields),
            true if fields.faulted => self.faulted(fields),
            true if self.goes_wrong(fields) => return self.fault(fields),
            true if fields.busy => completion(fields, &mut self.random),
            true => Call::Service(self.idle_service(fields)),
        };
        self.planned.push_back(call);
    }

    /// A bank is idle in few calls only.
    fn goes_wrong(&mut self, fields: &Fields) -> bool {
        let chances = self.settings.fault;
        self.random
            .one_in(if fields.busy { chances } else { chances / 4 })
    }

    fn idle_service(&mut self, fields: &Fields) -> Service {
        let now = self.clock.tick(&mut self.random);
        service(now, fields, &mut self.random)
    }

    fn faulted(&mut self, fields: &Fields) -> Call {
        match self.random.one_in(2) {
            true => any(&mut self.random),
            false => {
                let service = self.idle_service(fields);
                Call::Service(unasked(service, &mut self.random))
            }
        }
    }

    fn fault(&mut self, fields: &Fields) {
        let call = match (fields.busy, self.random.below(8)) {
            (false, 0..=5) => return self.exchange_refused(fields),
            (false, _) => any(&mut self.random),
            (true, 0 | 1) => failed(fields, &mut self.random),
            (true, 2) => again(fields, &mut self.random),
            (true, 3..=5) => return self.planned.extend(turn_refused(fields)),
            (true, _) => {
                let now = too_late(fields, &mut self.random);
                let service = service(now, fields, &mut self.random);
                Call::Service(unasked(service, &mut self.random))
            }
        };
        self.planned.push_back(call);
    }

    /// Now and then all lanes are looked at afterwards: some have exchanged their buffers.
    fn exchange_refused(&mut self, fields: &Fields) {
        let service = self.idle_service(fields);
        let service = refused(service, &mut self.random);
        self.planned.push_back(Call::Service(service));
        if self.random.one_in(2) {
            let view = |motor| Call::View {
                motor,
                lengths: [SLOTS; 2],
            };
            self.planned.extend((0..4).map(view));
        }
    }

    /// Calls beside the frame.
    fn aside(&mut self, fields: &Fields) {
        let random = &mut self.random;
        let call = match random.below(66) {
            0..=11 => return self.throttle(fields),
            12..=18 => return self.run(fields),
            19..=22 => Call::CommandStop,
            23..=28 => Call::RequestTelemetry(motor(random)),
            29 | 30 => Call::CancelTelemetryRequest,
            31..=34 => Call::TakeTelemetryRequestSent,
            35..=38 => Call::TakeReplies,
            39..=44 => look(random),
            45..=48 => view(random),
            49..=51 => write(random),
            52..=58 => self.extra_service(fields),
            59 | 60 => wrong_length(service(self.clock.0, fields, random), random),
            61 => Call::OnDmaInterrupt {
                motor: above(random),
                status: any_status(random),
            },
            62 => Call::EnableBidirectional(random.one_in(2)),
            63 | 64 => release(random),
            _ if self.settings.full_counts => return self.set_counts(),
            _ => look(random),
        };
        self.planned.push_back(call);
    }

    /// A service that a busy bank skips, within its time.
    fn extra_service(&mut self, fields: &Fields) -> Call {
        if !fields.busy {
            return Call::Service(self.idle_service(fields));
        }
        let now = in_time(fields, &mut self.random);
        let service = service(now, fields, &mut self.random);
        Call::Service(unasked(service, &mut self.random))
    }

    /// Throttles, and now and then a service right after them.
    fn throttle(&mut self, fields: &Fields) {
        let now = self.clock.beside(&mut self.random);
        self.planned.push_back(throttles(now, &mut self.random));
        if self.random.one_in(4) {
            let call = self.extra_service(fields);
            self.planned.push_back(call);
        }
    }

    /// A run of commands, mostly after a stop, and now and then throttles on top of it.
    fn run(&mut self, fields: &Fields) {
        if !self.random.one_in(4) {
            self.planned.push_back(Call::CommandStop);
        }
        self.planned.push_back(special(&mut self.random));
        match self.random.below(8) {
            0 => self.throttle(fields),
            1 => self.planned.push_back(special(&mut self.random)),
            _ => (),
        }
    }
}
