//! Random services: of idle and busy banks, with exchanges refused, too late, and of wrong lengths.

use crate::call::{Call, Service, SAMPLES};
use crate::random::Random;
use crate::random_captures::mask;
use crate::random_demands::slots;
use crate::random_windows::windows;
use dshot_bank::Fields;

/// Lends captures if they are read, and now and then also if they are not.
pub fn service(now: u64, fields: &Fields, random: &mut Random) -> Service {
    let service = Service::at(now);
    if fields.replies_waiting || random.one_in(16) {
        return service.with_windows(&windows(random));
    }
    Service {
        present: [(); 4].map(|()| random.one_in(2)),
        masks: [(); 4].map(|()| mask(random)),
        ..service
    }
}

/// A busy or faulted bank exchanges no buffer, so these answers may be anything.
pub fn unasked(service: Service, random: &mut Random) -> Service {
    Service {
        taken: [(); 4].map(|()| random.one_in(2)),
        ..service
    }
}

/// The exchange is refused, at each lane equally often.
pub fn refused(service: Service, random: &mut Random) -> Service {
    let at = random.below(4);
    let answer = |lane: usize| lane < at || lane > at && random.one_in(2);
    Service {
        taken: [0, 1, 2, 3].map(answer),
        ..service
    }
}

/// One lent buffer or more has a wrong length.
pub fn wrong_length(service: Service, random: &mut Random) -> Call {
    let mut service = service;
    while service.lengths_right() {
        match random.below(4) {
            0 => service.lengths[0] = slots(random),
            1 => service.lengths[1] = slots(random),
            2 => service = with_length(service, random),
            _ => {
                service.lengths = [slots(random), slots(random)];
                service = with_length(service, random);
            }
        }
    }
    Call::Service(service)
}

/// Captures of another length: samples are cut off or added.
fn with_length(service: Service, random: &mut Random) -> Service {
    let length = match random.below(3) {
        0 => random.below(701),
        _ => [0, 160, SAMPLES - 1, SAMPLES + 1, 700][random.below(5)],
    };
    let mut samples = service.captures();
    samples.resize(length, random.word() as u16);
    service.with_samples(&samples)
}

/// A clock at which a busy bank is not out of time.
pub fn in_time(fields: &Fields, random: &mut Random) -> u64 {
    fields.frame_started_ms.wrapping_add(random.below(2) as u64)
}

/// A clock at which a busy bank is out of time: some ticks too late, or before the frame's start.
pub fn too_late(fields: &Fields, random: &mut Random) -> u64 {
    let ticks = match random.below(4) {
        0 => 2,
        1 => 2 + random.below(30) as u64,
        2 => (1 + random.below(30) as u64).wrapping_neg(),
        _ => random.number().max(2),
    };
    fields.frame_started_ms.wrapping_add(ticks)
}
