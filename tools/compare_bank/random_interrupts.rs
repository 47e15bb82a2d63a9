//! Random interrupts: lanes that complete, and interrupts that latch a fault.

use crate::call::{Call, Status};
use crate::random::Random;
use crate::random_demands::motor;
use dshot_bank::Fields;

/// The lanes that are not done.
fn open(fields: &Fields) -> Vec<u64> {
    let is_open = |lane: &u64| fields.completion_mask >> lane & 1 == 0;
    (0..4).filter(is_open).collect()
}

/// An open lane completes. Answers that are not asked for may be anything.
pub fn completion(fields: &Fields, random: &mut Random) -> Call {
    let open = open(fields);
    let last = open.len() == 1;
    let status = Status {
        turned: last && !fields.receiving || random.one_in(2),
        back: last && fields.receiving || random.one_in(2),
        ..Status::DONE
    };
    Call::OnDmaInterrupt {
        motor: open[random.below(open.len())],
        status,
    }
}

/// All open lanes complete, but the lanes do not turn after the last one.
pub fn turn_refused(fields: &Fields) -> Vec<Call> {
    let refused = Status {
        turned: fields.receiving,
        back: !fields.receiving,
        ..Status::DONE
    };
    let open = open(fields);
    let last = open.len() - 1;
    let interrupt = |(place, &motor): (usize, &u64)| Call::OnDmaInterrupt {
        motor,
        status: if place == last { refused } else { Status::DONE },
    };
    open.iter().enumerate().map(interrupt).collect()
}

/// An open lane has an error, is not complete, or both.
pub fn failed(fields: &Fields, random: &mut Random) -> Call {
    let open = open(fields);
    let (complete, error) = [(true, true), (false, true), (false, false)][random.below(3)];
    Call::OnDmaInterrupt {
        motor: open[random.below(open.len())],
        status: Status {
            complete,
            error,
            ..any_status(random)
        },
    }
}

/// A lane that is done already. If there is none, any lane.
pub fn again(fields: &Fields, random: &mut Random) -> Call {
    let open = open(fields);
    let done: Vec<u64> = (0..4).filter(|lane| !open.contains(lane)).collect();
    match done.len() {
        0 => any(random),
        lanes => Call::OnDmaInterrupt {
            motor: done[random.below(lanes)],
            status: any_status(random),
        },
    }
}

pub fn any(random: &mut Random) -> Call {
    Call::OnDmaInterrupt {
        motor: motor(random),
        status: any_status(random),
    }
}

pub fn any_status(random: &mut Random) -> Status {
    Status {
        complete: !random.one_in(4),
        error: random.one_in(4),
        turned: random.one_in(2),
        back: random.one_in(2),
    }
}
