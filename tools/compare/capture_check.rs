//! Puts one capture to both sides: its word, and its reading with EDT off and on.

use crate::checks::against;
use crate::library::{self, READING, WORD};
use crate::tally::Tally;
use crate::{original, records};

/// The call on which the two sides differ. A reading has its EDT flag.
enum Call {
    Word,
    Reading(u32),
}

fn differs(samples: &[u16], mask: u32) -> Option<Call> {
    let right = original::reply_transitions(samples, mask);
    if library::reply_transitions(samples, mask, WORD) != right {
        return Some(Call::Word);
    }
    let other = |edt: &u32| {
        let right = original::decode_sampled_reply(samples, mask, *edt);
        library::decode_sampled_reply(samples, mask, *edt, READING) != right
    };
    // Every number except 0 is yes, so another bit of it is set at each length.
    let on = 1 << (samples.len() % 32);
    [0, on].into_iter().find(other).map(Call::Reading)
}

/// Counts the capture once. Says whether the source takes it as some value's reply, also if that
/// reply is refused with 11 (zero period).
pub fn capture(tally: &mut Tally, samples: &[u16], mask: u32) -> bool {
    let refusal = original::decode_sampled_reply(samples, mask, 0).refusal;
    let found = differs(samples, mask);
    tally.compare(refusal, found.is_none(), samples.len(), || {
        let small = shrunk(samples, mask);
        match (differs(&small, mask), found) {
            (Some(call), _) => describe(&small, mask, call),
            (None, Some(call)) => describe(samples, mask, call),
            (None, None) => String::new(),
        }
    });
    refusal == 0 || refusal == 11
}

/// A capture that is easier to read and on which the two sides still differ. It has no noise on
/// other pins, and fewer samples at both ends, if the two sides differ without them.
fn shrunk(samples: &[u16], mask: u32) -> Vec<u16> {
    let pins = |sample: &u16| {
        if sample & mask as u16 == 0 {
            0
        } else {
            mask as u16
        }
    };
    let mut small: Vec<u16> = samples.iter().map(pins).collect();
    if differs(&small, mask).is_none() {
        small = samples.to_vec();
    }
    while !small.is_empty() && differs(&small[1..], mask).is_some() {
        small.remove(0);
    }
    while !small.is_empty() && differs(&small[..small.len() - 1], mask).is_some() {
        small.pop();
    }
    small
}

fn describe(samples: &[u16], mask: u32, call: Call) -> String {
    match call {
        Call::Word => {
            let given = library::reply_transitions(samples, mask, WORD);
            against(records::reply_transitions(samples, mask), &given)
        }
        Call::Reading(edt) => {
            let given = library::decode_sampled_reply(samples, mask, edt, READING);
            against(records::decode_sampled_reply(samples, mask, edt), &given)
        }
    }
}
