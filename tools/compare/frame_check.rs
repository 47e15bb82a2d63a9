//! Puts one call on frames to both sides: what it returns, and every slot that it is lent.

use crate::answer::UNTOUCHED;
use crate::frame_call::{Call, Left};
use crate::frame_library;
use crate::frame_records;
use crate::frame_right::right;
use crate::tally::Tally;

/// Gives the right answer.
pub fn frame(tally: &mut Tally, call: Call) -> Left {
    lent(tally, call, call.lengths())
}

/// The same with buffers of these lengths, right or wrong.
pub fn lent(tally: &mut Tally, call: Call, lengths: &[usize]) -> Left {
    let right = right(&call, lengths);
    let given = frame_library::answer(&call, lengths);
    let refusal = match lengths {
        [] => 0,
        _ => right.returned,
    };
    if given == right {
        tally.compare(refusal, true, 0, String::new);
    } else {
        // An input with a shorter text is simpler.
        let text = describe(&call, lengths, &given);
        tally.compare(refusal, false, text.len(), || text);
    }
    right
}

fn describe(call: &Call, lengths: &[usize], given: &Left) -> String {
    let record = frame_records::line(call, lengths);
    let mut text = format!("{record}; the library: {}", given.returned);
    for (buffer, length) in given.buffers.iter().zip(lengths) {
        let (lent, behind) = buffer.split_at(*length);
        text += &format!(", slots {lent:?}");
        if behind.iter().any(|slot| *slot != UNTOUCHED) {
            text += &format!(" and behind them {behind:?}");
        }
    }
    text
}
