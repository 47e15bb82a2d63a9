//! The stored list: scenes of the bank's events, counts and refusals, one after the other, each on
//! banks of its own. Together they meet every case that `coverage.rs` counts. So if a word of a
//! line were another one, it would be seen.

use crate::script::Script;
use crate::{scenes_faults, scenes_frames, scenes_refusals};
use crate::{scenes_replies, scenes_runs, scenes_words};

pub fn text() -> String {
    let mut script = Script::new();
    scenes_frames::scenes(&mut script);
    scenes_runs::scenes(&mut script);
    scenes_faults::scenes(&mut script);
    scenes_replies::scenes(&mut script);
    scenes_refusals::scenes(&mut script);
    scenes_words::scenes(&mut script);
    let missed = script.seen.at_zero();
    assert!(missed.is_empty(), "no call is one of {missed:?}");
    script.record.text()
}
