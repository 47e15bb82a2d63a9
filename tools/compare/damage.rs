//! Words with one damaged symbol, and how a capture of them may end.

use crate::captures::{runs, Ending};

/// The word with every change of one of its four symbols.
pub fn damaged(word: u32) -> impl Iterator<Item = u32> {
    let change = move |symbol: u32| (1..32).map(move |change| word ^ change << (5 * symbol));
    (0..4).flat_map(change)
}

/// If the last run is high, it goes on and has one ending. If it is low, the number of runs is odd,
/// and it has two endings.
pub fn endings(word: u32) -> &'static [Ending] {
    match runs(word).len() % 2 {
        0 => &[Ending::Closed],
        _ => &[Ending::Closed, Ending::Open],
    }
}
