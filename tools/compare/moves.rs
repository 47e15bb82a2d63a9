//! Words with one edge moved.

/// How many moves there are over all reply words, and how many of them give a reply word again. The
/// theorem `moved-edge` says which moves do, but does not count them.
pub const MOVES: u64 = 46720;
pub const TAKEN: u64 = 192;

/// The word with each of its edges one place earlier or later, if that bit is free. The start edge,
/// bit 20, stays.
pub fn moved(word: u32) -> impl Iterator<Item = u32> {
    let unlike = move |low: &u32| matches!(word >> low & 3, 1 | 2);
    (0..19).filter(unlike).map(move |low| word ^ 3 << low)
}
