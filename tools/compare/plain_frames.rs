//! The readers of frames, and a step of any run of commands, written out plainly from document 01's
//! sentences. The source has no readers, and makes only two runs. What it encodes is the judge.

use crate::frame_original::{bidirectional, encode_sequence, from_value};
use std::sync::OnceLock;

/// A value, its telemetry bit, and 0 for a plain checksum or 1 for an inverted one.
type Frame = [u16; 3];

/// What each word says: what the source makes it from, if it makes it.
fn table() -> &'static [Option<Frame>] {
    static TABLE: OnceLock<Vec<Option<Frame>>> = OnceLock::new();
    TABLE.get_or_init(|| {
        let mut table = vec![None; 1 << 16];
        let mut enter = |word: u16, frame: Frame| {
            let other = table[usize::from(word)].replace(frame);
            assert_eq!(other, None, "two frames have the word {word}");
        };
        for value in 0..2048 {
            for telemetry in [0, 1] {
                let frame = |kind| [value as u16, telemetry as u16, kind];
                enter(from_value(value, telemetry), frame(0));
                enter(bidirectional(value, telemetry), frame(1));
            }
        }
        table
    })
}

/// A packet has sixteen bits. A wider word is no packet, whatever its low bits say.
pub fn read_packet(packet: u32) -> Result<Frame, u32> {
    let word = u16::try_from(packet).map_err(|_| 15u32)?;
    table()[usize::from(word)].ok_or(15)
}

/// A sequence says what its packet says: the packet that the source encodes as that sequence. If
/// the high times differ, there is at most one. A bit of it is set if its duty is the high time of
/// a 1.
pub fn read_sequence(first: u32, slots: [u16; 16], timing: [u16; 4]) -> Result<Frame, u32> {
    let [_, zero_high, one_high, _] = timing;
    let first = u16::try_from(first).map_err(|_| 14u32)?;
    let duties = std::iter::once(first).chain(slots).take(16);
    let packet = duties.fold(0, |word, duty| word << 1 | u32::from(duty == one_high));
    if zero_high == one_high || encode_sequence(packet, timing) != (first, slots) {
        return Err(14);
    }
    read_packet(packet)
}

/// The run after a step, and what the step gives: 1 and the command, or 0 and 0. The count of
/// repeats is a byte, and wraps.
pub fn next_value(run: [u16; 4]) -> ([u16; 4], [u16; 2]) {
    let [direction, save, index, repeats_left] = run;
    let command = match index {
        0 => direction,
        1 => save,
        _ => return (run, [0, 0]),
    };
    let after = match repeats_left.wrapping_sub(1) % 256 {
        0 => [direction, save, index + 1, 10],
        left => [direction, save, index, left],
    };
    (after, [1, command])
}
