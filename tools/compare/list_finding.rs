//! The list's groups of moved edges that are taken. An edge on the border of two symbols comes one
//! bit late or early. Both symbols turn into others, and the checksum still holds.

use crate::captures::{clean, exact, levels, Ending};
use crate::original::{self, reply_transitions_for};
use crate::records;

pub fn groups() {
    println!(
        "# the finding: 0x190 and 0x191, each also with the edge between its first two symbols one"
    );
    println!("# bit late, which makes them 0x800 and 0x801");
    for value in [0x190, 0x191] {
        turn(value, 2);
    }
    for place in (0..3).rev() {
        for (high, low) in [(1, 0x9), (1, 0xd), (8, 0x0), (8, 0x4)] {
            let way = if high == 1 { "late" } else { "early" };
            println!(
                "# {high:X},{low:X} at nibbles {} and {place}, the edge between them {way}",
                place + 1
            );
            turn(holder(place, high, low), place);
        }
    }
}

/// The nibble of a reply at a place from 0 to 3. Place 0 is the checksum.
fn nibble(value: u32, place: u32) -> u32 {
    let checksum = !(value ^ value >> 4 ^ value >> 8) & 0xf;
    (value << 4 | checksum) >> (4 * place) & 0xf
}

/// The smallest value that has both nibbles at the places above and below a border.
fn holder(border: u32, high: u32, low: u32) -> u32 {
    let holds = |v: &u32| nibble(*v, border + 1) == high && nibble(*v, border) == low;
    (0..4096).find(holds).expect("some value has them")
}

/// The reply of a value, and then the same with the edge on the other side of a border.
fn turn(value: u32, border: u32) {
    let word = reply_transitions_for(value);
    let moved = word ^ 3 << (5 * border + 4);
    assert_eq!(original::decode_gcr(moved).refusal, 0);
    for word in [word, moved] {
        let samples = clean(&levels(10, &exact(word), Ending::Closed, 160), 1);
        println!("{}", records::decode_gcr(word));
        println!("{}", records::decode_sampled_reply(&samples, 1, 0));
        println!("{}", records::decode_sampled_reply(&samples, 1, 1));
    }
}
