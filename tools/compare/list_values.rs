//! The list's groups of calls on numbers, and of the simulated ESC.

use crate::original::{self, reply_transitions_for};
use crate::records;

/// Values with every top nibble. Among them are periods of 0.
pub const VALUES: [u32; 22] = [
    0x000, 0x001, 0x0ff, 0x123, 0x200, 0x2a5, 0x3ff, 0x400, 0x4b6, 0x5c7, 0x6d8, 0x7e9, 0x800,
    0x8fa, 0x90b, 0xa1c, 0xb2d, 0xc3e, 0xd4f, 0xe00, 0xeff, 0xfff,
];

pub fn groups() {
    println!("# every case of DshotReply, and ZeroPeriod, EDT off and on");
    for value in VALUES {
        println!("{}", records::reply_transitions_for(value));
        println!("{}", records::decode_gcr(reply_transitions_for(value)));
        both_settings(value);
    }
    println!("# 0xE00 and its neighbours, then 0x001, 0xFFE, 0xFFF and 0, EDT off and on");
    for value in [0xdff, 0xe00, 0xe01, 0x001, 0xffe, 0xfff, 0] {
        both_settings(value);
    }
    println!("# values above 4095");
    for value in [
        0x1000, 0x1001, 0x1e00, 0x3e00, 0x8fff, 0xa2a5, 0xf000, 0xffff,
    ] {
        println!("{}", records::reply_transitions_for(value));
        both_settings(value);
    }
    words();
    simulated_esc();
}

fn both_settings(value: u32) {
    println!("{}", records::reply_from_value(value, 0));
    println!("{}", records::reply_from_value(value, 1));
}

fn words() {
    let word = reply_transitions_for(0x123);
    println!("# a bad symbol at each place: 9");
    for place in 0..4 {
        for symbol in [0x00, 0x08, 0x1f] {
            refused(with_symbol(word, place, symbol), 9);
        }
    }
    println!("# four good symbols and a wrong checksum: 10");
    let wrong = with_symbol(word, 0, 0x19);
    refused(wrong, 10);
    println!("# a bad top symbol and a wrong checksum: 9");
    for symbol in [0x00, 0x10, 0x1f] {
        refused(with_symbol(wrong, 3, symbol), 9);
    }
    println!("# bits above 20, which do not matter, and no start edge, which does not either");
    for above in [1 << 21, 1 << 31, 0xffe0_0000] {
        refused(word | above, 0);
        refused(wrong | above, 10);
    }
    refused(word ^ 1 << 20, 0);
    for other in [0, 0xf_ffff, 1 << 20, u32::MAX] {
        refused(other, 9);
    }
}

/// The word with another symbol at a place from 0 to 3. Place 0 is the checksum's.
pub fn with_symbol(word: u32, place: u32, symbol: u32) -> u32 {
    word & !(0x1f << (5 * place)) | symbol << (5 * place)
}

/// The word's record. The refusal is asserted, so a group's name says only what its records do.
fn refused(word: u32, refusal: u32) {
    assert_eq!(original::decode_gcr(word).refusal, refusal);
    println!("{}", records::decode_gcr(word));
}

fn simulated_esc() {
    println!("# periods");
    for period in [0, 1, 511, 512, 1023, 1024] {
        println!("{}", records::period_value(period));
    }
    for period in [65407, 65408, 65535, 65536, 65537, u32::MAX] {
        println!("{}", records::period_value(period));
    }
    println!("# captures of the simulated ESC");
    for (length, value, lead, mask) in [
        (69, 0xfff, 0, 1),
        (160, 0xfff, 10, 1),
        (160, 0x000, 91, 0x8000),
        (70, 0x123, 0, 0x0031),
        (400, 0xe00, 331, 0xffff),
        (79, 0xf123, 10, 4),
    ] {
        println!("{}", records::simulate_reply(length, value, lead, mask));
    }
    println!("# refusals of the simulated ESC: 13, and then 12; the buffer stays as it was");
    let top = usize::MAX;
    let leads = [0, 1, 10, top / 2, top - 69, top - 68, top - 67, top];
    for (lead, length) in leads.into_iter().zip([68, 69, 78, 160, 160, 0, 1, 160]) {
        println!("{}", records::simulate_reply(length, 0x123, lead, 1));
    }
    for (length, lead) in [(69, 0), (68, 0), (160, 10), (160, top)] {
        println!("{}", records::simulate_reply(length, 0x123, lead, 0));
    }
}
