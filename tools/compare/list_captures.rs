//! The list's groups of captures at the reader's limits.

use crate::captures::{self, clean, exact, levels, Ending, BIT, READ, ROOM};
use crate::damage::{damaged, endings};
use crate::list_values::{with_symbol, VALUES};
use crate::original::{self, reply_transitions_for};
use crate::records;

/// A window's samples.
const WINDOW: usize = 160;

/// More samples than are ever read: a run of so many does not end.
const ON: usize = 200;

pub fn groups() {
    lengths();
    bits_seen();
    masks();
    starts();
    last_edges();
    low_endings();
    errors();
    replies();
}

/// A capture as its word and as its reading.
fn show(samples: &[u16], mask: u32) {
    println!("{}", records::reply_transitions(samples, mask));
    println!("{}", records::decode_sampled_reply(samples, mask, 0));
}

fn show_levels(lead: usize, times: &[usize], ending: Ending, length: usize) {
    show(&clean(&levels(lead, times, ending, length), 1), 1);
}

/// A reply of 57 samples: six of its runs are each a sample short.
fn shortest(value: u32) -> Vec<usize> {
    let mut times = exact(reply_transitions_for(value));
    times[..6].iter_mut().for_each(|run| *run -= 1);
    times
}

fn lengths() {
    println!("# no samples, and 56 and 57 samples that a reply fills");
    for length in [0, 1, ROOM - 1, ROOM, ROOM + 1] {
        show_levels(0, &shortest(0x123), Ending::Closed, length);
    }
    println!("# an exact reply cut short");
    let reply = exact(reply_transitions_for(0x123));
    for length in [57, 58, 60, 61, 63] {
        show_levels(0, &reply, Ending::Closed, length);
    }
}

/// A number of runs of one bit, and then one run that does not end.
fn seen(bits: usize) -> Vec<usize> {
    [vec![BIT; bits], vec![ON]].concat()
}

fn bits_seen() {
    println!("# 17 and 18 bits seen, and 19 and 20");
    for bits in [17, 18, 19, 20] {
        show_levels(10, &seen(bits), Ending::Open, WINDOW);
    }
    println!("# 21 and 22 bits seen");
    for bits in [21, 22] {
        show_levels(10, &seen(bits), Ending::Open, WINDOW);
    }
    println!(
        "# a whole reply and an edge that ends its 21 bits: no later edge, one at two places,"
    );
    println!("# which makes it Overlong, and one that is not read any more");
    let reply = exact(reply_transitions_for(0x123));
    for low in [ON, 3, 5, 6] {
        show_levels(10, &[&reply[..], &[low]].concat(), Ending::Closed, WINDOW);
    }
}

fn masks() {
    let reply = levels(3, &exact(reply_transitions_for(0x123)), Ending::Closed, 80);
    println!("# mask 0, where every sample is low");
    show(&[], 0);
    show(&[0xffff; ROOM - 1], 0);
    show(&[0xffff; ROOM], 0);
    show(&clean(&reply, 1), 0);
    println!("# a mask of three pins, one at a time high; low samples have all other pins high");
    let one_pin = |(at, &level): (usize, &bool)| match level {
        true => [0x0001, 0x0010, 0x8000][at / 4 % 3],
        false => !0x8011,
    };
    let samples: Vec<u16> = reply.iter().enumerate().map(one_pin).collect();
    show(&samples, 0x8011);
    println!("# the same with one of those pins alone, and with another pin");
    show(&samples, 0x0010);
    show(&samples, 0x0002);
    println!("# the highest pin, and all pins");
    show(&clean(&reply, 0x8000), 0x8000);
    show(&clean(&reply, 0xffff), 0xffff);
    show(&clean(&reply, 0x0100), 0xffff);
}

fn starts() {
    println!("# lead 0");
    let reply = exact(reply_transitions_for(0xfff));
    for length in [READ, WINDOW] {
        show_levels(0, &reply, Ending::Closed, length);
    }
    println!("# a start exactly at length - 57, and one later");
    for lead in [WINDOW - ROOM, WINDOW - ROOM + 1] {
        show_levels(lead, &shortest(0x2a5), Ending::Closed, WINDOW);
    }
    println!("# no start: all samples high");
    show(&[1; ROOM], 1);
    show(&[1; WINDOW], 1);
}

/// Value 0 with a number of its runs a sample longer.
fn longer(runs: usize) -> Vec<usize> {
    let mut times = exact(reply_transitions_for(0));
    times[..runs].iter_mut().for_each(|run| *run += 1);
    times
}

fn last_edges() {
    println!("# value 0 with eight runs a sample longer: its last edge is the last sample read");
    assert_eq!(show_settings(&longer(8)), 11);
    println!("# and with nine: the last edge is not read, and this is no rendering");
    assert_eq!(show_settings(&longer(9)), 10);
}

/// The first two damaged words whose last run is low and has the given number of bits.
fn ending_low(bits: usize) -> Vec<u32> {
    let all = (0..4096).map(reply_transitions_for).flat_map(damaged);
    let low = all.filter(|word| endings(*word).len() == 2);
    let so = low.filter(|word| captures::runs(*word).last() == Some(&bits));
    so.take(2).collect()
}

fn low_endings() {
    for bits in 1..=7 {
        println!(
            "# damaged words, low for the last {bits} of 21 bits: closed, and open to the end"
        );
        for word in ending_low(bits) {
            show_levels(10, &exact(word), Ending::Closed, WINDOW);
            show_levels(10, &exact(word), Ending::Open, WINDOW);
        }
    }
}

fn errors() {
    let word = reply_transitions_for(0x123);
    let checksum = with_symbol(word, 0, 0x19);
    let both = with_symbol(checksum, 3, 0);
    for (name, number, times) in [
        ("NoReply", 7, vec![ON]),
        ("Overlong", 8, seen(22)),
        ("InvalidSymbol", 9, exact(with_symbol(word, 0, 0x1f))),
        ("a bad top symbol and a wrong checksum", 9, exact(both)),
        ("Checksum", 10, exact(checksum)),
        ("ZeroPeriod", 11, exact(reply_transitions_for(0))),
    ] {
        println!("# {name}: {number}, EDT off and on");
        assert_eq!(show_settings(&times), number);
    }
}

fn replies() {
    println!("# every case of DshotReply, EDT off and on");
    for value in VALUES {
        show_settings(&exact(reply_transitions_for(value)));
    }
}

/// Gives the refusal with EDT off. The name of a group is checked against it.
fn show_settings(times: &[usize]) -> u32 {
    let samples = clean(&levels(10, times, Ending::Closed, WINDOW), 1);
    println!("{}", records::decode_sampled_reply(&samples, 1, 0));
    println!("{}", records::decode_sampled_reply(&samples, 1, 1));
    original::decode_sampled_reply(&samples, 1, 0).refusal
}
