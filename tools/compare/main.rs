//! Compares the library, through its archive, with the source that it is ported from, part by part.
//! The one argument is how many random captures part 8 takes. If anything differs, the exit status
//! is 1. If the argument is --seen-to-fail and a wrong answer is not seen, the exit status is 1
//! too.

mod answer;
mod capture_check;
mod capture_parts;
mod captures;
mod checks;
mod clock_parts;
mod clocks;
mod command_parts;
mod damage;
mod exports;
mod fault_parts;
mod frame_call;
mod frame_check;
mod frame_library;
mod frame_original;
mod frame_records;
mod frame_right;
mod length_parts;
mod library;
mod moves;
mod original;
mod packet_parts;
mod period_check;
mod plain;
mod plain_frames;
mod random;
mod random_captures;
mod random_parts;
mod records;
mod rendering;
mod seen;
mod sequence_parts;
mod slot_parts;
mod spoil;
mod tally;
mod threads;
mod timings;
mod value_parts;

use std::process::ExitCode;
use tally::Tally;

fn main() -> ExitCode {
    let word = std::env::args().nth(1).unwrap_or_default();
    match word.parse() {
        Ok(count) => compared(count),
        Err(_) if word == "--seen-to-fail" => ExitCode::from(u8::from(seen::unseen(1000) > 0)),
        Err(_) => {
            eprintln!("the argument is the number of random captures, or --seen-to-fail");
            ExitCode::from(2)
        }
    }
}

fn compared(count: u64) -> ExitCode {
    let (mut compared, mut differ) = (0, 0);
    let mut report = |found: Tally| {
        found.report();
        compared += found.compared;
        differ += found.differ;
    };
    replies(count, &mut report);
    frames(&mut report);
    println!("total: {compared} compared, {differ} differ");
    ExitCode::from(u8::from(differ > 0))
}

/// Parts 1 to 9.
fn replies(count: u64, report: &mut impl FnMut(Tally)) {
    report(value_parts::all_words());
    report(value_parts::wide_words());
    report(value_parts::values());
    report(value_parts::reply_words());
    report(value_parts::value_periods());
    report(value_parts::periods());
    capture_parts::simulated()
        .into_iter()
        .for_each(&mut *report);
    report(capture_parts::simulated_edges());
    report(capture_parts::jittered());
    capture_parts::damaged().into_iter().for_each(&mut *report);
    capture_parts::moved().into_iter().for_each(&mut *report);
    report(random_parts::captures(count));
    report(slot_parts::wrong_slots());
}

/// Parts 10 to 19.
fn frames(report: &mut impl FnMut(Tally)) {
    report(packet_parts::packets());
    report(packet_parts::wide_packets());
    report(packet_parts::four_motors());
    report(packet_parts::words());
    report(packet_parts::wide_words());
    report(clock_parts::limits());
    report(clock_parts::pairs());
    report(sequence_parts::duty_for_bit());
    report(sequence_parts::encode_packet());
    sequence_parts::sequences()
        .into_iter()
        .for_each(&mut *report);
    report(fault_parts::faults());
    report(fault_parts::other_checksums());
    report(command_parts::throttles());
    report(command_parts::runs());
    report(command_parts::other_runs());
    report(command_parts::leases());
    report(length_parts::wrong_lengths());
}
