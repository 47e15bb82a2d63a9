//! One line of the stored list for each kind of record on frames, with the right answer. If a
//! comparison fails, such a line names its input.

use crate::frame_call::{Call, Left};
use crate::frame_right::right;

/// Numbers with spaces between them, and one before the first.
fn listed(numbers: &[u16]) -> String {
    numbers.iter().map(|number| format!(" {number}")).collect()
}

/// The slots of an answer. If a refusal leaves them out, they are 0.
fn answered(refusal: u32, slots: &[u16]) -> String {
    match refusal {
        0 => format!(" 0{}", listed(slots)),
        _ => format!(" {refusal}{}", listed(&vec![0; slots.len()])),
    }
}

/// Whether a lane is asked for telemetry, and which.
fn asked(lane: usize) -> String {
    match lane {
        usize::MAX => "0 0".to_string(),
        _ => format!("1 {lane}"),
    }
}

/// What a step gives, and then the run after it.
fn stepped(left: &Left) -> String {
    let [run, value, _] = &left.buffers;
    format!("{}{}", listed(&value[..2]), listed(&run[..4]))
}

/// The record of a call with buffers of these lengths. The first state of a run and the duty of a
/// bit have no kind of their own, and are named by their slots.
pub fn line(call: &Call, lengths: &[usize]) -> String {
    let left = right(call, lengths);
    let to = left.returned;
    let slots = |buffer: usize| {
        let length = lengths.get(buffer).copied().unwrap_or(0);
        &left.buffers[buffer][..length]
    };
    match call {
        Call::TryFromValue(value, flag) => format!("8 {value} {flag}{}", answered(to, slots(0))),
        Call::FromValue(value, flag) => format!("9 {value} {flag} {to}"),
        Call::Bidirectional(value, flag) => format!("10 {value} {flag} {to}"),
        Call::FourMotors(values, lane) => {
            format!("11 {}{}{}", asked(*lane), listed(values), listed(slots(1)))
        }
        Call::FourBidirectional(values, lane) => {
            format!("12 {}{}{}", asked(*lane), listed(values), listed(slots(1)))
        }
        Call::FromClocks(clock, rate) => format!("13 {clock} {rate}{}", answered(to, slots(0))),
        Call::DutyForBit(timing, set) => {
            format!("duty_for_bit{} {set}{}", listed(timing), listed(slots(1)))
        }
        Call::EncodePacket(packet, duty) => format!("14 {packet} {duty} {to}{}", listed(slots(0))),
        Call::EncodeSequence(packet, timing) => {
            let first = answered(to, slots(1));
            format!("15 {packet}{}{first}{}", listed(timing), listed(slots(2)))
        }
        Call::Throttle(value) => format!("16 {value} {to}"),
        Call::Throttles(values) => format!("17{}{}", listed(values), listed(slots(1))),
        Call::SpinDirection(reversed) => format!("spin_direction {reversed}{}", listed(slots(0))),
        Call::NextValue(run) => format!("22{}{}", listed(run), stepped(&left)),
        Call::LeaseExpired(started, duration, now) => format!("19 {started} {duration} {now} {to}"),
        Call::ReadPacket(packet) => format!("20 {packet}{}", answered(to, slots(0))),
        Call::ReadSequence(first, _, timing) => {
            let frame = answered(to, slots(2));
            format!("21 {first}{}{frame}{}", listed(timing), listed(slots(0)))
        }
    }
}
