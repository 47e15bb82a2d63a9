//! Calls written as lines of numbers.

use crate::call::{Call, Run, Service, Status};

pub fn line(call: &Call) -> String {
    joined(&numbers(call))
}

pub fn joined(numbers: &[u64]) -> String {
    let words: Vec<String> = numbers.iter().map(u64::to_string).collect();
    words.join(" ")
}

/// The first number of a call's line.
pub fn code(call: &Call) -> u64 {
    numbers(call)[0]
}

fn numbers(call: &Call) -> Vec<u64> {
    match call {
        Call::FromLanes(timing) => with(0, timing.map(u64::from)),
        Call::EnableBidirectional(receives) => with(1, [u64::from(*receives)]),
        Call::CommandStop => vec![2],
        Call::CommandThrottles {
            commands,
            now,
            lease,
        } => {
            let [a, b, c, d] = commands.map(u64::from);
            with(3, [a, b, c, d, *now, u64::from(*lease)])
        }
        Call::CommandSpecial { motor, run } => special(*motor, run),
        Call::RequestTelemetry(motor) => with(5, [*motor]),
        Call::CancelTelemetryRequest => vec![6],
        Call::TakeTelemetryRequestSent => vec![7],
        Call::Service(service) => self::service(service),
        Call::OnDmaInterrupt { motor, status } => interrupt(*motor, status),
        Call::TakeReplies => vec![10],
        Call::IsBidirectional => vec![11],
        Call::IsFaulted => vec![12],
        Call::Stats => vec![13],
        Call::RequestedValues => vec![14],
        Call::CommandPending => vec![15],
        Call::ReplyStats => vec![16],
        Call::View { motor, lengths } => with(17, [*motor, lengths[0] as u64, lengths[1] as u64]),
        Call::Write {
            buffer,
            slot,
            value,
        } => with(18, [*buffer as u64, *slot as u64, u64::from(*value)]),
        Call::SetStats(counts) => with(19, counts.map(u64::from)),
        Call::SetReplyStats(counts) => with(20, counts.map(u64::from)),
        Call::FallbackReleaseDue { now, last } => with(21, [*now, *last].map(u64::from)),
    }
}

fn with<const N: usize>(code: u64, arguments: [u64; N]) -> Vec<u64> {
    [&[code][..], &arguments].concat()
}

fn special(motor: u64, run: &Run) -> Vec<u64> {
    let [first, second] = run.commands.map(u64::from);
    let [index, left] = [run.index, run.repeats_left].map(u64::from);
    with(4, [motor, first, second, index, left])
}

fn interrupt(motor: u64, status: &Status) -> Vec<u64> {
    let flags = [status.complete, status.error, status.turned, status.back];
    let [complete, error, turned, back] = flags.map(u64::from);
    with(9, [motor, complete, error, turned, back])
}

fn service(service: &Service) -> Vec<u64> {
    let mut numbers = vec![8, service.now];
    numbers.extend(service.taken.map(u64::from));
    numbers.extend(service.present.map(u64::from));
    numbers.extend(service.masks.map(u64::from));
    numbers.extend(service.lengths.map(|length| length as u64));
    numbers.extend([service.capture_length, service.runs.len()].map(|length| length as u64));
    for &(sample, times) in &service.runs {
        numbers.extend([u64::from(sample), times as u64]);
    }
    numbers
}
