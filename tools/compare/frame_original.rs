//! The source's calls on frames, with its enums turned into document 01's numbers. They take the
//! library's numbers, which are wider than the source's.

use ferrowasp_output::dshot::{self, DshotCommandSequence, DshotPacket, DshotTiming};
use ferrowasp_output::dshot::{DshotFrameError, DshotTimingError};

pub fn from_value(value: u32, telemetry: u32) -> u16 {
    DshotPacket::from_value(value as u16, telemetry != 0).0
}

pub fn bidirectional(value: u32, telemetry: u32) -> u16 {
    DshotPacket::from_value_bidirectional(value as u16, telemetry != 0).0
}

/// If the source's type has no room for a value, the value is above 2047 too.
pub fn try_from_value(value: u32, telemetry: u32) -> Result<[u16; 1], u32> {
    let value = u16::try_from(value).unwrap_or(u16::MAX);
    match DshotPacket::try_from_value(value, telemetry != 0) {
        Ok(packet) => Ok([packet.0]),
        Err(DshotFrameError::ValueOutOfRange) => Err(5),
    }
}

/// For no lane the library takes any number above 3. Here `usize::MAX` stands for it.
fn telemetry_lane(lane: usize) -> Option<usize> {
    (lane != usize::MAX).then_some(lane)
}

pub fn four_motors(values: [u16; 4], lane: usize) -> [u16; 4] {
    dshot::four_motor_packets(values, telemetry_lane(lane)).map(|packet| packet.0)
}

pub fn four_bidirectional(values: [u16; 4], lane: usize) -> [u16; 4] {
    dshot::four_motor_bidirectional_packets(values, telemetry_lane(lane)).map(|packet| packet.0)
}

pub fn from_clocks(timer_hz: u32, bitrate_hz: u32) -> Result<[u16; 4], u32> {
    match DshotTiming::from_clocks(timer_hz, bitrate_hz) {
        Ok(timing) => Ok([
            timing.arr,
            timing.zero_high,
            timing.one_high,
            timing.reply_sample_arr,
        ]),
        Err(DshotTimingError::ZeroTimerClock) => Err(1),
        Err(DshotTimingError::ZeroBitrate) => Err(2),
        Err(DshotTimingError::PeriodTooShort) => Err(3),
        Err(DshotTimingError::PeriodTooLong) => Err(4),
    }
}

pub fn encode_packet(packet: u32, max_duty: u32) -> [u16; 22] {
    let mut slots = [0; 22];
    dshot::encode_packet(DshotPacket(packet as u16), max_duty as u16, &mut slots);
    slots
}

fn timing_of([arr, zero_high, one_high, reply_sample_arr]: [u16; 4]) -> DshotTiming {
    DshotTiming {
        arr,
        zero_high,
        one_high,
        reply_sample_arr,
    }
}

pub fn duty_for_bit(timing: [u16; 4], set: u32) -> u16 {
    timing_of(timing).duty_for_bit(set != 0)
}

/// The first duty and the slots.
pub fn encode_sequence(packet: u32, timing: [u16; 4]) -> (u16, [u16; 16]) {
    let (packet, timing) = (DshotPacket(packet as u16), timing_of(timing));
    let mut slots = [0; 16];
    let first = dshot::encode_compare_sequence(packet, timing, &mut slots);
    (first, slots)
}

/// If the source's type has no room for a throttle, it counts as 2000 too.
pub fn throttle(value: u32) -> u16 {
    dshot::throttle_to_dshot(u16::try_from(value).unwrap_or(u16::MAX))
}

pub fn throttles(values: [u16; 4]) -> [u16; 4] {
    dshot::throttles_to_dshot(values)
}

pub fn spin_direction(reversed: u32) -> DshotCommandSequence {
    DshotCommandSequence::spin_direction(reversed != 0)
}

/// A run's fields. They are private, but its text for the debugger has their four numbers.
pub fn fields(sequence: &DshotCommandSequence) -> [u16; 4] {
    let text = format!("{sequence:?}");
    let words = text.split(|letter: char| !letter.is_ascii_digit());
    let numbers: Vec<u16> = words.flat_map(|word| word.parse()).collect();
    numbers.try_into().expect("a run has four numbers")
}

pub fn lease_expired(started_ms: u64, duration_ms: u32, now_ms: u64) -> bool {
    dshot::command_lease_expired(started_ms, duration_ms, now_ms)
}
