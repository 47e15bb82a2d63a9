//! The frames of four motors as a bank sends them: their packets, and a sequence of each. Either
//! side makes them in one function, and in five calls.

use crate::exports::{kuzhenga_encode_compare_sequence, kuzhenga_four_motor_bidirectional_packets};
use crate::spoil::{self, FRAMES};
use ferrowasp_output::dshot::{self, DshotPacket, DshotTiming};

/// Four values, and the lane that is asked for telemetry.
pub struct Set {
    pub values: [u16; 4],
    pub lane: Option<usize>,
}

impl Set {
    /// To the library a number above 3 is no lane.
    fn lane_number(&self) -> usize {
        self.lane.unwrap_or(usize::MAX)
    }
}

/// The first duties of four sequences, and their slots.
#[derive(Clone, Copy, Default, Eq, PartialEq)]
pub struct Sequences {
    firsts: [u16; 4],
    slots: [[u16; 16]; 4],
}

impl Sequences {
    /// The library's, with the refusal before them, before they are compared.
    pub fn pass(&mut self, refusal: &mut u32) {
        spoil::pass(FRAMES, refusal, &mut self.firsts);
        spoil::pass_part(FRAMES, 5, self.slots.as_flattened_mut());
    }
}

#[inline(never)]
pub fn original_sequences(set: &Set, timing: DshotTiming, out: &mut Sequences) {
    let packets = dshot::four_motor_bidirectional_packets(set.values, set.lane);
    for (lane, packet) in packets.into_iter().enumerate() {
        out.firsts[lane] = dshot::encode_compare_sequence(packet, timing, &mut out.slots[lane]);
    }
}

extern "C" {
    fn bench_four_sequences(
        values: *const u16,
        four: usize,
        telemetry_lane: usize,
        arr: u16,
        zero_high: u16,
        one_high: u16,
        reply_sample_arr: u16,
        slots: *mut u16,
        sixty_four: usize,
        firsts: *mut u16,
        four_firsts: usize,
    ) -> u32;
}

/// The refusal's number.
#[inline(never)]
pub fn library_sequences(set: &Set, timing: &[u16; 4], out: &mut Sequences) -> u32 {
    let (values, lane) = (set.values.as_ptr(), set.lane_number());
    let slots = out.slots.as_flattened_mut().as_mut_ptr();
    let firsts = out.firsts.as_mut_ptr();
    let [arr, zero, one, sample] = *timing;
    unsafe {
        bench_four_sequences(
            values, 4, lane, arr, zero, one, sample, slots, 64, firsts, 4,
        )
    }
}

#[inline(never)]
fn original_packets(set: &Set) -> [DshotPacket; 4] {
    dshot::four_motor_bidirectional_packets(set.values, set.lane)
}

#[inline(never)]
fn original_sequence(packet: DshotPacket, timing: DshotTiming, slots: &mut [u16; 16]) -> u16 {
    dshot::encode_compare_sequence(packet, timing, slots)
}

pub fn original_calls(set: &Set, timing: DshotTiming, out: &mut Sequences) {
    for (lane, packet) in original_packets(set).into_iter().enumerate() {
        out.firsts[lane] = original_sequence(packet, timing, &mut out.slots[lane]);
    }
}

/// The sum of the refusals' numbers.
pub fn library_calls(set: &Set, timing: &[u16; 4], out: &mut Sequences) -> u32 {
    let (values, lane) = (set.values.as_ptr(), set.lane_number());
    let mut packets = [0; 4];
    let to = packets.as_mut_ptr();
    let mut refusals = unsafe { kuzhenga_four_motor_bidirectional_packets(values, 4, lane, to, 4) };
    for (lane, packet) in packets.into_iter().enumerate() {
        let (packet, timing) = (packet.into(), timing.as_ptr());
        let first = &mut out.firsts[lane];
        let slots = out.slots[lane].as_mut_ptr();
        refusals +=
            unsafe { kuzhenga_encode_compare_sequence(packet, timing, 4, first, 1, slots, 16) };
    }
    refusals
}
