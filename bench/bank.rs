//! The cycles of a four-motor bank, either side in a loop of its own. In a cycle the throttles are
//! renewed, a service sends a frame set, and its interrupts come. The clock goes on by one a cycle.
//! On both sides every order to the hardware is looked at, and its number is added to a sum. If
//! nobody read an order, the compiler would leave it out.

use crate::bank_hardware::{Hardware, Ideal};
use crate::bank_lanes::{Buffer, Lanes};
use dshot_bank::{DshotBank, DshotInterruptEvent, DshotMotor, DshotServiceEvent};
use ferrowasp_output::dshot::DshotTiming;
use ferrowasp_output::dshot_reply::DshotReply;

pub const LEASE_MS: u32 = 10;

/// What a run of cycles is given: for each cycle four throttles and four captures.
pub struct Cycles {
    pub timing: [u16; 4],
    pub bidirectional: bool,
    /// Whether the captures are there to be read.
    pub present: bool,
    pub mask: u16,
    /// Interrupts of a cycle.
    pub interrupts: usize,
    pub throttles: Vec<[u16; 4]>,
    pub captures: Vec<u16>,
}

/// First the two buffers. Then for each lane: the completions, the valid and the invalid replies,
/// the invalid ones since the last valid one, and the last speed. Then the bank's frame sets,
/// started and completed, its faults, and the sum of its orders and of the first duties.
#[derive(Clone, Copy, Debug, Default, Eq, PartialEq)]
pub struct Left {
    pub buffers: [[Buffer; 4]; 2],
    pub counts: [[u32; 4]; 6],
}

fn lanes<'a, H>(
    cycles: &'a Cycles,
    current: &'static mut [Buffer; 4],
    hardware: &'a H,
) -> Lanes<'a, H> {
    Lanes {
        current: current.each_mut(),
        receives: cycles.bidirectional,
        present: cycles.present,
        mask: cycles.mask,
        captures: &cycles.captures,
        started: 0,
        hardware,
    }
}

/// The bank stands in the function that makes the calls, where the compiler sees all of it.
#[inline(never)]
pub fn original_cycles(cycles: &Cycles, left: &mut Left) {
    let buffers = Box::into_raw(Box::new(left.buffers));
    // The bank is gone before the box is taken back.
    let [current, spares] = unsafe { &mut *buffers }.each_mut();
    let hardware = Ideal::default();
    let lanes = lanes(cycles, current, &hardware);
    let mut bank = DshotBank::from_lanes(lanes, spares.each_mut(), timing(cycles.timing));
    // Refused if the lanes do not receive.
    let _ = bank.enable_bidirectional();
    for (now_ms, throttles) in (0..).zip(&cycles.throttles) {
        let _ = bank.command_throttles(*throttles, now_ms, LEASE_MS);
        bank.service(now_ms);
        for interrupt in 0..cycles.interrupts {
            bank.on_dma_interrupt(DshotMotor::ALL[interrupt % 4]);
        }
    }
    left.counts = counts(&mut bank, hardware.sum());
    drop(bank);
    left.buffers = *unsafe { Box::from_raw(buffers) };
}

/// The same, with each call of the bank in a function that is not inlined. A host's loop and its
/// interrupt handlers do not see into each other.
#[inline(never)]
pub fn original_calls<H: Hardware>(cycles: &Cycles, left: &mut Left) {
    let buffers = Box::into_raw(Box::new(left.buffers));
    let [current, spares] = unsafe { &mut *buffers }.each_mut();
    let hardware = H::default();
    let lanes = lanes(cycles, current, &hardware);
    let mut bank = DshotBank::from_lanes(lanes, spares.each_mut(), timing(cycles.timing));
    let _ = bank.enable_bidirectional();
    for (now_ms, throttles) in (0..).zip(&cycles.throttles) {
        unusual(&hardware, command(&mut bank, throttles, now_ms).into());
        unusual(&hardware, serve(&mut bank, now_ms) as u32);
        for interrupt in 0..cycles.interrupts {
            let event = interrupted(&mut bank, DshotMotor::ALL[interrupt % 4]);
            unusual(&hardware, event as u32);
        }
    }
    left.counts = counts(&mut bank, hardware.sum());
    drop(bank);
    left.buffers = *unsafe { Box::from_raw(buffers) };
}

/// A refusal, or an event other than a frame set that started or a lane that is done.
#[inline(always)]
fn unusual(hardware: &impl Hardware, number: u32) {
    if number != 0 {
        hardware.obey(number);
    }
}

/// Whether the throttles were refused.
#[inline(never)]
fn command<H: Hardware>(bank: &mut DshotBank<Lanes<H>>, throttles: &[u16; 4], now_ms: u64) -> bool {
    bank.command_throttles(*throttles, now_ms, LEASE_MS)
        .is_err()
}

#[inline(never)]
fn serve<H: Hardware>(bank: &mut DshotBank<Lanes<H>>, now_ms: u64) -> DshotServiceEvent {
    bank.service(now_ms)
}

#[inline(never)]
fn interrupted<H: Hardware>(
    bank: &mut DshotBank<Lanes<H>>,
    motor: DshotMotor,
) -> DshotInterruptEvent {
    bank.on_dma_interrupt(motor)
}

fn timing([arr, zero_high, one_high, reply_sample_arr]: [u16; 4]) -> DshotTiming {
    DshotTiming {
        arr,
        zero_high,
        one_high,
        reply_sample_arr,
    }
}

fn counts<H: Hardware>(bank: &mut DshotBank<Lanes<H>>, sum: u32) -> [[u32; 4]; 6] {
    let (stats, replies) = (bank.stats(), bank.reply_stats());
    let speeds = bank.take_replies().map_or([0; 4], |read| {
        read.map(|reply| match reply {
            Ok(DshotReply::Erpm { erpm_div100 }) => erpm_div100,
            _ => 0,
        })
    });
    [
        stats.lane_completions,
        replies.valid,
        replies.invalid,
        replies.consecutive_invalid,
        speeds,
        [
            stats.frames_started,
            stats.frames_completed,
            stats.dma_faults,
            sum,
        ],
    ]
}

extern "C" {
    fn bench_bank_cycles(
        arr: u16,
        zero_high: u16,
        one_high: u16,
        reply_sample_arr: u16,
        bidirectional: u32,
        present: u32,
        mask: u16,
        interrupts: usize,
        throttles: *const u16,
        four_a_cycle: usize,
        captures: *const u16,
        samples: usize,
        first: *mut u16,
        sixty_four: usize,
        second: *mut u16,
        sixty_four_too: usize,
        counts: *mut u32,
        twenty_four: usize,
    ) -> u32;
}

/// The returned number is not looked at. A refusal leaves everything as it was, and the comparison
/// shows that.
#[inline(never)]
pub fn library_cycles(cycles: &Cycles, left: &mut Left) {
    let [arr, zero, one, sample] = cycles.timing;
    let (throttles, captures) = (cycles.throttles.as_flattened(), &cycles.captures);
    let [first, second] = left.buffers.each_mut().map(|four| four.as_flattened_mut());
    let counts = left.counts.as_flattened_mut();
    unsafe {
        bench_bank_cycles(
            arr,
            zero,
            one,
            sample,
            cycles.bidirectional.into(),
            cycles.present.into(),
            cycles.mask,
            cycles.interrupts,
            throttles.as_ptr(),
            throttles.len(),
            captures.as_ptr(),
            captures.len(),
            first.as_mut_ptr(),
            first.len(),
            second.as_mut_ptr(),
            second.len(),
            counts.as_mut_ptr(),
            counts.len(),
        );
    }
}
