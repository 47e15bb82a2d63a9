//! The lanes of the source's bank, over some hardware. They have four captures for every cycle. The
//! captures stand one behind the other.

use crate::bank_hardware::Hardware;
use dshot_bank::{DshotLanes, DshotMotor};
use ferrowasp_output::dshot::{encode_compare_sequence, DshotPacket, DshotTiming};
use ferrowasp_output::dshot_reply::REPLY_WINDOW_SAMPLES;

/// The sixteen slots of one lane.
pub type Buffer = [u16; 16];

pub struct Lanes<'a, H> {
    /// The buffers that the lanes are sending.
    pub current: [&'static mut Buffer; 4],
    pub receives: bool,
    pub present: bool,
    pub mask: u16,
    pub captures: &'a [u16],
    /// Frame sets so far.
    pub started: usize,
    pub hardware: &'a H,
}

impl<H: Hardware> Lanes<'_, H> {
    /// Eight times the order's kind, and its motor, as the library's loop numbers them.
    fn order(&self, kind: u32, motor: usize) {
        self.hardware.obey(8 * kind + motor as u32);
    }
}

impl<H: Hardware> DshotLanes for Lanes<'_, H> {
    type Buffer = Buffer;

    fn encode(packet: DshotPacket, timing: DshotTiming, buffer: &mut Buffer) -> u16 {
        encode_compare_sequence(packet, timing, buffer)
    }

    fn exchange_buffer(
        &mut self,
        motor: DshotMotor,
        next: &'static mut Buffer,
    ) -> Result<&'static mut Buffer, &'static mut Buffer> {
        self.order(1, motor.index());
        if self.hardware.free(motor.index()) == 0 {
            return Err(next);
        }
        Ok(std::mem::replace(&mut self.current[motor.index()], next))
    }

    fn start_dma(&mut self, motor: DshotMotor) {
        self.order(2, motor.index());
    }

    fn start_frame(&mut self, first_duties: [u16; 4]) {
        self.order(3, 0);
        for duty in first_duties {
            self.hardware.obey(duty.into());
        }
        self.started += 1;
    }

    fn stop_frame(&mut self) {
        self.order(4, 0);
    }

    fn force_outputs_low(&mut self) {
        self.order(5, 0);
    }

    fn dma_status(&self, motor: DshotMotor) -> (bool, bool) {
        let (complete, failed) = (
            self.hardware.complete(motor.index()),
            self.hardware.failed(motor.index()),
        );
        (complete != 0, failed != 0)
    }

    fn pause_and_clear(&mut self, motor: DshotMotor) {
        self.order(6, motor.index());
    }

    fn receives_replies(&self) -> bool {
        self.receives
    }

    fn begin_receive(&mut self) -> bool {
        self.order(7, 0);
        self.hardware.turned() != 0
    }

    fn end_receive(&mut self) -> bool {
        self.order(8, 0);
        self.hardware.turned_back() != 0
    }

    fn reply_samples(&self, motor: DshotMotor) -> Option<(&[u16], u16)> {
        let from = REPLY_WINDOW_SAMPLES * (4 * self.started + motor.index());
        let window = &self.captures[from..from + REPLY_WINDOW_SAMPLES];
        self.present.then_some((window, self.mask))
    }
}
