//! The hardware under the source's bank. Its answers come from the list, and its orders are kept.

use dshot_bank::{DshotLanes, DshotMotor};
use ferrowasp_output::dshot::{encode_compare_sequence, DshotPacket, DshotTiming};
use ferrowasp_output::dshot_reply::REPLY_WINDOW_SAMPLES;

/// The sixteen slots of one lane.
pub type Buffer = [u16; 16];

/// What the hardware answers during one call.
#[derive(Default)]
pub struct Answers {
    pub receives: bool,
    pub taken: [bool; 4],
    pub complete: bool,
    pub error: bool,
    pub turned: bool,
    pub back: bool,
    pub present: [bool; 4],
    pub masks: [u16; 4],
    /// The four windows, one behind the other.
    pub captures: Vec<u16>,
}

pub struct Lanes {
    /// The buffers that the lanes are sending.
    pub current: [&'static mut Buffer; 4],
    pub answers: Answers,
    /// Each order's kind and motor. The first duties follow the start of a frame.
    pub orders: Vec<u64>,
}

impl Lanes {
    fn order(&mut self, kind: u64, motor: usize) {
        self.orders.extend([kind, motor as u64]);
    }
}

impl DshotLanes for Lanes {
    type Buffer = Buffer;

    fn encode(packet: DshotPacket, timing: DshotTiming, buffer: &mut Buffer) -> u16 {
        encode_compare_sequence(packet, timing, buffer)
    }

    fn exchange_buffer(
        &mut self,
        motor: DshotMotor,
        next: &'static mut Buffer,
    ) -> Result<&'static mut Buffer, &'static mut Buffer> {
        let lane = motor.index();
        self.order(1, lane);
        match self.answers.taken[lane] {
            true => Ok(std::mem::replace(&mut self.current[lane], next)),
            false => Err(next),
        }
    }

    fn start_dma(&mut self, motor: DshotMotor) {
        self.order(2, motor.index());
    }

    fn start_frame(&mut self, first_duties: [u16; 4]) {
        self.order(3, 0);
        self.orders.extend(first_duties.map(u64::from));
    }

    fn stop_frame(&mut self) {
        self.order(4, 0);
    }

    fn force_outputs_low(&mut self) {
        self.order(5, 0);
    }

    fn dma_status(&self, _motor: DshotMotor) -> (bool, bool) {
        (self.answers.complete, self.answers.error)
    }

    fn pause_and_clear(&mut self, motor: DshotMotor) {
        self.order(6, motor.index());
    }

    fn receives_replies(&self) -> bool {
        self.answers.receives
    }

    fn begin_receive(&mut self) -> bool {
        self.order(7, 0);
        self.answers.turned
    }

    fn end_receive(&mut self) -> bool {
        self.order(8, 0);
        self.answers.back
    }

    fn reply_samples(&self, motor: DshotMotor) -> Option<(&[u16], u16)> {
        let lane = motor.index();
        let from = REPLY_WINDOW_SAMPLES * lane;
        let window = &self.answers.captures[from..from + REPLY_WINDOW_SAMPLES];
        self.answers.present[lane].then_some((window, self.answers.masks[lane]))
    }
}
