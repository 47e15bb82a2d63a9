//! The source's bank over the lanes of `lanes.rs`, with its two buffers. It makes a call, and shows
//! what the call gave.

use crate::call::{Call, SLOTS};
use crate::lanes::{Answers, Buffer, Lanes};
use crate::outcome::Outcome;
use dshot_bank::{DshotBank, Fields};
use ferrowasp_output::dshot::DshotTiming;

pub struct Bank {
    pub bank: DshotBank<Lanes>,
    /// Where each lane's part of the first buffer is.
    first: [*const Buffer; 4],
}

impl Bank {
    /// The lanes are sending the first buffer's parts. The second buffer's parts are the spares.
    pub fn new([arr, zero_high, one_high, reply_sample_arr]: [u16; 4]) -> Self {
        let leaked = || -> [&'static mut Buffer; 4] { [(); 4].map(|()| Box::leak(Box::default())) };
        let current = leaked();
        let first = [0, 1, 2, 3].map(|lane: usize| &*current[lane] as *const Buffer);
        let lanes = Lanes {
            current,
            answers: Answers::default(),
            orders: Vec::new(),
        };
        let timing = DshotTiming {
            arr,
            zero_high,
            one_high,
            reply_sample_arr,
        };
        let bank = DshotBank::from_lanes(lanes, leaked(), timing);
        Self { bank, first }
    }

    pub fn fields(&self) -> Fields {
        self.bank.fields()
    }

    pub fn step(&mut self, call: &Call) -> Outcome {
        let before = match call {
            Call::FromLanes(_) => [[0; SLOTS]; 2],
            _ => self.slots(),
        };
        let answer = self.answer(call);
        Outcome {
            answer,
            orders: std::mem::take(&mut self.bank.hardware_mut().orders),
            fields: self.fields(),
            marks: [0, 1, 2, 3].map(|lane| self.second_sent(lane)),
            changed: changed(&before, &self.slots()),
        }
    }

    /// Whether the lane is sending its part of the second buffer.
    pub fn second_sent(&self, lane: usize) -> bool {
        let current: *const Buffer = &*self.bank.hardware().current[lane];
        current != self.first[lane]
    }

    fn slots(&self) -> [[u16; SLOTS]; 2] {
        let mut slots = [[0; SLOTS]; 2];
        for lane in 0..4 {
            let places = 16 * lane..16 * lane + 16;
            let second = usize::from(self.second_sent(lane));
            slots[second][places.clone()].copy_from_slice(self.bank.hardware().current[lane]);
            slots[1 - second][places].copy_from_slice(self.bank.spare(lane));
        }
        slots
    }

    pub fn write(&mut self, buffer: usize, slot: usize, value: u16) {
        let lane = slot / 16;
        let part = match self.second_sent(lane) == (buffer == 1) {
            true => &mut *self.bank.hardware_mut().current[lane],
            false => self.bank.spare_mut(lane),
        };
        part[slot % 16] = value;
    }
}

/// The slots that have changed: buffer, slot and value of each.
fn changed(before: &[[u16; SLOTS]; 2], after: &[[u16; SLOTS]; 2]) -> Vec<u64> {
    let mut changed = Vec::new();
    for buffer in 0..2 {
        for slot in 0..SLOTS {
            let value = after[buffer][slot];
            if value != before[buffer][slot] {
                changed.extend([buffer as u64, slot as u64, value.into()]);
            }
        }
    }
    changed
}
