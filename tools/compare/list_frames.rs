//! The list's groups of calls on frames.

use crate::frame_call::Call;
use crate::frame_records::line;
use crate::{list_clocks, list_commands, list_constants, list_packets, list_random_frames};
use crate::{list_readers, list_sequences};

pub fn groups() {
    list_constants::groups();
    list_packets::groups();
    list_clocks::groups();
    list_sequences::groups();
    list_commands::groups();
    list_readers::groups();
    list_random_frames::groups();
}

pub fn show(call: Call) {
    println!("{}", line(&call, call.lengths()));
}
