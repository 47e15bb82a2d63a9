//! The list's record of the source's constants.

use ferrowasp_output::dshot::*;

pub fn groups() {
    println!("# the public constants of dshot.rs");
    println!("{}", record());
}

pub fn record() -> String {
    let slots = [DSHOT_BITS, RESET_SLOTS, FRAME_SLOTS, COMPARE_DMA_SLOTS];
    let values = [DSHOT_MAX_VALUE, DSHOT_MIN_THROTTLE, DSHOT_MAX_THROTTLE];
    let commands = [
        DSHOT_CMD_SAVE_SETTINGS,
        DSHOT_CMD_SPIN_DIRECTION_NORMAL,
        DSHOT_CMD_SPIN_DIRECTION_REVERSED,
    ];
    let in_order = slots
        .map(|number| number as u64)
        .into_iter()
        .chain(values.map(u64::from))
        .chain([DSHOT600_BITRATE_HZ.into()])
        .chain(commands.map(u64::from))
        .chain([DSHOT_COMMAND_REPEATS.into()]);
    let text: String = in_order.map(|number| format!(" {number}")).collect();
    format!("23{text}")
}
