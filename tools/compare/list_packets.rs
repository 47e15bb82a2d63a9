//! The list's groups of packets.

use crate::frame_call::Call;
use crate::list_frames::show;

pub fn groups() {
    println!("# packets of values at their limits, with both telemetry bits; above 2047: 5");
    for value in [0, 1, 47, 48, 1046, 2047, 2048, 65535] {
        for telemetry in [0, 1] {
            show(Call::TryFromValue(value, telemetry));
            show(Call::FromValue(value, telemetry));
            show(Call::Bidirectional(value, telemetry));
        }
    }
    println!(
        "# packets of four motors: no telemetry lane, each of the four, and some that is none"
    );
    for lane in [usize::MAX, 0, 1, 2, 3, 4, 256, 1 << 32] {
        show(Call::FourMotors([0, 48, 1046, 2047], lane));
        show(Call::FourBidirectional([0, 48, 1046, 2047], lane));
    }
    for lane in [usize::MAX, 0, 3] {
        show(Call::FourMotors([2048, 65535, 1, 47], lane));
        show(Call::FourBidirectional([2048, 65535, 1, 47], lane));
    }
}
