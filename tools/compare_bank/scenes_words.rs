//! Scenes of numbers that all differ, so each shows its place in a line. Also scenes of the lanes
//! one by one.

use crate::call::{Call, Run};
use crate::script::{Script, STARTED};

pub fn scenes(script: &mut Script) {
    another_timing(script);
    requests(script);
    runs(script);
    counts(script);
}

/// Late clocks, and throttles that start with a 1 in each second lane.
fn another_timing(script: &mut Script) {
    script.call(Call::FromLanes([65535, 300, 40000, 999]));
    script.expect(0, Call::IsFaulted);
    script.throttles([2000, 1, 2000, 1], 1 << 40, u32::MAX);
    script.service((1 << 40) + 5, STARTED);
    script.views();
}

fn requests(script: &mut Script) {
    script.unidirectional();
    for lane in 0..4 {
        script.request(0, lane);
        script.service(lane, STARTED);
        script.expect(lane + 1, Call::TakeTelemetryRequestSent);
        script.complete(&[0, 1, 2, 3]);
    }
}

fn runs(script: &mut Script) {
    for (lane, index) in [(0, 255), (1, 1), (2, 3), (3, 0)] {
        script.unidirectional();
        let run = Run {
            commands: [20 + u16::from(lane), 30 + u16::from(lane)],
            index,
            repeats_left: 200 + lane,
        };
        script.run(0, lane.into(), run);
        script.service(1, STARTED);
    }
}

fn counts(script: &mut Script) {
    script.unidirectional();
    script.call(Call::SetStats(unlike()));
    script.call(Call::SetReplyStats(unlike()));
    script.call(Call::Stats);
    script.call(Call::ReplyStats);
}

/// Numbers of more than 16 bits. All differ.
fn unlike<const N: usize>() -> [u32; N] {
    std::array::from_fn(|place| 70_001 * (place as u32 + 1))
}
