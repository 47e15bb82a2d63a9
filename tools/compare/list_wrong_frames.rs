//! The list's wrong records of calls on frames.

use crate::frame_call::Call;
use crate::frame_original::{encode_sequence, from_value};
use crate::frame_records;
use crate::list_wrong::{wrong, wrong_at_end};
use crate::{list_commands, list_constants, timings};

pub fn groups() {
    packets();
    sequences();
    throttles();
    commands();
    leases();
    readers();
    wrong(&list_constants::record(), 1, &CONSTANTS);
}

const CONSTANTS: [&str; 12] = [
    "bits",
    "reset slots",
    "slots of a frame",
    "slots of a sequence",
    "highest value",
    "lowest throttle",
    "highest throttle",
    "bit rate",
    "command that saves",
    "command for the normal direction",
    "command for the reversed direction",
    "repeats",
];

fn line(call: Call) -> String {
    frame_records::line(&call, call.lengths())
}

fn packets() {
    let record = line(Call::TryFromValue(1046, 1));
    wrong_at_end(&record, &["refusal", "packet"]);
    wrong_at_end(&line(Call::FromValue(1046, 1)), &["packet"]);
    wrong_at_end(&line(Call::Bidirectional(1046, 1)), &["packet"]);
    let four = [
        "first packet",
        "second packet",
        "third packet",
        "fourth packet",
    ];
    let values = [0, 48, 1046, 2047];
    wrong_at_end(&line(Call::FourMotors(values, 2)), &four);
    wrong_at_end(&line(Call::FourBidirectional(values, 2)), &four);
}

fn sequences() {
    let record = line(Call::FromClocks(168_000_000, 600_000));
    let counts = [
        "period",
        "high time of a 0",
        "high time of a 1",
        "sample period",
    ];
    wrong(&record, 3, &["refusal"]);
    wrong_at_end(&record, &counts);
    let record = line(Call::EncodePacket(0xa5c3, 279));
    wrong(&record, 3, &["refusal", "first slot"]);
    wrong_at_end(&record, &["last slot"]);
    let record = line(Call::EncodeSequence(0xa5c3, timings::dshot600()));
    wrong(&record, 6, &["refusal", "first duty", "first slot"]);
    wrong_at_end(&record, &["last slot"]);
}

fn throttles() {
    wrong_at_end(&line(Call::Throttle(1000)), &["value"]);
    let four = ["first value", "second value", "third value", "fourth value"];
    wrong_at_end(&line(Call::Throttles([0, 1, 1000, 2000])), &four);
}

fn commands() {
    let record = list_commands::command_run(1, 2);
    wrong(&record, 2, &["first flag", "first command"]);
    wrong_at_end(&record, &["second flag", "second command"]);
    let record = line(Call::NextValue([20, 12, 0, 10]));
    wrong(&record, 5, &["flag", "command"]);
    let after = [
        "first command left",
        "second command left",
        "index",
        "count",
    ];
    wrong_at_end(&record, &after);
    let spent = line(Call::NextValue([20, 12, 2, 10]));
    wrong(&spent, 5, &["flag of a spent run", "command of it"]);
}

fn leases() {
    let lasts = line(Call::LeaseExpired(1000, 500, 1500));
    wrong_at_end(&lasts, &["flag of a lease that lasts"]);
    let over = line(Call::LeaseExpired(1000, 500, 1501));
    wrong_at_end(&over, &["flag of a lease that is over"]);
}

fn readers() {
    let frame = ["refusal", "value", "telemetry bit", "checksum"];
    let packet = u32::from(from_value(1046, 1));
    wrong_at_end(&line(Call::ReadPacket(packet)), &frame);
    let timing = timings::dshot600();
    let (first, slots) = encode_sequence(packet, timing);
    wrong(
        &line(Call::ReadSequence(first.into(), slots, timing)),
        6,
        &frame,
    );
}
