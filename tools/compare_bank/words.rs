//! The words that a line can have. `coverage.rs` counts how often the lists have each of them.

use crate::call::NAMES;
use crate::outcome::{lane, replies};
use crate::step::Step;
use crate::write_call::code;
use dshot_bank::Fields;

/// What a number belongs to, and the number. Some words have two or three numbers.
pub type Word = (&'static str, Vec<u64>);

/// The answers of the calls that have few of them, by code.
const ANSWERS: [(usize, &[&[u64]]); 11] = [
    (1, &[&[0], &[22]]),
    (3, &[&[0], &[6], &[18]]),
    (4, &[&[0], &[12], &[18], &[19], &[20]]),
    (5, &[&[0], &[12], &[18], &[21]]),
    (7, &[&[0], &[1], &[2], &[3], &[4]]),
    (8, &[&[0, 1], &[0, 2], &[0, 3], &[0, 4], &[13, 0]]),
    (9, &[&[0, 1], &[0, 2], &[0, 3], &[12, 0]]),
    (11, &[&[0], &[1]]),
    (12, &[&[0], &[1]]),
    (15, &[&[0], &[1]]),
    (21, &[&[0], &[1]]),
];

/// The fields that name a motor, one more than its lane, or none.
const MOTORS: [&str; 3] = ["telemetry_request", "telemetry_request_sent", "run's motor"];

const FLAGS: [&str; 5] = [
    "busy",
    "faulted",
    "bidirectional",
    "receiving",
    "replies_waiting",
];

/// Refusal and kind of a lane's reply. The source reads with EDT off.
const REPLIES: [[u64; 2]; 7] = [[0, 0], [0, 8], [7, 0], [8, 0], [9, 0], [10, 0], [11, 0]];

/// Orders by kind, to each lane and to all.
const OF_A_LANE: [u64; 3] = [1, 2, 6];
const OF_ALL: [u64; 5] = [3, 4, 5, 7, 8];

pub fn all() -> Vec<Word> {
    let mut words = Vec::new();
    for (code, answers) in ANSWERS {
        words.extend(answers.iter().map(|answer| (NAMES[code], answer.to_vec())));
    }
    for name in MOTORS {
        words.extend((0..=4).map(|number| (name, vec![number])));
    }
    for name in FLAGS {
        words.extend((0..=1).map(|number| (name, vec![number])));
    }
    for lane in 0..4 {
        words.extend(OF_A_LANE.map(|kind| ("order", vec![kind, lane])));
        words.extend(REPLIES.map(|[refusal, kind]| ("reply", vec![lane, refusal, kind])));
        words.extend([0, 1].map(|mark| ("mark", vec![lane, mark])));
    }
    words.extend(OF_ALL.map(|kind| ("order", vec![kind, 0])));
    words
}

/// The words of a call's line, and others.
pub fn told(step: &Step) -> Vec<Word> {
    let fields = step.after();
    let mut words = vec![(NAMES[code(step.call) as usize], step.outcome.answer.clone())];
    let motors = [
        fields.telemetry_request,
        fields.telemetry_request_sent,
        fields.command_sequence.map(|(motor, _)| motor),
    ];
    let motors = motors.map(|motor| vec![lane(motor)]);
    words.extend(MOTORS.into_iter().zip(motors));
    words.extend(FLAGS.into_iter().zip(flags(fields)));
    let marks = (0..).zip(step.outcome.marks);
    words.extend(marks.map(|(lane, mark)| ("mark", vec![lane, mark.into()])));
    // After the first number, three for each lane.
    let replies = replies(fields.replies);
    let lanes = (0..).zip(replies[1..].chunks(3));
    words.extend(lanes.map(|(lane, reply)| ("reply", vec![lane, reply[0], reply[1]])));
    words.extend(orders(&step.outcome.orders));
    words
}

fn flags(fields: &Fields) -> [Vec<u64>; 5] {
    [
        fields.busy,
        fields.faulted,
        fields.bidirectional,
        fields.receiving,
        fields.replies_waiting,
    ]
    .map(|flag| vec![flag.into()])
}

/// Kind and lane of each order. The first duties follow the start of a frame, which has kind 3.
fn orders(mut numbers: &[u64]) -> Vec<Word> {
    let mut orders = Vec::new();
    while let [kind, lane, ..] = numbers {
        orders.push(("order", vec![*kind, *lane]));
        numbers = &numbers[if *kind == 3 { 6 } else { 2 }..];
    }
    orders
}
