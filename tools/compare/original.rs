//! The source's calls on replies, with its enums turned into document 01's numbers. They take the
//! wide numbers of the library's calls. The source's narrower types keep their low bits.

use crate::answer::Answer;
use ferrowasp_output::dshot_reply::{self, DshotReply, DshotReplyError};

fn refused(error: DshotReplyError) -> Answer {
    Answer::refused(match error {
        DshotReplyError::NoReply => 7,
        DshotReplyError::Overlong => 8,
        DshotReplyError::InvalidSymbol => 9,
        DshotReplyError::Checksum => 10,
        DshotReplyError::ZeroPeriod => 11,
    })
}

fn reading(reply: DshotReply) -> Answer {
    let (kind, number) = match reply {
        DshotReply::Erpm { erpm_div100 } => (0, erpm_div100),
        DshotReply::Temperature { celsius } => (1, celsius.into()),
        DshotReply::Voltage { quarter_volts } => (2, quarter_volts.into()),
        DshotReply::Current { amps } => (3, amps.into()),
        DshotReply::Debug { channel, value } => (3 + u16::from(channel), value.into()),
        DshotReply::StateEvent { value } => (7, value.into()),
        DshotReply::ExtendedTelemetryEnabled => (8, 0),
    };
    Answer::of_reading(kind, number)
}

pub fn reply(read: Result<DshotReply, DshotReplyError>) -> Answer {
    read.map_or_else(refused, reading)
}

pub fn reply_transitions_for(value: u32) -> u32 {
    dshot_reply::reply_transitions_for(value as u16)
}

pub fn reply_transitions(samples: &[u16], mask: u32) -> Answer {
    dshot_reply::reply_transitions(samples, mask as u16).map_or_else(refused, Answer::of_word)
}

pub fn decode_gcr(word: u32) -> Answer {
    dshot_reply::decode_gcr(word).map_or_else(refused, Answer::of_value)
}

pub fn reply_from_value(value: u32, edt: u32) -> Answer {
    reply(DshotReply::from_value(value as u16, edt != 0))
}

pub fn decode_sampled_reply(samples: &[u16], mask: u32, edt: u32) -> Answer {
    reply(dshot_reply::decode_sampled_reply(
        samples,
        mask as u16,
        edt != 0,
    ))
}
