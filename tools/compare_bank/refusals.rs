//! The source's errors as document 01's numbers.

use dshot_bank::DshotTelemetryRequestError;
use dshot_bank::{DshotCommandError, DshotInitError, DshotSpecialCommandError};

/// A motor lane above 3, and a lent buffer of the wrong length.
pub const MOTOR: u64 = 12;
pub const LENGTH: u64 = 13;

pub trait Refusal {
    fn number(self) -> u64;
}

/// If the call was done, 0.
pub fn number(result: Result<(), impl Refusal>) -> u64 {
    result.map_or_else(Refusal::number, |()| 0)
}

impl Refusal for DshotCommandError {
    fn number(self) -> u64 {
        match self {
            Self::ThrottleOutOfRange => 6,
            Self::Faulted => 18,
        }
    }
}

impl Refusal for DshotSpecialCommandError {
    fn number(self) -> u64 {
        match self {
            Self::Faulted => 18,
            Self::MotorsRunning => 19,
            Self::CommandPending => 20,
        }
    }
}

impl Refusal for DshotTelemetryRequestError {
    fn number(self) -> u64 {
        match self {
            Self::Faulted => 18,
            Self::Busy => 21,
        }
    }
}

impl Refusal for DshotInitError {
    fn number(self) -> u64 {
        match self {
            Self::RepliesUnsupported => 22,
            // These come up when the hardware's lanes and timers are built. No call here does that.
            _ => unreachable!("a bank is not refused so"),
        }
    }
}
