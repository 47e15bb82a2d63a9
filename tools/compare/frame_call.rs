//! A call on frames with its arguments, and what it leaves. The source, the library and the stored
//! list have this one form.

use crate::answer::UNTOUCHED;

/// The slots of a buffer and those behind it: no call is lent more than 24.
pub const ROOM: usize = 32;

pub type Buffer = [u16; ROOM];

/// The numbers are as wide as the library takes them. A timing is its four slots, and so is a run
/// of commands. The lane `usize::MAX` means no lane.
#[derive(Clone, Copy, Debug)]
pub enum Call {
    FromValue(u32, u32),
    Bidirectional(u32, u32),
    TryFromValue(u32, u32),
    FourMotors([u16; 4], usize),
    FourBidirectional([u16; 4], usize),
    FromClocks(u32, u32),
    DutyForBit([u16; 4], u32),
    EncodePacket(u32, u32),
    EncodeSequence(u32, [u16; 4]),
    Throttle(u32),
    Throttles([u16; 4]),
    SpinDirection(u32),
    NextValue([u16; 4]),
    LeaseExpired(u64, u32, u64),
    ReadPacket(u32),
    ReadSequence(u32, [u16; 16], [u16; 4]),
}

/// What a call returned, and every buffer that it was lent, in their order. If a call is lent no
/// buffer, it returns its answer. If it is lent one, it returns a refusal's number or 0.
#[derive(Clone, Copy, Eq, PartialEq)]
pub struct Left {
    pub returned: u32,
    pub buffers: [Buffer; 3],
}

pub fn put(buffer: &mut Buffer, slots: &[u16]) {
    buffer[..slots.len()].copy_from_slice(slots);
}

impl Call {
    /// How many slots each buffer must have.
    pub fn lengths(&self) -> &'static [usize] {
        match self {
            Self::FromValue(..) | Self::Bidirectional(..) => &[],
            Self::Throttle(..) | Self::LeaseExpired(..) => &[],
            Self::TryFromValue(..) => &[1],
            Self::FourMotors(..) | Self::FourBidirectional(..) | Self::Throttles(..) => &[4, 4],
            Self::FromClocks(..) | Self::SpinDirection(..) => &[4],
            Self::DutyForBit(..) => &[4, 1],
            Self::EncodePacket(..) => &[22],
            Self::EncodeSequence(..) => &[4, 1, 16],
            Self::NextValue(..) => &[4, 2],
            Self::ReadPacket(..) => &[3],
            Self::ReadSequence(..) => &[16, 4, 3],
        }
    }

    /// The buffers before the call, and also after it if it is refused.
    pub fn before(&self) -> Left {
        let mut buffers = [[UNTOUCHED; ROOM]; 3];
        let [first, second, _] = &mut buffers;
        match self {
            Self::FourMotors(values, _) | Self::FourBidirectional(values, _) => put(first, values),
            Self::Throttles(values) => put(first, values),
            Self::EncodeSequence(_, timing) | Self::DutyForBit(timing, _) => put(first, timing),
            Self::NextValue(sequence) => put(first, sequence),
            Self::ReadSequence(_, slots, timing) => {
                put(first, slots);
                put(second, timing);
            }
            _ => {}
        }
        let returned = 0;
        Left { returned, buffers }
    }
}
