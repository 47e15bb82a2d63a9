//! The calls of a list, each a line of numbers.

/// How many slots or samples the lent buffers must have.
pub const SLOTS: usize = 64;
pub const SAMPLES: usize = 640;

#[derive(Clone, Debug, PartialEq)]
pub enum Call {
    /// The four numbers of the timing.
    FromLanes([u16; 4]),
    /// Whether the lanes can receive.
    EnableBidirectional(bool),
    CommandStop,
    CommandThrottles {
        commands: [u16; 4],
        now: u64,
        lease: u32,
    },
    CommandSpecial {
        motor: u64,
        run: Run,
    },
    RequestTelemetry(u64),
    CancelTelemetryRequest,
    TakeTelemetryRequestSent,
    Service(Service),
    OnDmaInterrupt {
        motor: u64,
        status: Status,
    },
    TakeReplies,
    IsBidirectional,
    IsFaulted,
    Stats,
    RequestedValues,
    CommandPending,
    ReplyStats,
    /// The sequence that a lane is sending, with the lengths of the two buffers.
    View {
        motor: u64,
        lengths: [usize; 2],
    },
    /// The caller writes a slot.
    Write {
        buffer: usize,
        slot: usize,
        value: u16,
    },
    SetStats([u32; 11]),
    SetReplyStats([u32; 12]),
    /// This call asks no bank.
    FallbackReleaseDue {
        now: u32,
        last: u32,
    },
}

/// The fields of a run of commands.
#[derive(Clone, Copy, Debug, PartialEq)]
pub struct Run {
    pub commands: [u16; 2],
    pub index: u8,
    pub repeats_left: u8,
}

/// The clock of a service, its lent buffers, and the hardware's answers to it.
#[derive(Clone, Debug, PartialEq)]
pub struct Service {
    pub now: u64,
    pub taken: [bool; 4],
    pub present: [bool; 4],
    pub masks: [u16; 4],
    pub lengths: [usize; 2],
    pub capture_length: usize,
    /// Samples, each with how often it comes in a row. Zeros follow them.
    pub runs: Vec<(u16, usize)>,
}

impl Service {
    /// All buffers are taken and have the right lengths, and there is no capture.
    pub fn at(now: u64) -> Self {
        Self {
            now,
            taken: [true; 4],
            present: [false; 4],
            masks: [0; 4],
            lengths: [SLOTS; 2],
            capture_length: SAMPLES,
            runs: Vec::new(),
        }
    }

    pub fn lengths_right(&self) -> bool {
        self.lengths == [SLOTS; 2] && self.capture_length == SAMPLES
    }

    pub fn captures(&self) -> Vec<u16> {
        let mut samples = Vec::with_capacity(self.capture_length);
        for &(sample, times) in &self.runs {
            samples.resize(samples.len() + times, sample);
        }
        samples.resize(self.capture_length, 0);
        samples
    }
}

/// The hardware's answers in an interrupt.
#[derive(Clone, Copy, Debug, PartialEq)]
pub struct Status {
    pub complete: bool,
    pub error: bool,
    pub turned: bool,
    pub back: bool,
}

impl Status {
    pub const DONE: Self = Self {
        complete: true,
        error: false,
        turned: true,
        back: true,
    };
}

/// The source's name of each call, in the order of the codes.
pub const NAMES: [&str; 22] = [
    "from_lanes",
    "enable_bidirectional",
    "command_stop",
    "command_throttles",
    "command_special",
    "request_telemetry",
    "cancel_telemetry_request",
    "take_telemetry_request_sent",
    "service",
    "on_dma_interrupt",
    "take_replies",
    "is_bidirectional",
    "is_faulted",
    "stats",
    "requested_values",
    "command_pending",
    "reply_stats",
    "the view of a sequence",
    "a slot is written",
    "the counts are set",
    "the counts of replies are set",
    "fallback_release_due",
];
