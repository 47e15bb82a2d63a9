// What follows is not the source's: tools/compare_bank/run appends it, since a bank's fields are
// private to this module.

/// Every field of a bank except its lanes and spares.
#[derive(Clone, Copy)]
pub struct Fields {
    pub timing: DshotTiming,
    pub requested_values: [u16; 4],
    pub telemetry_request: Option<DshotMotor>,
    pub telemetry_request_sent: Option<DshotMotor>,
    pub lease_started_ms: u64,
    pub lease_duration_ms: Option<u32>,
    pub frame_started_ms: u64,
    pub completion_mask: u8,
    pub busy: bool,
    pub faulted: bool,
    pub stats: DshotStats,
    pub command_sequence: Option<(DshotMotor, DshotCommandSequence)>,
    pub bidirectional: bool,
    pub receiving: bool,
    pub replies_waiting: bool,
    pub replies: Option<DshotReplies>,
    pub reply_stats: DshotReplyStats,
}

impl<L> DshotBank<L>
where
    L: DshotLanes,
{
    /// The pattern names every field. If the source had one more, this would not compile.
    pub fn fields(&self) -> Fields {
        #[rustfmt::skip]
        let Self {
            lanes: _, spares: _, timing,
            requested_values, telemetry_request, telemetry_request_sent,
            lease_started_ms, lease_duration_ms, frame_started_ms,
            completion_mask, busy, faulted, stats, command_sequence,
            bidirectional, receiving, replies_waiting, replies, reply_stats,
        } = *self;
        Fields {
            timing,
            requested_values,
            telemetry_request,
            telemetry_request_sent,
            lease_started_ms,
            lease_duration_ms,
            frame_started_ms,
            completion_mask,
            busy,
            faulted,
            stats,
            command_sequence,
            bidirectional,
            receiving,
            replies_waiting,
            replies,
            reply_stats,
        }
    }

    pub fn hardware(&self) -> &L {
        &self.lanes
    }

    pub fn hardware_mut(&mut self) -> &mut L {
        &mut self.lanes
    }

    /// A lane's spare. Between two calls there is always one.
    pub fn spare(&self, lane: usize) -> &L::Buffer {
        self.spares[lane].as_deref().expect("no buffer is lost")
    }

    pub fn spare_mut(&mut self, lane: usize) -> &mut L::Buffer {
        self.spares[lane].as_deref_mut().expect("no buffer is lost")
    }

    pub fn set_stats(&mut self, stats: DshotStats) {
        self.stats = stats;
    }

    pub fn set_reply_stats(&mut self, reply_stats: DshotReplyStats) {
        self.reply_stats = reply_stats;
    }
}
