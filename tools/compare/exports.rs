//! The archive's functions, as crates/kuzhenga exports them. Nothing checks these lines against the
//! library. So they stand here only once, for the comparison and for the bench.

extern "C" {
    pub fn kuzhenga_reply_transitions_for(value: u32) -> u32;
    pub fn kuzhenga_reply_transitions(
        samples: *const u16,
        n: usize,
        pin_mask: u32,
        word: *mut u16,
        two: usize,
    ) -> u32;
    pub fn kuzhenga_decode_gcr(transitions: u32, value: *mut u16, one: usize) -> u32;
    pub fn kuzhenga_reply_from_value(
        value: u32,
        extended_telemetry: u32,
        reading: *mut u16,
        three: usize,
    ) -> u32;
    pub fn kuzhenga_decode_sampled_reply(
        samples: *const u16,
        n: usize,
        pin_mask: u32,
        extended_telemetry: u32,
        reading: *mut u16,
        three: usize,
    ) -> u32;
    pub fn kuzhenga_value_period(value: u32, period: *mut u16, two: usize) -> u32;
    pub fn kuzhenga_period_value(period_us: u32, value: *mut u16, one: usize) -> u32;
    pub fn kuzhenga_simulate_reply(
        samples: *mut u16,
        n: usize,
        value: u32,
        lead: usize,
        pin_mask: u32,
    ) -> u32;

    pub fn kuzhenga_packet_from_value(value: u32, telemetry: u32) -> u32;
    pub fn kuzhenga_packet_from_value_bidirectional(value: u32, telemetry: u32) -> u32;
    pub fn kuzhenga_packet_try_from_value(
        value: u32,
        telemetry: u32,
        packet: *mut u16,
        one: usize,
    ) -> u32;
    pub fn kuzhenga_four_motor_packets(
        values: *const u16,
        four: usize,
        telemetry_lane: usize,
        packets: *mut u16,
        four_packets: usize,
    ) -> u32;
    pub fn kuzhenga_four_motor_bidirectional_packets(
        values: *const u16,
        four: usize,
        telemetry_lane: usize,
        packets: *mut u16,
        four_packets: usize,
    ) -> u32;
    pub fn kuzhenga_timing_from_clocks(
        timer_hz: u32,
        bitrate_hz: u32,
        timing: *mut u16,
        four: usize,
    ) -> u32;
    pub fn kuzhenga_duty_for_bit(
        timing: *const u16,
        four: usize,
        set: u32,
        duty: *mut u16,
        one: usize,
    ) -> u32;
    pub fn kuzhenga_encode_packet(
        packet: u32,
        max_duty: u32,
        output: *mut u16,
        twenty_two: usize,
    ) -> u32;
    pub fn kuzhenga_encode_compare_sequence(
        packet: u32,
        timing: *const u16,
        four: usize,
        first: *mut u16,
        one: usize,
        dma_output: *mut u16,
        sixteen: usize,
    ) -> u32;
    pub fn kuzhenga_throttle_to_dshot(value: u32) -> u32;
    pub fn kuzhenga_throttles_to_dshot(
        values: *const u16,
        four: usize,
        dshot_values: *mut u16,
        four_values: usize,
    ) -> u32;
    pub fn kuzhenga_command_spin_direction(reversed: u32, sequence: *mut u16, four: usize) -> u32;
    pub fn kuzhenga_command_next_value(
        sequence: *mut u16,
        four: usize,
        value: *mut u16,
        two: usize,
    ) -> u32;
    pub fn kuzhenga_command_lease_expired(started_ms: u64, duration_ms: u32, now_ms: u64) -> u32;
    pub fn kuzhenga_read_packet(packet: u32, frame: *mut u16, three: usize) -> u32;
    pub fn kuzhenga_read_compare_sequence(
        first: u32,
        dma_output: *const u16,
        sixteen: usize,
        timing: *const u16,
        four: usize,
        frame: *mut u16,
        three: usize,
    ) -> u32;
}
