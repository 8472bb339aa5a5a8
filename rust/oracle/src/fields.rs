//! Every field of the board, first the rate and then document 01's in their order, and what document 01 says of them:
//! sound, the line and the time. Written from that document, not from the Rust.

use calls::{DEFAULT_RATE, NANOSECONDS_PER_SECOND, RATES};

/// One channel.
#[derive(Clone, Copy, Debug, Default, PartialEq, Eq)]
pub struct Channel {
    pub control: u8,
    pub counter: u64,
    pub compare: u64,
    pub reload: u64,
    pub prescaler: u32,
    pub phase: u32,
    pub pending: bool,
    pub armed: bool,
}

impl Channel {
    /// Control bits 0 and 1.
    pub fn mode(&self) -> u8 {
        self.control % 4
    }

    /// Control bit 2.
    pub fn enabled(&self) -> bool {
        self.control / 4 % 2 == 1
    }

    /// Control bit 3.
    pub fn interrupt_enabled(&self) -> bool {
        self.control / 8 % 2 == 1
    }
}

/// A latch: whether it is held, and its value. An empty one of a sound board holds 0.
#[derive(Clone, Copy, Debug, Default, PartialEq, Eq)]
pub struct Latch {
    pub held: bool,
    pub value: u32,
}

impl Latch {
    /// The latch of the Rust.
    pub(crate) fn word(self) -> Option<u32> {
        self.held.then_some(self.value)
    }

    /// The latch from that of the Rust.
    pub(crate) fn from_word(word: Option<u32>) -> Self {
        Self {
            held: word.is_some(),
            value: word.unwrap_or(0),
        }
    }
}

/// The fields of a board, sound or not.
#[derive(Clone, Copy, Debug, PartialEq, Eq)]
pub struct Fields {
    /// Cycles a second, which S-7 adds: document 01's F.
    pub rate: u32,
    pub channels: [Channel; 4],
    pub timer_enable: u8,
    pub clock_control: u8,
    pub seconds: u64,
    pub subsecond: u32,
    pub offset_negative: bool,
    pub offset_seconds: u64,
    pub offset_nanoseconds: u32,
    pub alarm_enable: u8,
    pub alarm: u64,
    pub alarm_pending: bool,
    pub alarm_armed: bool,
    pub seconds_shadow: u64,
    pub seconds_mask: u8,
    pub poll: u32,
    pub alarm_shadow: u64,
    pub alarm_mask: u8,
    pub host_seconds: u64,
    pub host_nanoseconds: u32,
    pub count_latches: [Latch; 4],
    pub clock_low_latch: Latch,
    pub clock_high_latch: Latch,
    pub controller_pending: u16,
    pub controller_enable: u16,
    pub controller_levels: u16,
}

impl Fields {
    /// Document 01's fresh board: everything zero except clock control 1.
    pub fn fresh() -> Self {
        Self::fresh_at(DEFAULT_RATE)
    }

    /// The same at a rate, one of the three or not.
    pub fn fresh_at(rate: u32) -> Self {
        Self {
            rate,
            channels: Default::default(),
            timer_enable: 0,
            clock_control: 1,
            seconds: 0,
            subsecond: 0,
            offset_negative: false,
            offset_seconds: 0,
            offset_nanoseconds: 0,
            alarm_enable: 0,
            alarm: 0,
            alarm_pending: false,
            alarm_armed: false,
            seconds_shadow: 0,
            seconds_mask: 0,
            poll: 0,
            alarm_shadow: 0,
            alarm_mask: 0,
            host_seconds: 0,
            host_nanoseconds: 0,
            count_latches: Default::default(),
            clock_low_latch: Latch::default(),
            clock_high_latch: Latch::default(),
            controller_pending: 0,
            controller_enable: 0,
            controller_levels: 0,
        }
    }

    /// Cycles from one poll of an alarm on host time to the next: a thousandth of the rate.
    pub fn poll_limit(&self) -> u32 {
        self.rate / 1_000
    }

    /// A channel runs if it is enabled and its bit in timer enable is set.
    pub fn runs(&self, number: usize) -> bool {
        self.channels[number].enabled() && self.timer_enable >> number & 1 == 1
    }

    /// Clock control bit 0.
    pub fn clock_enabled(&self) -> bool {
        self.clock_control % 2 == 1
    }

    /// Clock control bit 2.
    pub fn realtime(&self) -> bool {
        self.clock_control / 4 % 2 == 1
    }

    /// Document 01's "the clock runs from host time".
    pub fn runs_from_host_time(&self) -> bool {
        self.clock_enabled() && self.realtime()
    }

    /// The offset as one signed number of nanoseconds.
    pub fn offset_ns(&self) -> i128 {
        let magnitude = nanoseconds(self.offset_seconds, self.offset_nanoseconds);
        if self.offset_negative {
            -magnitude
        } else {
            magnitude
        }
    }

    /// The host time in nanoseconds.
    pub fn host_ns(&self) -> i128 {
        nanoseconds(self.host_seconds, self.host_nanoseconds)
    }

    /// Document 01's time in nanoseconds.
    pub fn time_ns(&self) -> i128 {
        if self.runs_from_host_time() {
            (self.host_ns() + self.offset_ns()).max(0)
        } else {
            let fraction = u64::from(self.subsecond) * u64::from(NANOSECONDS_PER_SECOND) / u64::from(self.rate);
            nanoseconds(self.seconds, 0) + i128::from(fraction)
        }
    }

    /// The seconds of that time, capped at 2^64 - 1.
    pub fn time_seconds(&self) -> u64 {
        u64::try_from(self.time_ns() / i128::from(NANOSECONDS_PER_SECOND)).unwrap_or(u64::MAX)
    }

    /// Document 01's line: true if it is high.
    pub fn line(&self) -> bool {
        self.channels
            .iter()
            .any(|channel| channel.pending && channel.interrupt_enabled())
            || self.alarm_pending && self.alarm_enable == 1
    }

    /// Document 01's sound, clause by clause, and S-7's: the rate is one of the three.
    pub fn sound(&self) -> bool {
        let channels = self
            .channels
            .iter()
            .all(|channel| channel.control < 16 && u64::from(channel.phase) < u64::from(channel.prescaler) + 1);
        let negative_zero = self.offset_negative && self.offset_seconds == 0 && self.offset_nanoseconds == 0;
        let alarm_overdue =
            self.alarm_armed && self.clock_enabled() && !self.realtime() && self.seconds >= self.alarm;
        let latches = self
            .count_latches
            .iter()
            .chain([&self.clock_low_latch, &self.clock_high_latch]);
        RATES.contains(&self.rate)
            && channels
            && self.timer_enable < 16
            && self.clock_control < 8
            && self.alarm_enable < 2
            && self.subsecond < self.rate
            && self.offset_nanoseconds < NANOSECONDS_PER_SECOND
            && self.host_nanoseconds < NANOSECONDS_PER_SECOND
            && !negative_zero
            && self.seconds_mask < 255
            && self.alarm_mask < 255
            && self.poll < self.poll_limit()
            && !(self.alarm_pending && self.alarm_armed)
            && !alarm_overdue
            && (self.controller_levels >> 3 & 1 == 1) == self.line()
            && latches.into_iter().all(|latch| latch.held || latch.value == 0)
    }
}

/// A time in nanoseconds.
pub(crate) fn nanoseconds(seconds: u64, nanoseconds: u32) -> i128 {
    i128::from(seconds) * i128::from(NANOSECONDS_PER_SECOND) + i128::from(nanoseconds)
}
