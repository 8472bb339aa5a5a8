//! Boards whose four channels have given settings, made by calls or as fields.

use calls::{Call, LINE_SOURCE};

use crate::fields::{Channel, Fields};
use crate::registers::{self, CHANNELS};
use crate::writes::{byte, set_channel};

/// A board that is fresh except for its channels and its timer enable.
pub struct Start {
    pub channels: [Channel; CHANNELS],
    pub timer_enable: u8,
}

impl Start {
    /// The calls that make the board from a fresh one. They advance it, so its clock differs from that of `fields`.
    pub fn calls(&self) -> Vec<Call> {
        let mut calls = Vec::new();
        for (number, channel) in self.channels.iter().enumerate() {
            calls.extend(set_channel(number, channel));
        }
        calls.push(byte(registers::ENABLE + 3, self.timer_enable));
        calls
    }

    /// The fields of the board. Where its line is high, source 3 has risen.
    pub fn fields(&self) -> Fields {
        let mut fields = Fields {
            channels: self.channels,
            timer_enable: self.timer_enable,
            ..Fields::fresh()
        };
        let source = u16::from(fields.line()) << LINE_SOURCE;
        (fields.controller_pending, fields.controller_levels) = (source, source);
        fields
    }
}
