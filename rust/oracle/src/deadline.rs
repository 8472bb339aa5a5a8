//! Document 01's exact deadline D, written from its sentences; the Rust has only the 64-bit figure.

use crate::fields::{Channel, Fields};

/// Document 01's D: the smallest of the channels' deadlines and the clock's, or none.
pub fn exact(fields: &Fields) -> Option<u128> {
    (0..4)
        .filter(|&number| fields.runs(number))
        .filter_map(|number| of_channel(&fields.channels[number]))
        .chain(of_clock(fields))
        .min()
}

/// The deadline of a channel that runs.
fn of_channel(channel: &Channel) -> Option<u128> {
    if !channel.interrupt_enabled() || channel.pending {
        return None;
    }
    let ticks = ticks_to_go(channel)?;
    let divisor = u128::from(channel.prescaler) + 1;
    Some(divisor - u128::from(channel.phase) + (ticks - 1) * divisor)
}

/// Document 01's N.
fn ticks_to_go(channel: &Channel) -> Option<u128> {
    let counter = u128::from(channel.counter);
    let compare = u128::from(channel.compare);
    match channel.mode() {
        0 | 1 if compare > counter => Some(compare - counter),
        0 | 1 => Some(1),
        // A distance of 0 means 2^64, so compare <= counter goes round once.
        2 if channel.armed && compare > counter => Some(compare - counter),
        2 if channel.armed => Some((1 << 64) + compare - counter),
        _ => None,
    }
}

/// The deadline of the clock.
fn of_clock(fields: &Fields) -> Option<u128> {
    let counts = fields.clock_enabled() && !fields.realtime();
    if !counts || fields.alarm_enable != 1 || !fields.alarm_armed || fields.alarm_pending {
        return None;
    }
    if fields.alarm <= fields.seconds {
        return Some(1);
    }
    let seconds = u128::from(fields.alarm - fields.seconds);
    Some(seconds * u128::from(fields.rate) - u128::from(fields.subsecond))
}
