//! Register writes as calls: a byte, a word of four bytes, two words; a channel, an alarm; both with a given deadline;
//! and a channel with given fields.

use calls::Call;

use crate::fields::Channel;
use crate::registers::{self, channel, of_channel};

pub fn byte(address: u16, byte: u8) -> Call {
    Call::Write { address, byte }
}

/// The four bytes of a register, the most significant first.
pub fn word(address: u16, value: u32) -> Vec<Call> {
    (address..)
        .zip(value.to_be_bytes())
        .map(|(address, value)| byte(address, value))
        .collect()
}

/// A 64-bit number in two registers, the high word first.
pub fn two_words(low: u16, high: u16, value: u64) -> Vec<Call> {
    [word(high, (value >> 32) as u32), word(low, value as u32)].concat()
}

/// The control, without the mode, of a channel that runs with its interrupt enabled.
pub const RUNNING: u8 = 12;
/// The control bit that, written, zeroes the counter and arms.
const RESET: u8 = 16;

/// Programs a channel, its control last.
pub fn program(number: usize, control: u8, prescaler: u32, compare: u64, reload: u64) -> Vec<Call> {
    let register = |register| of_channel(number, register);
    let mut calls = word(register(channel::PRESCALER), prescaler);
    for (low, high, value) in [
        (channel::RELOAD_LOW, channel::RELOAD_HIGH, reload),
        (channel::COMPARE_LOW, channel::COMPARE_HIGH, compare),
    ] {
        calls.extend(two_words(register(low), register(high), value));
    }
    calls.push(byte(register(channel::CONTROL) + 3, control));
    calls
}

/// Arms the alarm and enables its interrupt.
pub fn alarm(seconds: u64) -> Vec<Call> {
    let mut calls = two_words(registers::ALARM_LOW, registers::ALARM_HIGH, seconds);
    calls.push(byte(registers::ALARM_ENABLE + 3, 1));
    calls
}

/// Makes a channel the only one that runs, from 0 and with its interrupt enabled, due after exactly `deadline` cycles;
/// none where its mode and prescaler do not allow that. It advances the board by less than a tick.
pub fn channel_due(number: usize, mode: u8, prescaler: u32, deadline: u128) -> Option<Vec<Call>> {
    let divisor = u128::from(prescaler) + 1;
    let ticks = deadline.div_ceil(divisor);
    // For a free-running channel a compare of 0 means 2^64 ticks.
    let longest = if mode == 2 { 1 << 64 } else { u64::MAX.into() };
    if !(1..=longest).contains(&ticks) {
        return None;
    }
    let mut calls = program(number, mode | RUNNING | RESET, prescaler, ticks as u64, 0);
    calls.push(byte(registers::ENABLE + 3, 1 << number));
    calls.push(Call::Advance {
        cycles: (ticks * divisor - deadline) as u64,
    });
    Some(calls)
}

/// Sets a channel of a fresh board to these fields. It makes the channel the only selected one and advances it: a
/// free-running match makes it pending and disarms it, and cycles before its first tick make its phase.
pub fn set_channel(number: usize, wanted: &Channel) -> Vec<Call> {
    let register = |register| of_channel(number, register);
    let two = |low, high, value| two_words(register(low), register(high), value);
    let counter = |value| two(channel::COUNT_LOW, channel::COUNT_HIGH, value);
    let control = |value| byte(register(channel::CONTROL) + 3, value);
    let advance = |cycles| Call::Advance { cycles };
    let mut calls = two(channel::RELOAD_LOW, channel::RELOAD_HIGH, wanted.reload);
    calls.extend(two(channel::COMPARE_LOW, channel::COMPARE_HIGH, wanted.compare));
    calls.push(byte(registers::ENABLE + 3, 1 << number));
    if wanted.pending || !wanted.armed {
        calls.extend(counter(wanted.compare.wrapping_sub(1)));
        calls.extend([control(4 + 2), advance(1)]);
        if !wanted.pending {
            calls.push(byte(registers::ACKNOWLEDGE + 3, 1 << number));
        }
        if wanted.armed {
            calls.push(byte(register(channel::COMPARE_LOW) + 3, wanted.compare as u8));
        }
    }
    calls.extend(word(register(channel::PRESCALER), wanted.prescaler));
    calls.extend(counter(wanted.counter));
    if wanted.phase > 0 {
        calls.extend([control(4 | wanted.mode()), advance(wanted.phase.into())]);
    }
    calls.push(control(wanted.control));
    calls
}

/// Sets the alarm of a clock at a rate that stands at 0 and does not run from host time, due after exactly `deadline`
/// cycles. It advances the board by less than a second.
pub fn alarm_due(rate: u32, deadline: u128) -> Vec<Call> {
    let second = u128::from(rate);
    let seconds = deadline.div_ceil(second);
    let mut calls = alarm(seconds as u64);
    calls.push(Call::Advance {
        cycles: (seconds * second - deadline) as u64,
    });
    calls
}
