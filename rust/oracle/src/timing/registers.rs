//! Addresses of the registers, from the offsets in timing.rs. A register has four bytes, most significant first.

use super::*;

/// The number of channels.
pub const CHANNELS: usize = TIMER_CHANNELS;
/// The first address that is refused.
pub const SIZE: u16 = PEC_TIMING_SIZE as u16;

pub const IDENTITY: u16 = address(TIMER_ID);
pub const ENABLE: u16 = address(TIMER_ENABLE);
pub const ACKNOWLEDGE: u16 = address(TIMER_ACK);
pub const CLOCK_CONTROL: u16 = address(RTC_CTRL);
pub const CLOCK_STATUS: u16 = address(RTC_STATUS);
pub const SECONDS_LOW: u16 = address(RTC_SECONDS_LO);
pub const SECONDS_HIGH: u16 = address(RTC_SECONDS_HI);
pub const SUBSECOND: u16 = address(RTC_SUBSEC);
pub const ALARM_LOW: u16 = address(RTC_ALARM_LO);
pub const ALARM_HIGH: u16 = address(RTC_ALARM_HI);
pub const ALARM_ENABLE: u16 = address(RTC_IRQ_CTRL);
pub const ALARM_ACKNOWLEDGE: u16 = address(RTC_ACK);

/// The registers of a channel.
pub mod channel {
    use super::super::*;

    pub const CONTROL: u32 = TIMER_CTRL;
    pub const COUNT_LOW: u32 = TIMER_COUNT_LO;
    pub const COUNT_HIGH: u32 = TIMER_COUNT_HI;
    pub const COMPARE_LOW: u32 = TIMER_COMPARE_LO;
    pub const COMPARE_HIGH: u32 = TIMER_COMPARE_HI;
    pub const RELOAD_LOW: u32 = TIMER_RELOAD_LO;
    pub const RELOAD_HIGH: u32 = TIMER_RELOAD_HI;
    pub const PRESCALER: u32 = TIMER_PRESCALER;
}

/// The address of a channel's register.
pub const fn of_channel(number: usize, register: u32) -> u16 {
    address(TIMER_CHANNEL_BASE + number as u32 * TIMER_CHANNEL_STRIDE + register)
}

// Document 01: offset = address + 0x180.
const fn address(offset: u32) -> u16 {
    (offset - 0x180) as u16
}
