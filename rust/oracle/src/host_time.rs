//! The host time that `host_time_ns` of timing.rs gives in place of the system clock.
//! The board sets it before each call, so that one value holds for the whole call.

use std::cell::Cell;

use crate::fields;

thread_local! {
    static HOST_TIME_NS: Cell<i128> = const { Cell::new(0) };
}

/// Sets the host time of this thread from the board's two host fields.
pub(crate) fn set(seconds: u64, nanoseconds: u32) {
    HOST_TIME_NS.set(fields::nanoseconds(seconds, nanoseconds));
}

/// The host time in nanoseconds.
pub(crate) fn host_time_ns() -> i128 {
    HOST_TIME_NS.get()
}
