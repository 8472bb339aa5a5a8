//! timing.rs, built once for each rate from one text, in which build.rs has replaced `host_time_ns` and the import of
//! `MASTER_CLOCK`: each build has a `sys` of its own. The child modules reach its private items.

use crate::fields::Fields;

/// The timing device and its state as one component of the board: what each of the three builds gives. A board is made
/// for one of them, so nothing is chosen while it runs.
pub trait Timing: Sized {
    /// Cycles a second, the build's `MASTER_CLOCK`.
    const RATE: u32;

    /// The device as the Rust makes it.
    fn fresh() -> Self;
    /// The device with the given fields, which must be sound and of this rate.
    fn from_fields(fields: &Fields) -> Self;
    /// Writes the device's fields into `fields`. A value too wide for its field is an error of this crate.
    fn store(&self, fields: &mut Fields);
    fn read(&mut self, address: u16) -> u8;
    fn write(&mut self, address: u16, byte: u8);
    fn advance(&mut self, cycles: u64);
    /// The line after an advance of a copy of the state.
    fn line_after(&self, cycles: u64) -> bool;
    fn irq_asserted(&self) -> bool;
    fn cycles_until_irq(&self) -> Option<u64>;
}

// The builds, named by their millions of cycles a second.
pub use at_12_000_000::access::TimingDevice as At12;
pub use at_1_000_000::access::TimingDevice as At1;
pub use at_48_000_000::access::TimingDevice as At48;

#[path = "timing"]
mod at_1_000_000 {
    mod sys {
        pub const MASTER_CLOCK: u32 = calls::RATES[0];
    }
    include!(concat!(env!("OUT_DIR"), "/timing.rs"));

    #[warn(dead_code, unused_imports)]
    pub(crate) mod access;
}

#[path = "timing"]
mod at_12_000_000 {
    mod sys {
        pub const MASTER_CLOCK: u32 = calls::RATES[1];
    }
    include!(concat!(env!("OUT_DIR"), "/timing.rs"));

    #[warn(dead_code, unused_imports)]
    pub(crate) mod access;
}

#[path = "timing"]
mod at_48_000_000 {
    mod sys {
        pub const MASTER_CLOCK: u32 = calls::RATES[2];
    }
    include!(concat!(env!("OUT_DIR"), "/timing.rs"));

    #[warn(dead_code, unused_imports)]
    pub(crate) mod access;
    /// The addresses are the same in each build.
    #[warn(dead_code, unused_imports)]
    pub mod registers;
}

pub use at_48_000_000::registers;
