//! The proved board as a [`Runner`], at each rate.

use calls::{Outcome, DEFAULT_RATE, RATES};

use crate::list::{of_rate, Runner};

/// The runner at a rate, which is passed to the library; none for a rate other than the three.
pub fn runner_at(rate: u32) -> Option<Runner> {
    of_rate(rate, [at::<{ RATES[0] }>, at::<{ RATES[1] }>, at::<{ RATES[2] }>])
}

/// The same, but at the rate of a board without a given one the library is passed none.
pub fn runner(rate: u32) -> Option<Runner> {
    if rate == DEFAULT_RATE {
        Some(pec::run_repeated)
    } else {
        runner_at(rate)
    }
}

fn at<const RATE: u32>(first: &[u8], list: &[u8], times: u64, answers: &mut [u8]) -> Outcome {
    pec::run_repeated_at(RATE, first, list, times, answers)
}
