//! The two replacements in timing.rs change nothing else, and are refused where they must be; and the three builds of
//! the text have the three rates.

use oracle::timing::{At1, At12, At48, Timing};

#[path = "../../src/replacement.rs"]
mod replacement;

use crate::support::RATES;
use replacement::{replace, REPLACEMENTS};

pub const TIMING: &str = include_str!("../../original/timing.rs");

#[test]
fn only_the_body_of_host_time_and_the_import_of_the_rate_are_replaced() {
    let replaced = replace(TIMING).unwrap();
    let [host_time, rate] = REPLACEMENTS;
    // The import comes first.
    let (before, after) = TIMING.split_once(rate.original).unwrap();
    let (between, after) = after.split_once(host_time.original).unwrap();
    let expected = [before, rate.replaced, between, host_time.replaced, after];
    assert_eq!(replaced, expected.concat());
    assert!(!replaced.contains("SystemTime::now") && !replaced.contains("crate::sys"));
}

#[test]
fn a_missing_or_doubled_piece_is_refused() {
    for (piece, part, changed) in [
        ("host_time_ns", "duration.as_nanos()", "duration.as_micros()"),
        ("MASTER_CLOCK", "use crate::sys::MASTER_CLOCK;", "use crate::sys::*;"),
    ] {
        let missing = replace(&TIMING.replace(part, changed)).unwrap_err();
        assert!(
            missing.contains(piece) && missing.contains("found 0 times"),
            "{missing}"
        );
    }
    for replacement in REPLACEMENTS {
        let doubled = replace(&format!("{TIMING}{}", replacement.original)).unwrap_err();
        assert!(
            doubled.contains(replacement.what) && doubled.contains("found 2 times"),
            "{doubled}"
        );
    }
}

#[test]
fn the_three_builds_have_the_three_rates() {
    assert_eq!([At1::RATE, At12::RATE, At48::RATE], RATES);
    assert_eq!((calls::RATES, calls::DEFAULT_RATE), (RATES, 48_000_000));
}
