//! The two replacements in timing.rs: the body of `host_time_ns` becomes the board's host time, and `MASTER_CLOCK`
//! comes from the module that the text is built in, so that one text is built for each rate. build.rs makes them; the
//! tests check that they are refused where the text is missing or doubled.

/// A piece of timing.rs, to the letter, and its replacement.
pub struct Replacement {
    pub what: &'static str,
    pub original: &'static str,
    pub replaced: &'static str,
}

pub const REPLACEMENTS: [Replacement; 2] = [
    Replacement {
        what: "the body of host_time_ns",
        original: "    fn host_time_ns() -> i128 {
        SystemTime::now()
            .duration_since(UNIX_EPOCH)
            .map(|duration| duration.as_nanos().min(i128::MAX as u128) as i128)
            .unwrap_or(0)
    }
",
        replaced: "    fn host_time_ns() -> i128 {
        crate::host_time::host_time_ns()
    }
",
    },
    Replacement {
        what: "the import of MASTER_CLOCK",
        original: "use crate::sys::MASTER_CLOCK;\n",
        replaced: "use self::sys::MASTER_CLOCK;\n",
    },
];

/// The text of timing.rs with both replaced; an error where one is not there exactly once.
pub fn replace(text: &str) -> Result<String, String> {
    let mut text = text.to_string();
    for Replacement {
        what,
        original,
        replaced,
    } in REPLACEMENTS
    {
        text = match text.matches(original).count() {
            1 => text.replacen(original, replaced, 1),
            count => return Err(format!("{what} must stand once, found {count} times")),
        };
    }
    Ok(text)
}
