//! The dispatcher above the controller: S-3's rule for fair turns, written a second time. The Rust has no dispatcher.

/// The number that a fresh dispatcher remembers, which is the highest of a source.
pub const FRESH: u8 = 15;

/// What a turn leaves and gives.
#[derive(Clone, Copy, Debug, PartialEq, Eq)]
pub struct Turn {
    /// Pending, enable and levels after it.
    pub words: [u16; 3],
    /// The source that it serves.
    pub served: Option<u8>,
    /// The number to remember.
    pub remembered: u8,
}

/// One turn on pending, enable and levels, after a remembered number. The candidates are the sixteen sources, starting
/// after that number and going round, so its own comes last.
pub fn turn([pending, enable, levels]: [u16; 3], last: u8) -> Turn {
    let last = if last > FRESH { FRESH } else { last };
    for later in 1..=16 {
        let number = (last + later) % 16;
        let bit = 1 << number;
        if pending & bit != 0 && enable & bit != 0 {
            return Turn {
                words: [pending & !bit, enable, levels],
                served: Some(number),
                remembered: number,
            };
        }
    }
    Turn {
        words: [pending, enable, levels],
        served: None,
        remembered: last,
    }
}
