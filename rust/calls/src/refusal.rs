//! The refusals: their numbers, and their meanings in words.

use std::error::Error;
use std::fmt;

/// Why something was refused: a run before the end of its list, a direct call, the making or parking of a board, the
/// reading or moving of an image, or a preview.
///
/// Numbers 1 to 11 are document 01's. The others come from requests: 12 from S-1, parked boards; 13 from S-2, skips
/// that get there; 14 from S-6, previews; 15 from S-7, three clock rates; 16 from S-8, parked boards with a rate. The
/// words in quotes come from the same places.
#[derive(Clone, Copy, Debug, PartialEq, Eq, PartialOrd, Ord, Hash)]
#[repr(u8)]
pub enum Refusal {
    /// 'Board not sound, nothing done'.
    UnsoundBoard = 1,
    /// 'One or two bytes left': fewer than a tag and a length.
    TruncatedHeader = 2,
    /// 'Unknown tag'.
    UnknownTag = 3,
    /// 'Wrong length': not that of the tag's value.
    WrongLength = 4,
    /// 'Value cut': fewer bytes are left than the length says.
    TruncatedValue = 5,
    /// Read or write: 'address ≥ 0x380'.
    AddressOutOfRange = 6,
    /// Host time: 'nanoseconds ≥ 10^9'.
    NanosecondsOutOfRange = 7,
    /// Source: 'number > 15'.
    SourceOutOfRange = 8,
    /// Source: 'number 3', which the board sets to the line.
    ReservedSource = 9,
    /// Source: 'level above 1'.
    LevelOutOfRange = 10,
    /// In a run: 'answer longer than the buffer's rest'. When a board is parked, an image moved or totals previewed: 'a
    /// short buffer', one with fewer bytes than the image has or than there are totals.
    BufferTooSmall = 11,
    /// An image that is read, run over, previewed or moved: 'a field missing, cut, out of order, of wrong length, a
    /// flag above 1, or bytes over', in both forms; for a move, also 'one already in the target form'.
    MalformedImage = 12,
    /// Skip: 'D too large for one skip', above 2^64 - 1 with the line low.
    DeadlineTooLarge = 13,
    /// Previews: 'the clock is enabled in realtime'.
    ClockInRealtime = 14,
    /// A fresh board, to be run or parked: 'another rate' than [`RATES`](crate::RATES). Parking an existing board does
    /// not give this refusal.
    UnsupportedRate = 15,
    /// 'Another rate moved back or parked in the old form', which has no rate: its board is at
    /// [`DEFAULT_RATE`](crate::DEFAULT_RATE).
    RateNeedsNewForm = 16,
}

impl Refusal {
    /// Every refusal, in the order of the numbers.
    pub const ALL: [Self; 16] = [
        Self::UnsoundBoard,
        Self::TruncatedHeader,
        Self::UnknownTag,
        Self::WrongLength,
        Self::TruncatedValue,
        Self::AddressOutOfRange,
        Self::NanosecondsOutOfRange,
        Self::SourceOutOfRange,
        Self::ReservedSource,
        Self::LevelOutOfRange,
        Self::BufferTooSmall,
        Self::MalformedImage,
        Self::DeadlineTooLarge,
        Self::ClockInRealtime,
        Self::UnsupportedRate,
        Self::RateNeedsNewForm,
    ];

    /// Its number, 1 to 16.
    pub fn number(self) -> u8 {
        self as u8
    }

    /// The refusal with a number; none for 0, which is no refusal, and for numbers above 16.
    pub fn from_number(number: u8) -> Option<Self> {
        let place = usize::from(number).checked_sub(1)?;
        Self::ALL.get(place).copied()
    }
}

impl fmt::Display for Refusal {
    fn fmt(&self, f: &mut fmt::Formatter<'_>) -> fmt::Result {
        f.write_str(match self {
            Self::UnsoundBoard => "the board is not sound",
            Self::TruncatedHeader => "one or two bytes are left, fewer than a tag and a length",
            Self::UnknownTag => "the tag is unknown",
            Self::WrongLength => "the length is not that of the tag",
            Self::TruncatedValue => "the value is cut",
            Self::AddressOutOfRange => "the address is 0x380 or above",
            Self::NanosecondsOutOfRange => "the nanoseconds are 1,000,000,000 or more",
            Self::SourceOutOfRange => "the source number is above 15",
            Self::ReservedSource => "source 3 is set from the line only",
            Self::LevelOutOfRange => "the level is above 1",
            Self::BufferTooSmall => "the buffer has no room for the answer, the image or the previews",
            Self::MalformedImage => "the image is malformed, or for a move already in the target form",
            Self::DeadlineTooLarge => "the deadline is above 2^64 - 1, too large for one skip",
            Self::ClockInRealtime => "the clock is enabled in realtime",
            Self::UnsupportedRate => "the rate is not 1,000,000, 12,000,000 or 48,000,000",
            Self::RateNeedsNewForm => "the old form has no rate, and the board is not at 48,000,000",
        })
    }
}

impl Error for Refusal {}
