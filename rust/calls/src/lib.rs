//! The calls, answers and refusals of the PeC board as types, and their bytes.
//!
//! "Document 01" in this crate is the definition of the board, 'The PeC board and its deadline'. A call list is bytes:
//! tag 1, length 2, value, for each call, all big-endian; an answer has its call's tag and the same form.
//!
//! ```
//! use calls::{answers, list_of, Answer, Call, Refusal};
//!
//! let list = list_of(&[Call::Write { address: 0x83, byte: 3 }, Call::Skip]);
//! assert_eq!(list, [3, 0, 3, 0, 0x83, 3, 6, 0, 0]);
//! assert_eq!(Call::decode(&list[6..]), Ok((Call::Skip, 3)));
//! assert_eq!(Call::decode(&list[..5]), Err(Refusal::TruncatedValue));
//! assert_eq!(Call::Read { address: 0x380 }.refusal(), Some(Refusal::AddressOutOfRange));
//!
//! // What a run with a timer due after 30 cycles would write for this list.
//! let buffer = [3, 0, 0, 6, 0, 9, 0, 0, 0, 0, 0, 0, 0, 30, 1];
//! for record in answers(&buffer) {
//!     match record? {
//!         (0x06, Answer::Skip { passed, line }) => assert_eq!((passed, line), (30, true)),
//!         (tag, answer) => assert_eq!((tag, answer), (0x03, Answer::Empty)),
//!     }
//! }
//! # Ok::<(), calls::DamagedAnswers>(())
//! ```

mod answers;
mod call;
mod refusal;

pub use answers::{answers, Answers, DamagedAnswers, Fault};
pub use call::{answer_length, list_of, tags, value_length, Answer, Call, HEADER_LENGTH, LINE_SOURCE};
pub use refusal::Refusal;

/// Nanoseconds in a second; a nanosecond field of document 01 is below it.
pub const NANOSECONDS_PER_SECOND: u32 = 1_000_000_000;

/// The rates of boards, in cycles a second: S-7's three. Document 01's F is the board's rate.
pub const RATES: [u32; 3] = [1_000_000, 12_000_000, DEFAULT_RATE];

/// The rate of a fresh board without a given rate, and of a board whose image has none (S-1's form).
pub const DEFAULT_RATE: u32 = 48_000_000;

/// The result of a run besides the board and the answers.
#[must_use = "a run may have been refused: see `refusal`"]
#[derive(Clone, Copy, Debug, Default, PartialEq, Eq)]
pub struct Outcome {
    /// The calls done.
    pub calls: usize,
    /// The bytes of the list that they used.
    pub list_bytes: usize,
    /// The bytes of answers that they wrote, from the buffer's first byte on.
    pub answer_bytes: usize,
    /// The refusal that stopped the run; none where every call was done.
    pub refusal: Option<Refusal>,
}

impl Outcome {
    /// The refusal's number, 0 for none.
    pub fn refusal_number(&self) -> u8 {
        self.refusal.map_or(0, Refusal::number)
    }

    /// The outcome of a list in two pieces: `self` is that of the first, which was not refused, and `rest` that of the
    /// second, run into the remaining buffer.
    pub fn then(self, rest: Self) -> Self {
        Self {
            calls: self.calls + rest.calls,
            list_bytes: self.list_bytes + rest.list_bytes,
            answer_bytes: self.answer_bytes + rest.answer_bytes,
            refusal: rest.refusal,
        }
    }
}
