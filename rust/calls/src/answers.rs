//! The answers in a buffer, one after another.

use std::error::Error;
use std::fmt;
use std::iter::FusedIterator;

use crate::{Answer, Refusal};

/// The answers in the bytes that a run wrote, each with its call's tag. These bytes are the buffer up to the outcome's
/// `answer_bytes`. Bytes that are not a whole answer give an error, and the iterator ends after it.
pub fn answers(buffer: &[u8]) -> Answers<'_> {
    Answers { buffer, at: 0 }
}

/// The iterator that [`answers`] gives.
#[must_use = "the answers are decoded as they are asked for"]
#[derive(Clone, Debug)]
pub struct Answers<'a> {
    buffer: &'a [u8],
    /// Where the next answer starts.
    at: usize,
}

impl Iterator for Answers<'_> {
    type Item = Result<(u8, Answer), DamagedAnswers>;

    fn next(&mut self) -> Option<Self::Item> {
        let at = self.at;
        if at == self.buffer.len() {
            return None;
        }
        Some(match Answer::decode(&self.buffer[at..]) {
            Ok((tag, answer, used)) => {
                self.at += used;
                Ok((tag, answer))
            }
            Err(fault) => {
                self.at = self.buffer.len();
                Err(DamagedAnswers { at, fault })
            }
        })
    }
}

impl FusedIterator for Answers<'_> {}

/// Bytes of a buffer that are not a whole answer.
#[derive(Clone, Copy, Debug, PartialEq, Eq)]
pub struct DamagedAnswers {
    /// Where the answer would start.
    pub at: usize,
    pub fault: Fault,
}

/// Why bytes are no answer.
#[derive(Clone, Copy, Debug, PartialEq, Eq)]
pub enum Fault {
    /// The form is wrong, as refusals 2 to 5 say of a call.
    Form(Refusal),
    /// A flag is neither 0 nor 1.
    InvalidFlag,
}

impl fmt::Display for Fault {
    fn fmt(&self, f: &mut fmt::Formatter<'_>) -> fmt::Result {
        match self {
            Self::Form(refusal) => refusal.fmt(f),
            Self::InvalidFlag => f.write_str("a flag is neither 0 nor 1"),
        }
    }
}

impl fmt::Display for DamagedAnswers {
    fn fmt(&self, f: &mut fmt::Formatter<'_>) -> fmt::Result {
        write!(f, "no answer at byte {}: {}", self.at, self.fault)
    }
}

impl Error for Fault {}

impl Error for DamagedAnswers {}
