//! The proved PeC board for Rust programs.
//!
//! The functions here call the static library `libpec.a`, which `bin/staticlib` proves and writes from crates/pec.
//! Each is safe: the library's contracts ask nothing of their callers, and it keeps nothing between calls. A call list
//! and its answers are bytes that the caller lends. The types of the crate rust/calls, which this crate exports too,
//! make and read them.
//!
//! - [`run`] runs a list over a fresh board, and [`run_at`] over one of another rate.
//! - A [`Board`], at any of the rates, goes on from list to list. Its image keeps it while no program runs.
//! - [`Board::preview`] says for many totals of cycles whether its line would be high after each.
//! - [`move_forward`] and [`move_back`] move an image from one [`Form`] to the other. Images of the old form, which has
//!   no rate, are read too.
//! - A [`Controller`] is the interrupt controller by itself. A [`Dispatcher`] above it serves its sources in turn.
//!
//! ```
//! use pec::{answers, list_of, Answer, Call, Refusal};
//!
//! // The register byte at address 0x83, an advance of one cycle, the controller's output, and a cut call.
//! let mut list = list_of(&[Call::Read { address: 0x83 }, Call::Advance { cycles: 1 }, Call::Output]);
//! list.push(0xFF);
//! let mut buffer = [0; 128];
//! let outcome = pec::run(&list, &mut buffer);
//! assert_eq!((outcome.calls, outcome.list_bytes), (3, 19));
//! assert_eq!(outcome.refusal, Some(Refusal::TruncatedHeader));
//! let given = answers(&buffer[..outcome.answer_bytes]).collect::<Result<Vec<_>, _>>()?;
//! let advance = Answer::Advance { line: false, matches: [0; 4] };
//! let output = Answer::Output { valid: false, number: 0 };
//! assert_eq!(given, [(0x02, Answer::Byte(1)), (0x04, advance), (0x0A, output)]);
//! # Ok::<(), pec::DamagedAnswers>(())
//! ```

mod board;
mod controller;
mod dispatcher;
mod parked;

pub use board::Board;
pub use calls::{
    answers, list_of, Answer, Answers, Call, DamagedAnswers, Fault, Outcome, Refusal, DEFAULT_RATE, RATES,
};
pub use controller::{Controller, IrqOutput};
pub use dispatcher::Dispatcher;
pub use parked::{
    image_form, image_refusal, move_back, move_forward, park_fresh, park_fresh_at, preview_parked, run_parked, Form,
    IMAGE_SIZE, OLD_IMAGE_SIZE,
};

// A slice is passed as its pointer and its length. No pointer may be null, not even one with length 0. The pointer of a
// Rust slice never is, even of an empty one.
unsafe extern "C" {
    fn pec_run(
        list: *const u8,
        list_length: usize,
        answers: *mut u8,
        answers_length: usize,
        calls: *mut usize,
        used: *mut usize,
        written: *mut usize,
    ) -> u8;
    fn pec_run_repeated(
        first: *const u8,
        first_length: usize,
        list: *const u8,
        list_length: usize,
        times: u64,
        answers: *mut u8,
        answers_length: usize,
        calls: *mut usize,
        used: *mut usize,
        written: *mut usize,
    ) -> u8;
    fn pec_run_at(
        rate: u32,
        list: *const u8,
        list_length: usize,
        answers: *mut u8,
        answers_length: usize,
        calls: *mut usize,
        used: *mut usize,
        written: *mut usize,
    ) -> u8;
    fn pec_run_repeated_at(
        rate: u32,
        first: *const u8,
        first_length: usize,
        list: *const u8,
        list_length: usize,
        times: u64,
        answers: *mut u8,
        answers_length: usize,
        calls: *mut usize,
        used: *mut usize,
        written: *mut usize,
    ) -> u8;
    fn pec_listing(
        answers: *const u8,
        answers_length: usize,
        calls: usize,
        refusal: u8,
        used: usize,
        text: *mut u8,
        text_length: usize,
    ) -> usize;
}

/// The refusal with the number that the library returns, 0 for none.
fn refusal_of(number: u8) -> Option<Refusal> {
    (number != 0).then(|| Refusal::from_number(number).expect("the library's refusals are 1 to 16"))
}

/// The number of bytes that a call of the library wrote into a buffer, or its refusal, with which it writes none.
/// `write` returns the refusal's number, 0 for none.
fn written_of(write: impl FnOnce(&mut usize) -> u8) -> Result<usize, Refusal> {
    let mut written = usize::MAX;
    match refusal_of(write(&mut written)) {
        None => Ok(written),
        Some(refusal) => {
            assert_eq!(written, 0, "the library writes nothing with a refusal");
            Err(refusal)
        }
    }
}

/// The outcome of a call of the library. `run` writes the counts of calls, list bytes and answer bytes, and returns the
/// refusal's number, 0 for none.
fn outcome_of(run: impl FnOnce(&mut usize, &mut usize, &mut usize) -> u8) -> Outcome {
    let mut outcome = Outcome::default();
    let number = run(&mut outcome.calls, &mut outcome.list_bytes, &mut outcome.answer_bytes);
    outcome.refusal = refusal_of(number);
    outcome
}

/// Runs a list over a fresh board, at a rate where one is given. `behind` is a list that is run first, and how many
/// times `list` is run after it; without it `list` is run once. Each of the four cases is a function of the library.
fn run_fresh(rate: Option<u32>, behind: Option<(&[u8], u64)>, list: &[u8], answers: &mut [u8]) -> Outcome {
    let (first, times) = behind.unwrap_or_default();
    let (head, before) = (first.as_ptr(), first.len());
    let (at, length) = (list.as_ptr(), list.len());
    let (to, room) = (answers.as_mut_ptr(), answers.len());
    // SAFETY: the pointers and lengths are those of slices and numbers that live through the call. The lists are only
    // read, and none of what is written overlaps anything else that is lent.
    outcome_of(|calls, used, written| unsafe {
        match (rate, behind) {
            (None, None) => pec_run(at, length, to, room, calls, used, written),
            (Some(rate), None) => pec_run_at(rate, at, length, to, room, calls, used, written),
            (None, Some(_)) => pec_run_repeated(head, before, at, length, times, to, room, calls, used, written),
            (Some(rate), Some(_)) => {
                pec_run_repeated_at(rate, head, before, at, length, times, to, room, calls, used, written)
            }
        }
    })
}

/// Runs a list over a fresh board. The buffer then holds the answers of the calls done, from its first byte, and
/// after them its old bytes.
pub fn run(list: &[u8], answers: &mut [u8]) -> Outcome {
    run_fresh(None, None, list, answers)
}

/// Runs `first` over a fresh board and then `list` `times` times, each time over the board that the run before it left,
/// whether that was refused or not. Each run writes its answers from the buffer's first byte; the outcome is the last
/// run's.
///
/// With `times` 1 and a list that reads, this shows all that a run left of its board.
pub fn run_repeated(first: &[u8], list: &[u8], times: u64, answers: &mut [u8]) -> Outcome {
    run_fresh(None, Some((first, times)), list, answers)
}

/// Runs a list over a fresh board at a rate, one of [`RATES`]. A second of its clock is that many cycles, and two polls
/// of an alarm on host time are a thousandth of that apart. [`run`] is the same at [`DEFAULT_RATE`].
///
/// Another rate is refused with [`Refusal::UnsupportedRate`], before all else: nothing is done, and the buffer stays.
///
/// ```
/// use pec::{list_of, run_at, Call, Outcome, Refusal, RATES};
///
/// // A second of cycles, and the clock's seconds, whose lowest byte is at address 0x08B.
/// for rate in RATES {
///     let list = list_of(&[Call::Advance { cycles: rate.into() }, Call::Read { address: 0x08B }]);
///     let mut buffer = [0; 72];
///     assert_eq!(run_at(rate, &list, &mut buffer).refusal, None);
///     assert_eq!(buffer[68..], [2, 0, 1, 1]);
/// }
/// let refused = Outcome { refusal: Some(Refusal::UnsupportedRate), ..Outcome::default() };
/// assert_eq!(run_at(24_000_000, &[], &mut []), refused);
/// ```
pub fn run_at(rate: u32, list: &[u8], answers: &mut [u8]) -> Outcome {
    run_fresh(Some(rate), None, list, answers)
}

/// As [`run_repeated`], over a fresh board at a rate; another rate is refused as by [`run_at`].
pub fn run_repeated_at(rate: u32, first: &[u8], list: &[u8], times: u64, answers: &mut [u8]) -> Outcome {
    run_fresh(Some(rate), Some((first, times)), list, answers)
}

/// The listing of a run, as `listrun` prints it: a line for each answer, its tag and value in hexadecimal, and a last
/// line with the calls done, the refusal's number and the list bytes used, in decimal. `answers` is what the run wrote:
/// the buffer up to the outcome's `answer_bytes`. Bytes at its end that are no whole answer are not listed.
///
/// ```
/// let list = pec::list_of(&[pec::Call::Skip, pec::Call::Source { number: 3, level: 0 }]);
/// let mut buffer = [0; 64];
/// let outcome = pec::run(&list, &mut buffer);
/// assert_eq!(pec::listing(&buffer[..outcome.answer_bytes], &outcome), "06 000000000000000000\nend 1 9 3\n");
/// ```
pub fn listing(answers: &[u8], outcome: &Outcome) -> String {
    // By the library's contract no listing is longer than this.
    let mut text = vec![0; 2 * answers.len() + 67];
    let (calls, used) = (outcome.calls, outcome.list_bytes);
    let refusal = outcome.refusal_number();
    // SAFETY: as in `run_fresh`; the answers are only read.
    let length = unsafe {
        pec_listing(
            answers.as_ptr(),
            answers.len(),
            calls,
            refusal,
            used,
            text.as_mut_ptr(),
            text.len(),
        )
    };
    text.truncate(length);
    String::from_utf8(text).expect("a listing is ASCII")
}

// The examples of this crate's README.md and of the repository's, compiled with the documentation tests, and run but for
// those that need a file.
#[cfg(doctest)]
#[doc = include_str!("../README.md")]
struct Readme;

#[cfg(doctest)]
#[doc = include_str!("../../../README.md")]
struct RepositoryReadme;
