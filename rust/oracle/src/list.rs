//! The call list of document 01: runs a list on a board into an answer buffer.

use calls::{Answer, Call, Outcome, Refusal, HEADER_LENGTH, RATES};

use crate::board::{AnyBoard, BoardAt};
use crate::matches;
use crate::timing::{At1, At12, At48, Timing};

/// The tag of an advance.
const ADVANCE: u8 = 0x04;

/// Runs the list. The buffer then holds the answers from its first byte, and after them its old bytes. Each advance is
/// run by itself, and its counts are found from the channels before and after it.
pub fn run<T: Timing>(board: &mut BoardAt<T>, list: &[u8], answers: &mut [u8]) -> Outcome {
    let mut total = Outcome::default();
    loop {
        let rest = &list[total.list_bytes..];
        let room = &mut answers[total.answer_bytes..];
        let part = &rest[..part_length(rest)];
        let before = board.fields().channels;
        let outcome = run_uncounted(board, part, room);
        if part.first() == Some(&ADVANCE) && outcome.calls == 1 {
            let (tag, answer, used) = Answer::decode(room).expect("a run writes whole answers");
            matches::counted(answer, &before, &board.fields().channels).store(tag, &mut room[..used]);
        }
        total = total.then(outcome);
        if total.refusal.is_some() || total.list_bytes == list.len() {
            return total;
        }
    }
}

/// The length of a list's first piece: an advance, or the calls up to one. Calls are found by the lengths that they
/// give; a run of the piece ends at one whose length is wrong. Bytes that are no whole call belong to the last piece.
fn part_length(list: &[u8]) -> usize {
    let mut end = 0;
    while let Some(&[tag, high, low, ..]) = list.get(end..) {
        if tag == ADVANCE && end > 0 {
            return end;
        }
        end += HEADER_LENGTH + usize::from(u16::from_be_bytes([high, low]));
        if tag == ADVANCE && end <= list.len() {
            return end;
        }
    }
    list.len()
}

/// Runs the list with zeros in the place of an advance's counts. The Rust has no counts, so this is the run whose time
/// and instructions are measured. It is the only loop over the calls of a rate: beside a second one the compiler would
/// not inline the Rust into either, and the Rust would be measured at half its speed.
fn run_uncounted<T: Timing>(board: &mut BoardAt<T>, list: &[u8], answers: &mut [u8]) -> Outcome {
    let mut outcome = Outcome::default();
    let sound = board.sound();
    let BoardAt::Sound(devices) = board else {
        return refused(outcome, Refusal::UnsoundBoard);
    };
    if !sound {
        return refused(outcome, Refusal::UnsoundBoard);
    }
    while outcome.list_bytes < list.len() {
        let (call, used) = match Call::decode(&list[outcome.list_bytes..]) {
            Ok(decoded) => decoded,
            Err(refusal) => return refused(outcome, refusal),
        };
        let accepted = match devices.accept(call) {
            Ok(accepted) => accepted,
            Err(refusal) => return refused(outcome, refusal),
        };
        // An answer's length is known from the tag, so 11 is found before the call is carried out.
        let end = outcome.answer_bytes + call.answer_bytes();
        if end > answers.len() {
            return refused(outcome, Refusal::BufferTooSmall);
        }
        let answer = devices.carry_out(accepted);
        answer.store(call.tag(), &mut answers[outcome.answer_bytes..end]);
        outcome.calls += 1;
        outcome.list_bytes += used;
        outcome.answer_bytes = end;
    }
    outcome
}

/// Runs `first` over a fresh board and then `list` a number of times, each time over the board that the run before it
/// left. The outcome is the last run's.
pub type Runner = fn(&[u8], &[u8], u64, &mut [u8]) -> Outcome;

/// The runner of a board without a given rate.
pub fn run_repeated(first: &[u8], list: &[u8], times: u64, answers: &mut [u8]) -> Outcome {
    repeated::<At48>(first, list, times, answers)
}

/// The runner at a rate; none for a rate other than the three.
pub fn runner(rate: u32) -> Option<Runner> {
    of_rate(rate, [repeated::<At1>, repeated::<At12>, repeated::<At48>])
}

/// The same with zeros in the place of an advance's counts: what is measured.
pub fn uncounted_runner(rate: u32) -> Option<Runner> {
    of_rate(
        rate,
        [
            run_repeated_uncounted::<At1>,
            run_repeated_uncounted::<At12>,
            run_repeated_uncounted::<At48>,
        ],
    )
}

/// The runner at a rate, from those of the three.
pub(crate) fn of_rate(rate: u32, runners: [Runner; 3]) -> Option<Runner> {
    RATES
        .into_iter()
        .zip(runners)
        .find_map(|(of, runner)| (of == rate).then_some(runner))
}

fn repeated<T: Timing>(first: &[u8], list: &[u8], times: u64, answers: &mut [u8]) -> Outcome {
    repeat::<T>(run, first, list, times, answers)
}

fn run_repeated_uncounted<T: Timing>(first: &[u8], list: &[u8], times: u64, answers: &mut [u8]) -> Outcome {
    repeat::<T>(run_uncounted, first, list, times, answers)
}

fn repeat<T: Timing>(
    run: impl Fn(&mut BoardAt<T>, &[u8], &mut [u8]) -> Outcome,
    first: &[u8],
    list: &[u8],
    times: u64,
    answers: &mut [u8],
) -> Outcome {
    let mut board = BoardAt::fresh();
    let mut outcome = run(&mut board, first, answers);
    for _ in 0..times {
        outcome = run(&mut board, list, answers);
    }
    outcome
}

/// Runs a list over a fresh board at a rate; a rate other than the three is refused with 15, before all else.
pub fn run_at(rate: u32, list: &[u8], answers: &mut [u8]) -> Outcome {
    match AnyBoard::fresh_at(rate) {
        (_, Some(refusal)) => refused(Outcome::default(), refusal),
        (mut board, None) => board.run(list, answers),
    }
}

/// The same with a first list, and then a second a number of times.
pub fn run_repeated_at(rate: u32, first: &[u8], list: &[u8], times: u64, answers: &mut [u8]) -> Outcome {
    match runner(rate) {
        None => refused(Outcome::default(), Refusal::UnsupportedRate),
        Some(runner) => runner(first, list, times, answers),
    }
}

fn refused(outcome: Outcome, refusal: Refusal) -> Outcome {
    Outcome {
        refusal: Some(refusal),
        ..outcome
    }
}
