//! Helpers that the tests share.

use calls::{list_of, Answer, Call, Outcome, Refusal};
pub use oracle::board::AnyBoard as Board;
use oracle::board::Reply;
use oracle::compare::boards::Start;
use oracle::compare::{Pair, Runner};
use oracle::fields::Fields;
use oracle::generate::Random;

/// The rates, cycles a second, as S-7 gives them.
pub const RATES: [u32; 3] = [1_000_000, 12_000_000, 48_000_000];
/// The rate of a board without a given one, and cycles from poll to poll at it, as document 01 gives them.
pub const F: u32 = 48_000_000;
pub const POLL: u32 = 48_000;

/// Cycles from poll to poll at a rate, 'a thousandth of it'.
pub fn poll_at(rate: u32) -> u32 {
    match rate {
        1_000_000 => 1_000,
        12_000_000 => 12_000,
        48_000_000 => 48_000,
        _ => panic!("{rate} is no rate"),
    }
}
/// Nanoseconds in a second.
pub const SECOND: i128 = 1_000_000_000;

/// One call of each tag, which a sound board accepts.
pub const CALLS: [Call; 10] = [
    Call::HostTime {
        seconds: 1,
        nanoseconds: 2,
    },
    Call::Read { address: 3 },
    Call::Write { address: 0x83, byte: 2 },
    Call::Advance { cycles: 1 },
    Call::Deadline,
    Call::Skip,
    Call::Source { number: 4, level: 1 },
    Call::ControllerRead { address: 1 },
    Call::ControllerWrite { address: 5, byte: 255 },
    Call::Output,
];

/// The runners of a function over the numbers of faults.
macro_rules! runners {
    ($faulty:ident: $($number:literal)*) => { [$($faulty::<$number>),*] };
}
pub(crate) use runners;

/// The answer of a call that must be accepted.
pub fn accepted(board: &mut Board, call: Call) -> Answer {
    let reply = board.call(call);
    assert_eq!(reply.refusal, None, "{call:?}");
    reply.answer
}

/// The line after an advance, and its counts of matches.
pub fn advanced(board: &mut Board, cycles: u64) -> (bool, [u128; 4]) {
    match accepted(board, Call::Advance { cycles }) {
        Answer::Advance { line, matches } => (line, matches),
        other => panic!("{other:?}"),
    }
}

/// The line after an advance.
pub fn advance(board: &mut Board, cycles: u64) -> bool {
    advanced(board, cycles).0
}

pub fn read(board: &mut Board, address: u16) -> u8 {
    match accepted(board, Call::Read { address }) {
        Answer::Byte(byte) => byte,
        other => panic!("{other:?}"),
    }
}

pub fn write(board: &mut Board, address: u16, byte: u8) {
    accepted(board, Call::Write { address, byte });
}

pub fn host_time(board: &mut Board, seconds: u64, nanoseconds: u32) {
    accepted(board, Call::HostTime { seconds, nanoseconds });
}

/// The fields after a call that must be accepted.
pub fn fields_after(fields: &Fields, call: Call) -> Fields {
    let mut board = Board::from_fields(fields);
    accepted(&mut board, call);
    board.fields()
}

/// The exact deadline; the 64-bit deadline must be the smaller of it and 2^64 - 1.
pub fn deadline(board: &mut Board) -> Option<u128> {
    match accepted(board, Call::Deadline) {
        Answer::Deadline {
            present: true,
            exact,
            capped,
        } => {
            assert_eq!(u128::from(capped), exact.min(u128::from(u64::MAX)));
            Some(exact)
        }
        Answer::Deadline {
            present: false,
            exact: 0,
            capped: 0,
        } => None,
        other => panic!("{other:?}"),
    }
}

/// The fresh board with channel 0 running in a mode, interrupts enabled.
pub fn running(mode: u8) -> Fields {
    let mut fields = Fields::fresh();
    fields.channels[0].control = 12 + mode;
    fields.timer_enable = 1;
    fields
}

/// Puts the signed offset into its three fields.
pub fn set_offset(fields: &mut Fields, offset: i128) {
    let magnitude = offset.unsigned_abs();
    fields.offset_negative = offset < 0;
    fields.offset_seconds = (magnitude / SECOND as u128) as u64;
    fields.offset_nanoseconds = (magnitude % SECOND as u128) as u32;
}

/// Document 01's number of a direct call's refusal, 0 for none.
pub fn number(reply: &Reply) -> u8 {
    reply.refusal.map_or(0, Refusal::number)
}

/// Runs a list on a fresh board; gives the outcome, the answers and the board.
pub fn run_fresh(list: &[u8]) -> (Outcome, Vec<u8>, Board) {
    let mut board = Board::fresh();
    let mut buffer = vec![0; 32_768];
    let outcome = run(&mut board, list, &mut buffer);
    buffer.truncate(outcome.answer_bytes);
    (outcome, buffer, board)
}

/// The fields of the board that a start's calls make from a fresh one: those of the start, except for the clock.
pub fn made(start: &Start) -> Fields {
    let calls = start.calls();
    let (outcome, _, board) = run_fresh(&list_of(&calls));
    assert_eq!((outcome.calls, outcome.refusal), (calls.len(), None));
    let fields = board.fields();
    let expected = Fields {
        seconds: fields.seconds,
        subsecond: fields.subsecond,
        ..start.fields()
    };
    assert_eq!(fields, expected);
    fields
}

/// The Rust and another board, at the rate of a board without a given one.
pub fn pair(other: Runner) -> Pair {
    Pair::at(F, other)
}

/// Runs a list over a board of any rate.
pub fn run(board: &mut Board, list: &[u8], answers: &mut [u8]) -> Outcome {
    board.run(list, answers)
}

/// Runs a list over a board by a function that runs one call into the remaining buffer. Bytes that are no whole call
/// are passed to it too.
pub fn each_call(
    board: &mut Board,
    list: &[u8],
    answers: &mut [u8],
    one: impl Fn(&mut Board, &[u8], &mut [u8]) -> Outcome,
) -> Outcome {
    let mut total = Outcome::default();
    while total.list_bytes < list.len() && total.refusal.is_none() {
        let rest = &list[total.list_bytes..];
        let used = Call::decode(rest).map_or(rest.len(), |(_, used)| used);
        total = total.then(one(board, &rest[..used], &mut answers[total.answer_bytes..]));
    }
    total
}

/// The same for a list over a fresh board, and then a second list a number of times, as a `Runner` does.
pub fn call_by_call(
    first: &[u8],
    list: &[u8],
    times: u64,
    answers: &mut [u8],
    one: impl Fn(&mut Board, &[u8], &mut [u8]) -> Outcome,
) -> Outcome {
    call_by_call_over(Board::fresh(), first, list, times, answers, one)
}

/// The same over a given board.
pub fn call_by_call_over(
    mut board: Board,
    first: &[u8],
    list: &[u8],
    times: u64,
    answers: &mut [u8],
    one: impl Fn(&mut Board, &[u8], &mut [u8]) -> Outcome,
) -> Outcome {
    let mut outcome = each_call(&mut board, first, answers, &one);
    for _ in 0..times {
        outcome = each_call(&mut board, list, answers, &one);
    }
    outcome
}

/// Random sound boards, the same each time.
pub fn sound_boards(count: usize) -> impl Iterator<Item = (Random, Fields)> {
    sound_boards_at(F, count)
}

/// Random sound boards of a rate.
pub fn sound_boards_at(rate: u32, count: usize) -> impl Iterator<Item = (Random, Fields)> {
    (0..count as u64).map(move |seed| {
        let mut random = Random::at(rate, seed);
        let fields = random.sound_fields();
        (random, fields)
    })
}
