//! The comparison of skips: its boards have the deadlines that they are made for, and it finds planted faults.

use calls::{list_of, Answer, Call, Outcome, Refusal};
use oracle::compare::parked::{Parking, RULES};
use oracle::compare::skips::{lists, parked, starts};
use oracle::compare::Runner;
use oracle::deadline;
use oracle::image::{park_fresh, run_parked};
use oracle::list::run_repeated;

use crate::support::*;

const TOP: u128 = u64::MAX as u128;
/// The bytes of a skip's record.
const RECORD: usize = 12;

/// What a skip on a board, with that many bytes left in the buffer, gives in place of the rule; none where it follows
/// the rule.
type Fault = fn(&mut Board, usize) -> Option<Result<Answer, Refusal>>;

/// D, where a skip would advance by it.
fn due(board: &Board) -> Option<u128> {
    let fields = board.fields();
    deadline::exact(&fields).filter(|_| !fields.line())
}

/// Whether a skip must be refused with 13.
fn too_large(board: &Board) -> bool {
    due(board) > Some(TOP)
}

/// Passes 2^64 - 1 cycles and leaves the line low: document 01's skip without S-2's refusal.
fn falls_short(board: &mut Board) -> Result<Answer, Refusal> {
    let line = advance(board, u64::MAX);
    Ok(Answer::Skip { passed: u64::MAX, line })
}

const FAULTS: [(&str, Fault); 7] = [
    ("11 where the buffer is full", |board, room| {
        (too_large(board) && room < RECORD).then_some(Err(Refusal::BufferTooSmall))
    }),
    ("11 in place of 13", |board, _| {
        too_large(board).then_some(Err(Refusal::BufferTooSmall))
    }),
    ("2^64 accepted", |board, room| {
        (due(board) == Some(TOP + 1) && room >= RECORD).then(|| falls_short(board))
    }),
    ("13 left out", |board, room| {
        (too_large(board) && room >= RECORD).then(|| falls_short(board))
    }),
    ("2^64 - 1 refused", |board, _| {
        (due(board) == Some(TOP)).then_some(Err(Refusal::DeadlineTooLarge))
    }),
    ("a refused skip that moves the board", |board, _| {
        too_large(board).then(|| {
            advance(board, 1);
            Err(Refusal::DeadlineTooLarge)
        })
    }),
    ("13 with the line high", |board, _| {
        let fields = board.fields();
        let large = fields.line() && deadline::exact(&fields) > Some(TOP);
        large.then_some(Err(Refusal::DeadlineTooLarge))
    }),
];

/// The Rust, except for its skips, which have fault `FAULT`.
fn faulty<const FAULT: usize>(first: &[u8], list: &[u8], times: u64, answers: &mut [u8]) -> Outcome {
    let (_, fault) = FAULTS[FAULT];
    call_by_call(first, list, times, answers, |board, call, room| {
        let given = if call == Call::Skip.encode() {
            fault(board, room.len())
        } else {
            None
        };
        match given {
            None => run(board, call, room),
            Some(Err(refusal)) => Outcome {
                refusal: Some(refusal),
                ..Outcome::default()
            },
            Some(Ok(answer)) => {
                answer.store(Call::Skip.tag(), &mut room[..RECORD]);
                Outcome {
                    calls: 1,
                    list_bytes: call.len(),
                    answer_bytes: RECORD,
                    refusal: None,
                }
            }
        }
    })
}

#[test]
fn the_boards_have_their_deadlines() {
    let mut seen = [0; 4];
    for start in starts() {
        let (outcome, _, mut board) = run_fresh(&list_of(&start.calls));
        assert_eq!((outcome.calls, outcome.refusal), (start.calls.len(), None));
        let before = board.fields();
        assert_eq!(
            (deadline(&mut board), before.line()),
            (start.deadline, start.line),
            "{:?}",
            start.calls
        );
        let reply = board.call(Call::Skip);
        let skipped = |passed, line| (0, Answer::Skip { passed, line });
        let (expected, kind) = match start.deadline {
            _ if start.line => (skipped(0, true), 0),
            None => (skipped(0, false), 1),
            Some(exact) if exact <= TOP => (skipped(exact as u64, true), 2),
            Some(_) => ((13, Call::Skip.zero_answer()), 3),
        };
        assert_eq!((number(&reply), reply.answer), expected, "{:?}", start.calls);
        seen[kind] += 1;
    }
    // Many skips that reach the deadline, and many that are refused.
    assert!(seen[0] > 0 && seen[1] > 0 && seen[2] > 50 && seen[3] > 50, "{seen:?}");
}

#[test]
fn the_rust_agrees_with_itself_on_skips() {
    lists(&pair(run_repeated)).unwrap();
    parked(&RULES).unwrap();
}

#[test]
fn faults_of_skips_are_found() {
    let faulty: [Runner; FAULTS.len()] = runners!(faulty: 0 1 2 3 4 5 6);
    for ((name, _), runner) in FAULTS.into_iter().zip(faulty) {
        let difference = lists(&pair(runner)).expect_err(name);
        // The shortest list that shows it ends with a skip, or the list after it does.
        let skip = Call::Skip.encode();
        assert!(
            difference.first.ends_with(&skip) || difference.second.ends_with(&skip),
            "{name}: {difference}"
        );
    }
}

/// The rules, except that a fresh board replaces one whose skip is refused.
fn refused_replaced(image: &mut [u8], list: &[u8], answers: &mut [u8]) -> Outcome {
    let outcome = run_parked(image, list, answers);
    if outcome.refusal == Some(Refusal::DeadlineTooLarge) {
        park_fresh(image).expect("there is room");
    }
    outcome
}

#[test]
fn a_parked_board_that_a_refused_skip_changes_is_found() {
    let faulty = Parking {
        run: refused_replaced,
        ..RULES
    };
    assert!(parked(&faulty).is_err());
}
