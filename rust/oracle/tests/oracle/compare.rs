//! The comparison finds planted faults and shortens what shows them. The lists of its passes are not refused, and
//! neither are the measured lists.

use calls::{list_of, Call, Outcome};
use oracle::board::AnyBoard;
use oracle::compare::passes::{self, BUFFER, REGISTERS_BUFFER};
use oracle::compare::{readouts, shared, shortest, Count};
use oracle::kinds;
use oracle::list::{run_repeated, run_repeated_at};
use oracle::registers;

use crate::support::{pair, RATES};

const ADVANCE: u8 = 4;
const SKIP: u8 = 6;

/// The Rust, except that the last answer byte of a run that ends in a skip is flipped.
fn flipped(first: &[u8], list: &[u8], times: u64, answers: &mut [u8]) -> Outcome {
    let outcome = run_repeated(first, list, times, answers);
    let last = if times == 0 { first } else { list };
    if outcome.refusal.is_none() && last.ends_with(&[SKIP, 0, 0]) {
        answers[outcome.answer_bytes - 1] ^= 1;
    }
    outcome
}

/// The Rust, except that refusal 11 comes one byte early.
fn early(first: &[u8], list: &[u8], times: u64, answers: &mut [u8]) -> Outcome {
    let length = answers.len();
    run_repeated(first, list, times, &mut answers[..length.saturating_sub(1)])
}

/// The Rust, except that it writes a byte past the answers.
fn past_the_end(first: &[u8], list: &[u8], times: u64, answers: &mut [u8]) -> Outcome {
    let outcome = run_repeated(first, list, times, answers);
    if let Some(byte) = answers.get_mut(outcome.answer_bytes) {
        *byte = byte.wrapping_add(1);
    }
    outcome
}

/// The Rust, except that it loses a control byte of channel 0.
fn lost_write(first: &[u8], list: &[u8], times: u64, answers: &mut [u8]) -> Outcome {
    let address = registers::of_channel(0, registers::channel::CONTROL) + 3;
    let [high, low] = address.to_be_bytes();
    let mut first = first.to_vec();
    let write = [3, 0, 3, high, low];
    while let Some(place) = first.windows(5).position(|bytes| bytes == write) {
        first[place + 4] = low.wrapping_add(0x10);
    }
    run_repeated(&first, list, times, answers)
}

#[test]
fn the_rust_agrees_with_itself() {
    let same = pair(run_repeated);
    let count = passes::seed(&same, 1).unwrap();
    assert_eq!(count.comparisons, 6);
    assert!(count.calls > 1_800);
    passes::damaged(&same).unwrap();
    passes::short_buffers(&same).unwrap();
}

#[test]
fn a_wrong_answer_is_found_and_shown_by_one_call() {
    let calls = [Call::Advance { cycles: 3 }, Call::Output, Call::Skip];
    let difference = pair(flipped).compare(&list_of(&calls), None, 100).unwrap_err();
    assert_eq!(difference.first, [SKIP, 0, 0]);
    assert!(difference.second.is_empty());
    let text = difference.to_string();
    assert!(text.contains("060000  Skip"), "{text}");
    let difference = pair(flipped)
        .compare(&list_of(&calls), Some(&list_of(&calls)), 100)
        .unwrap_err();
    assert_eq!((difference.first, difference.second), (vec![], vec![SKIP, 0, 0]));
}

#[test]
fn an_early_refusal_and_a_byte_past_the_answers_are_found() {
    for fault in [early, past_the_end] {
        assert!(passes::short_buffers(&pair(fault)).is_err());
    }
    assert!(passes::damaged(&pair(past_the_end)).is_err());
}

#[test]
fn a_lost_register_write_is_found_by_the_readouts() {
    let mut found = (1..50).filter_map(|seed| passes::seed(&pair(lost_write), seed).err());
    // The answers of a list may show it too, and then no readout is needed.
    let difference = found.find(|difference| !difference.second.is_empty());
    let difference = difference.expect("no list of these needs a readout to show a lost write");
    // One write shows it.
    assert_eq!(difference.first.len(), 6, "{difference}");
}

#[test]
fn the_shortest_list_keeps_only_what_fails() {
    let calls: Vec<Call> = (0..50).map(|cycles| Call::Advance { cycles }).collect();
    let list = list_of(&calls);
    let has = |list: &[u8], cycles: u64| list.chunks(11).any(|call| call[3..] == cycles.to_be_bytes());
    let two = shortest(&list, |list| has(list, 7) && has(list, 41));
    assert_eq!(two, list_of(&[calls[7], calls[41]]));
    // Bytes that are no whole call are a piece by themselves.
    let damaged = [&list[..], &[ADVANCE, 0]].concat();
    assert_eq!(shortest(&damaged, |list| list.ends_with(&[ADVANCE, 0])), [ADVANCE, 0]);
    // An odd number of calls fails: no single call of three can be left out, but two can.
    assert_eq!(shortest(&list[..33], |list| list.len() / 11 % 2 == 1).len(), 11);
}

#[test]
fn the_lists_of_the_passes_run_to_their_ends() {
    let mut answers = vec![0; REGISTERS_BUFFER];
    let state = passes::state_readout();
    for rate in RATES {
        for prepared in passes::prepared(rate) {
            assert_eq!(run_repeated_at(rate, &prepared, &[], 0, &mut answers).refusal, None);
            assert_eq!(run_repeated_at(rate, &prepared, &state, 1, &mut answers).refusal, None);
        }
    }
    for readout in readouts() {
        assert_eq!(run_repeated(&readout, &[], 0, &mut vec![0; BUFFER]).refusal, None);
    }
}

#[test]
fn the_last_prepared_board_stands_a_cycle_after_its_first_second() {
    for rate in RATES {
        let (mut board, _) = AnyBoard::fresh_at(rate);
        let prepared = passes::prepared(rate);
        let fired = prepared.last().expect("there are boards");
        assert_eq!(board.run(fired, &mut vec![0; REGISTERS_BUFFER]).refusal, None);
        let fields = board.fields();
        assert_eq!((fields.seconds, fields.subsecond, fields.alarm_pending), (1, 1, true));
    }
}

#[test]
fn the_measured_lists_run_to_their_ends() {
    let mut answers = vec![0; kinds::BUFFER];
    for rate in RATES {
        for kind in kinds::named(rate, None) {
            let (first, list) = (list_of(&kind.first), list_of(&kind.list));
            for times in 0..10 {
                let outcome = run_repeated_at(rate, &first, &list, times, &mut answers);
                assert_eq!(outcome.refusal, None, "{} at {rate}, {times} times", kind.name);
            }
        }
    }
}

#[test]
fn every_member_that_is_shared_out_is_compared_once_and_a_difference_is_given() {
    let one = |member| Count {
        comparisons: 1,
        calls: member,
    };
    let all = Count {
        comparisons: 1_000,
        calls: 499_500,
    };
    assert_eq!(shared(0..1_000, |member| Ok::<_, String>(one(member))), Ok(all));
    assert_eq!(shared(0..0, |_| Err("none is compared")), Ok(Count::default()));
    for wrong in [0, 700, 999] {
        let compared = shared(0..1_000, |member| match member == wrong {
            true => Err(wrong),
            false => Ok(one(member)),
        });
        assert_eq!(compared, Err(wrong));
    }
}
