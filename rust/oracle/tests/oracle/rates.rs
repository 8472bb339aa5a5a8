//! The comparison at the three rates: its clocks have the deadlines, subseconds and polls that they are made for, and
//! it finds planted faults, of boards that use a rate other than their own and of rates that no board has.

use std::collections::BTreeSet;

use calls::{list_of, Call, Outcome, Refusal};
use oracle::compare::clock::{
    counting, far, lists, other_rates, polled, rates, subseconds, switched, AtRates, RULES,
};
use oracle::compare::passes::{self, REGISTERS_BUFFER};
use oracle::compare::{Pair, Runner};
use oracle::fields::Fields;
use oracle::list::{run_at, run_repeated_at, runner};
use oracle::registers;

use crate::support::*;

/// The board that calls make from a fresh one at a rate.
fn made_at(rate: u32, calls: &[Call]) -> Board {
    let (mut board, refusal) = Board::fresh_at(rate);
    assert_eq!(refusal, None);
    let outcome = board.run(&list_of(calls), &mut vec![0; 4_096]);
    assert_eq!((outcome.calls, outcome.refusal), (calls.len(), None));
    assert_eq!(board.fields().rate, rate);
    board
}

#[test]
fn the_counting_clocks_have_their_subseconds_and_deadlines() {
    for rate in RATES {
        let (mut seen, mut deadlines, mut rises) = (BTreeSet::new(), BTreeSet::new(), 0);
        for start in counting(rate) {
            let fields = made_at(rate, &start.calls).fields();
            let due = deadline(&mut Board::from_fields(&fields));
            assert_eq!(due.is_some(), fields.alarm_armed);
            seen.insert((fields.seconds, fields.subsecond));
            deadlines.extend(due);
            for cycles in start.advances.iter().copied() {
                let line = advance(&mut Board::from_fields(&fields), cycles);
                let high = fields.line() || due.is_some_and(|due| u128::from(cycles) >= due);
                assert_eq!(line, high, "{cycles} at {rate}");
                rises += usize::from(due == Some(cycles.into()));
            }
            let end = u64::from(rate - fields.subsecond);
            assert!([end - 1, end].iter().all(|cycles| start.advances.contains(cycles)));
        }
        // Every subsecond at each of the seconds, and setting F's deadline.
        assert_eq!(seen.len(), 4 * subseconds(rate).len());
        assert!(seen.contains(&(0, rate - 1)) && seen.contains(&(u64::MAX, 0)));
        assert!(deadlines.contains(&(2 * u128::from(rate))));
        let top = 1 << 64;
        assert!(deadlines.iter().any(|due| (top - u128::from(rate)..top).contains(due)));
        assert!(deadlines.iter().any(|due| (top..top + u128::from(rate)).contains(due)));
        assert!(rises > 100, "{rises}");
    }
}

#[test]
fn the_far_alarms_are_due_about_2_to_the_64() {
    for rate in RATES {
        let due = far(rate).into_iter().map(|start| {
            let mut board = made_at(rate, &start.calls);
            let due = deadline(&mut board).expect("the alarm is armed");
            assert_eq!(number(&board.call(Call::Skip)), if due < 1 << 64 { 0 } else { 13 });
            due
        });
        assert!(due.eq((1 << 64) - 2..(1 << 64) + 2));
    }
}

#[test]
fn the_polled_alarms_ring_at_a_thousandth_of_the_rate_and_not_before() {
    for rate in RATES {
        let limit = u64::from(poll_at(rate));
        let mut seen = BTreeSet::new();
        for start in polled(rate) {
            let fields = made_at(rate, &start.calls).fields();
            assert!(fields.alarm_armed && fields.runs_from_host_time());
            let due = fields.time_seconds() >= fields.alarm;
            seen.insert((fields.poll, due));
            let left = limit - u64::from(fields.poll);
            assert!([left - 1, left, left + 1]
                .iter()
                .all(|cycles| start.advances.contains(cycles)));
            for cycles in start.advances {
                let line = advance(&mut Board::from_fields(&fields), cycles);
                assert_eq!(line, due && (cycles == 0 || cycles >= left), "{cycles} at {rate}");
            }
        }
        let polls = [0, 1, limit / 2, limit - 1];
        assert_eq!(seen.len(), 2 * polls.len());
        assert!(polls.iter().all(|poll| seen.contains(&(*poll as u32, true))));
    }
}

#[test]
fn the_switched_clocks_change_from_every_control_to_every_control() {
    for rate in RATES {
        let mut seen = BTreeSet::new();
        let (mut less, mut from_host, mut offsets) = (0, BTreeSet::new(), BTreeSet::new());
        for start in switched(rate) {
            let (last, before) = start.calls.split_last().expect("there are calls");
            let before = made_at(rate, before).fields();
            let after = fields_after(&before, *last);
            seen.insert((before.clock_control, after.clock_control));
            less += usize::from(!before.realtime() && after.subsecond < before.subsecond);
            if before.realtime() && !after.realtime() {
                from_host.insert(after.subsecond);
            }
            offsets.insert(after.offset_ns());
        }
        assert_eq!(seen.len(), 64);
        // By way of nanoseconds a subsecond becomes less, except where a cycle is a whole number of them.
        assert_eq!(less > 0, rate != 1_000_000, "{less} at {rate}");
        assert!(
            from_host.len() > 8 && offsets.len() > 20,
            "{from_host:?} {}",
            offsets.len()
        );
    }
}

#[test]
fn the_rust_agrees_with_itself_at_every_rate() {
    for rate in RATES {
        let same = Pair::at(rate, runner(rate).unwrap());
        let count = lists(&same).unwrap();
        assert!(count.comparisons > 20_000, "{count:?}");
        assert_eq!(passes::seed(&same, 1).unwrap().comparisons, 6);
    }
    let count = rates(&RULES).unwrap();
    // 23 lists, each by three runs, with and without room.
    assert_eq!(count.comparisons as usize, 3 * 2 * 23 * (other_rates().len() + 3));
}

#[test]
fn another_rate_is_refused_with_15_before_all_else() {
    // The lowest byte of the seconds is 12, 1 or 0 by the rate.
    let calls = [Call::Advance { cycles: 12_000_000 }, Call::Read { address: 0x8B }];
    for list in [&[][..], &[0xFF], &[4, 0, 8, 0], &list_of(&calls)] {
        for length in [0, 80] {
            for rate in other_rates() {
                let mut buffer = [0xEE; 80];
                assert_eq!(
                    run_at(rate, list, &mut buffer[..length]),
                    refused(Refusal::UnsupportedRate)
                );
                for (first, list, times) in [(list, &[][..], 0), (&[], list, 2)] {
                    let outcome = run_repeated_at(rate, first, list, times, &mut buffer[..length]);
                    assert_eq!(outcome, refused(Refusal::UnsupportedRate));
                }
                assert_eq!(buffer, [0xEE; 80]);
            }
            // At the three, it gives what a run of the board gives.
            for rate in RATES {
                let [mut said, mut repeated, mut buffer] = [[0xEE; 80]; 3];
                let (mut board, _) = Board::fresh_at(rate);
                let outcome = board.run(list, &mut buffer[..length]);
                assert_eq!(run_at(rate, list, &mut said[..length]), outcome);
                assert_eq!(run_repeated_at(rate, list, &[], 0, &mut repeated[..length]), outcome);
                assert_eq!((said, repeated), (buffer, buffer));
            }
        }
    }
}

/// Whether a fault carries out a call at another rate, from the fields before it.
type Fault = fn(&Fields, Call) -> bool;

/// A clock that counts cycles.
fn counts(fields: &Fields) -> bool {
    fields.clock_enabled() && !fields.realtime()
}

const FAULTS: [(&str, Fault); 7] = [
    ("every call", |_, _| true),
    ("poll limit", |fields, call| {
        matches!(call, Call::Advance { .. }) && fields.runs_from_host_time()
    }),
    ("end of the second", |fields, call| {
        matches!(call, Call::Advance { .. }) && counts(fields)
    }),
    ("deadline", |_, call| call == Call::Deadline),
    ("skip", |_, call| call == Call::Skip),
    ("nanoseconds of a subsecond", |_, call| {
        let word = registers::SUBSECOND..registers::SUBSECOND + 4;
        matches!(call, Call::Read { address } if word.contains(&address))
    }),
    (
        "subsecond of nanoseconds",
        |_, call| matches!(call, Call::Write { address, .. } if address == registers::CLOCK_CONTROL + 3),
    ),
];

/// The Rust at a rate, except that by fault `FAULT` some calls use another rate, where the board is sound at
/// that.
fn faulty<const FAULT: usize, const RATE: u32, const OTHER: u32>(
    first: &[u8],
    list: &[u8],
    times: u64,
    answers: &mut [u8],
) -> Outcome {
    let (_, fault) = FAULTS[FAULT];
    let (fresh, _) = Board::fresh_at(RATE);
    call_by_call_over(fresh, first, list, times, answers, |board, call, room| {
        let before = board.fields();
        let meant = Call::decode(call).is_ok_and(|(call, _)| fault(&before, call));
        let other = Fields { rate: OTHER, ..before };
        if !meant || !other.sound() {
            return board.run(call, room);
        }
        let mut moved = Board::from_fields(&other);
        let outcome = moved.run(call, room);
        *board = Board::from_fields(&Fields {
            rate: RATE,
            ..moved.fields()
        });
        outcome
    })
}

/// The runners of a fault's number at each rate with each other rate: the rate, the other one and the runner.
macro_rules! at_each_rate {
    ($($fault:literal)*) => {
        [$([
            (1_000_000, 12_000_000, faulty::<$fault, 1_000_000, 12_000_000> as Runner),
            (1_000_000, 48_000_000, faulty::<$fault, 1_000_000, 48_000_000>),
            (12_000_000, 1_000_000, faulty::<$fault, 12_000_000, 1_000_000>),
            (12_000_000, 48_000_000, faulty::<$fault, 12_000_000, 48_000_000>),
            (48_000_000, 1_000_000, faulty::<$fault, 48_000_000, 1_000_000>),
            (48_000_000, 12_000_000, faulty::<$fault, 48_000_000, 12_000_000>),
        ]),*]
    };
}

#[test]
fn a_board_that_goes_by_another_rate_is_found() {
    for ((name, _), runners) in FAULTS.into_iter().zip(at_each_rate!(0 1 2 3 4 5 6)) {
        for (rate, other, runner) in runners {
            let pair = Pair::at(rate, runner);
            let difference = lists(&pair).expect_err(name);
            assert_eq!(difference.rate, rate, "{name}");
            let text = difference.to_string();
            assert!(text.contains(&format!("at {rate} cycles a second")), "{text}");
            // The lists of seeds show it too.
            let found = (1..=300).any(|seed| passes::seed(&pair, seed).is_err());
            assert!(found, "{name}, {other} at {rate}");
        }
    }
}

#[test]
fn a_board_that_is_made_at_another_rate_is_found() {
    for rate in RATES {
        for other in RATES.into_iter().filter(|other| *other != rate) {
            let pair = Pair::at(rate, runner(other).unwrap());
            assert!(lists(&pair).is_err(), "{other} at {rate}");
            assert!(
                (1..=20).any(|seed| passes::seed(&pair, seed).is_err()),
                "{other} at {rate}"
            );
            // Some prepared board of the pass over the registers shows it with no register written.
            let state = passes::state_readout();
            let shown = |board: &Vec<u8>| pair.compare(board, Some(&state), REGISTERS_BUFFER).is_err();
            assert!(passes::prepared(rate).iter().any(shown), "{other} at {rate}");
        }
    }
}

/// A run at a rate with a fault: it takes the rate for another, or refuses it differently.
type RateFault = fn(u32, &[u8], &mut [u8]) -> Outcome;

fn refused(refusal: Refusal) -> Outcome {
    Outcome {
        refusal: Some(refusal),
        ..Outcome::default()
    }
}

/// Runs at a rate, and at a rate other than the three as a board without a given rate.
fn at_the_default(rate: u32, list: &[u8], answers: &mut [u8]) -> Outcome {
    run_at(if RATES.contains(&rate) { rate } else { F }, list, answers)
}

const RATE_FAULTS: [(&str, RateFault); 11] = [
    ("the rate ignored", |_, list, answers| run_at(F, list, answers)),
    ("every rate accepted", at_the_default),
    ("24,000,000 accepted", |rate, list, answers| {
        run_at(if rate == 24_000_000 { F } else { rate }, list, answers)
    }),
    ("a rate more accepted", |rate, list, answers| {
        run_at(if rate == 48_000_001 { F } else { rate }, list, answers)
    }),
    ("the highest bit ignored", |rate, list, answers| {
        run_at(rate & !(1 << 31), list, answers)
    }),
    ("12,000,000 refused", |rate, list, answers| {
        run_at(if rate == 12_000_000 { 0 } else { rate }, list, answers)
    }),
    ("15 after the run", |rate, list, answers| {
        let outcome = at_the_default(rate, list, answers);
        Outcome {
            refusal: run_at(rate, &[], &mut []).refusal.or(outcome.refusal),
            ..outcome
        }
    }),
    ("15 after another refusal", |rate, list, answers| {
        let mut other = answers.to_vec();
        match at_the_default(rate, list, &mut other).refusal {
            Some(refusal) if !RATES.contains(&rate) => refused(refusal),
            _ => run_at(rate, list, answers),
        }
    }),
    ("15 with answers written", |rate, list, answers| {
        let _ = at_the_default(rate, list, answers);
        if RATES.contains(&rate) {
            run_at(rate, list, answers)
        } else {
            refused(Refusal::UnsupportedRate)
        }
    }),
    ("1 in the place of 15", |rate, list, answers| {
        match run_at(rate, list, answers) {
            outcome if outcome.refusal == Some(Refusal::UnsupportedRate) => refused(Refusal::UnsoundBoard),
            outcome => outcome,
        }
    }),
    ("15 for an empty list alone", |rate, list, answers| {
        if list.is_empty() {
            run_at(rate, list, answers)
        } else {
            at_the_default(rate, list, answers)
        }
    }),
];

fn faulty_run<const FAULT: usize>(rate: u32, list: &[u8], answers: &mut [u8]) -> Outcome {
    RATE_FAULTS[FAULT].1(rate, list, answers)
}

/// The same fault where only a first list is run.
fn faulty_repeated<const FAULT: usize>(
    rate: u32,
    first: &[u8],
    list: &[u8],
    times: u64,
    answers: &mut [u8],
) -> Outcome {
    if times == 0 {
        return RATE_FAULTS[FAULT].1(rate, first, answers);
    }
    run_repeated_at(rate, first, list, times, answers)
}

/// The rules, except that a list is repeated over a board without a given rate.
fn repeated_at_the_default(rate: u32, first: &[u8], list: &[u8], times: u64, answers: &mut [u8]) -> Outcome {
    let board = if times > 0 && RATES.contains(&rate) { F } else { rate };
    run_repeated_at(board, first, list, times, answers)
}

#[test]
fn faults_of_rates_that_no_board_has_are_found() {
    rates(&RULES).unwrap();
    macro_rules! of_faults {
        ($($number:literal)*) => { [$((faulty_run::<$number> as _, faulty_repeated::<$number> as _)),*] };
    }
    let faulty: [(_, _); RATE_FAULTS.len()] = of_faults!(0 1 2 3 4 5 6 7 8 9 10);
    for ((name, _), (run, run_repeated)) in RATE_FAULTS.into_iter().zip(faulty) {
        // In either of the two functions.
        let text = rates(&AtRates { run, ..RULES }).expect_err(name);
        assert!(text.contains(", run, "), "{name}: {text}");
        let text = rates(&AtRates { run_repeated, ..RULES }).expect_err(name);
        assert!(text.contains(", first, "), "{name}: {text}");
    }
    let run_repeated = repeated_at_the_default;
    let text = rates(&AtRates { run_repeated, ..RULES }).unwrap_err();
    assert!(text.contains(", repeated, "), "{text}");
}
