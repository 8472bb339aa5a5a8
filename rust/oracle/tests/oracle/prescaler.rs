//! The prescaler step at its edges: ticks and phases worked out by hand; the comparison's boards by the Rust and by the
//! rules; and planted faults of the step, which the comparison finds.

use std::collections::BTreeSet;

use calls::{Answer, Call, Outcome};
use oracle::compare::parked::{Parking, RULES};
use oracle::compare::prescaler::{advances, lists, parked, starts};
use oracle::compare::Runner;
use oracle::fields::{Channel, Fields};
use oracle::image::{image_of, read_image, run_parked};
use oracle::list::run_repeated;

use crate::rules::{advance_by, compare, set_source_3, step, Step};
use crate::support::*;

const TOP: u64 = u64::MAX;

/// Prescaler, phase and cycles; the ticks, and the phase after them.
const ROWS: [(u32, u32, u64, u64, u32); 13] = [
    // Divisor 1: each cycle is a tick.
    (0, 0, 0, 0, 0),
    (0, 0, 1, 1, 0),
    (0, 0, TOP, TOP, 0),
    // Divisor 2^32: the 2^32nd cycle is the first tick.
    (u32::MAX, 0, 0, 0, 0),
    (u32::MAX, 0, 1, 0, 1),
    (u32::MAX, 0, 0xFFFF_FFFF, 0, 0xFFFF_FFFF),
    (u32::MAX, 0, 0x1_0000_0000, 1, 0),
    // 2^64 - 1 cycles are 2^32 - 1 times 2^32, and 2^32 - 1.
    (u32::MAX, 0, TOP, 0xFFFF_FFFF, 0xFFFF_FFFF),
    // Divisor 2^32 and phase 2^32 - 1: the first cycle is a tick.
    (u32::MAX, u32::MAX, 0, 0, 0xFFFF_FFFF),
    (u32::MAX, u32::MAX, 1, 1, 0),
    // The sum is 2^64 - 1, as above.
    (u32::MAX, u32::MAX, 0xFFFF_FFFF_0000_0000, 0xFFFF_FFFF, 0xFFFF_FFFF),
    // The sum is 2^64, 2^32 times 2^32.
    (u32::MAX, u32::MAX, 0xFFFF_FFFF_0000_0001, 0x1_0000_0000, 0),
    // The sum is 2^64 + 2^32 - 2, 2^32 times 2^32 and 2^32 - 2.
    (u32::MAX, u32::MAX, TOP, 0x1_0000_0000, 0xFFFF_FFFE),
];

#[test]
fn the_rows_are_the_edges() {
    let mut edges = BTreeSet::new();
    for prescaler in [0, u32::MAX] {
        for phase in [0, prescaler] {
            let to_tick = u128::from(prescaler) + 1 - u128::from(phase);
            let to_limit = (1 << 64) - u128::from(phase);
            let cycles = [0, 1, to_tick - 1, to_tick, to_limit - 1, to_limit, TOP.into()];
            let cycles = cycles.into_iter().filter_map(|cycles| u64::try_from(cycles).ok());
            edges.extend(cycles.map(|cycles| (prescaler, phase, cycles)));
        }
    }
    let rows = ROWS.map(|(prescaler, phase, cycles, ..)| (prescaler, phase, cycles));
    assert_eq!(edges.len(), rows.len());
    assert_eq!(BTreeSet::from(rows), edges);
}

#[test]
fn ticks_and_phases_at_the_edges() {
    for (prescaler, phase, cycles, ticks, phase_after) in ROWS {
        for number in 0..4 {
            // Free-running from 0: the counter after an advance is the number of its ticks. The clock does not run.
            let mut before = Fields {
                timer_enable: 15,
                clock_control: 0,
                ..Fields::fresh()
            };
            before.channels[number] = Channel {
                control: 4 + 2,
                prescaler,
                phase,
                ..Channel::default()
            };
            let mut after = before;
            after.channels[number].counter = ticks;
            after.channels[number].phase = phase_after;
            let answer = Answer::Advance {
                line: false,
                matches: [0; 4],
            };
            let given = compare(&before, Call::Advance { cycles });
            assert_eq!(
                given,
                (0, answer, after),
                "{prescaler} {phase} {cycles}, channel {number}"
            );
        }
    }
}

fn divisor(channel: &Channel) -> u128 {
    u128::from(channel.prescaler) + 1
}

fn sum(channel: &Channel, cycles: u128) -> u128 {
    u128::from(channel.phase) + cycles
}

/// A condition on an advance of a channel: by its divisor, phase + cycles, and cycles.
type Edge = fn(u128, u128, u128) -> bool;

const EDGES: [(&str, Edge); 9] = [
    ("no cycles", |_, _, cycles| cycles == 0),
    ("a cycle", |_, _, cycles| cycles == 1),
    ("2^64 - 1 cycles", |_, _, cycles| cycles == TOP.into()),
    ("the first tick missed by a cycle", |divisor, sum, _| sum == divisor - 1),
    ("the first tick", |divisor, sum, _| sum == divisor),
    ("a cycle past the first tick", |divisor, sum, _| sum == divisor + 1),
    ("a sum of 2^64 - 1", |_, sum, _| sum == TOP.into()),
    ("a sum of 2^64", |_, sum, _| sum == 1 << 64),
    ("a larger sum", |_, sum, _| sum > 1 << 64),
];

#[test]
fn the_boards_follow_the_rules_at_every_edge() {
    // Edges by channel number, mode, prescaler and phase; and, by mode, advances with ticks that meet no point, one and
    // more.
    let (mut met, mut seen) = (BTreeSet::new(), [[0; 3]; 4]);
    for start in starts() {
        let prescalers = start.channels.map(|channel| (channel.prescaler, channel.phase));
        let modes = start.channels.map(|channel| channel.mode());
        assert_eq!((BTreeSet::from(prescalers).len(), BTreeSet::from(modes).len()), (4, 4));
        let fields = start.fields();
        assert!(fields.sound() && (0..4).all(|number| fields.runs(number)));
        let made = made(&start);
        for cycles in advances(&start.channels) {
            let call = Call::Advance { cycles };
            let (_, answer, _) = compare(&fields, call);
            let (_, answer_made, _) = compare(&made, call);
            assert_eq!(answer, answer_made);
            let Answer::Advance { matches, .. } = answer else {
                panic!("{answer:?}")
            };
            for (number, channel) in start.channels.iter().enumerate() {
                let mode = channel.mode();
                let (divisor, sum) = (divisor(channel), sum(channel, cycles.into()));
                let edges = EDGES.iter().filter(|(_, edge)| edge(divisor, sum, cycles.into()));
                met.extend(edges.map(|(name, _)| (number, mode, channel.prescaler, channel.phase, *name)));
                if sum >= divisor {
                    seen[usize::from(mode)][matches[number].min(2) as usize] += 1;
                }
            }
        }
    }
    let mut expected = BTreeSet::new();
    for prescaler in [0, 1, u32::MAX - 1, u32::MAX] {
        for phase in [0, prescaler] {
            // A sum exceeds 2^64 - 1 by at most the phase.
            let possible = EDGES.len() - 2 + phase.min(2) as usize;
            for (name, _) in &EDGES[..possible] {
                let places = (0..16).map(|place| (place / 4, (place % 4) as u8));
                expected.extend(places.map(|(number, mode)| (number, mode, prescaler, phase, *name)));
            }
        }
    }
    assert_eq!(met, expected);
    // Only a periodic channel meets more than one point, and mode 3 none.
    assert!(seen[1].iter().all(|&count| count > 100), "{seen:?}");
    for mode in [0, 2] {
        assert!(
            seen[mode][0] > 100 && seen[mode][1] > 100 && seen[mode][2] == 0,
            "{seen:?}"
        );
    }
    assert!(seen[3][0] > 100 && seen[3][1..] == [0, 0], "{seen:?}");
}

#[test]
fn the_rust_agrees_with_itself_on_prescalers() {
    let made = lists(&pair(run_repeated)).unwrap();
    assert!(made.comparisons > 1_000, "{made:?}");
    assert_eq!(made.calls, 4 * made.comparisons);
    // In one run, parked at three places, and two calls by themselves.
    assert_eq!(parked(&RULES).unwrap().comparisons, 6 * made.comparisons);
}

/// The ticks and the phase of a sum.
fn divided(sum: u128, divisor: u128) -> (u128, u32) {
    (sum / divisor, (sum % divisor) as u32)
}

/// A faulty step where the condition holds, and the rule where it does not.
fn only(condition: bool, faulty: (u128, u32), channel: &Channel, cycles: u128) -> (u128, u32) {
    if condition {
        faulty
    } else {
        step(channel, cycles)
    }
}

/// The rule with one tick less where the condition holds.
fn one_less(condition: bool, channel: &Channel, cycles: u128) -> (u128, u32) {
    let (ticks, phase) = step(channel, cycles);
    (ticks - u128::from(condition), phase)
}

/// The rule, and faults of it.
const STEPS: [(&str, Step); 16] = [
    ("the rule", step),
    ("prescaler 1 taken as prescaler 0", |channel, cycles| {
        only(channel.prescaler == 1, (sum(channel, cycles), 0), channel, cycles)
    }),
    ("phase 0 taken as prescaler 0", |channel, cycles| {
        only(channel.phase == 0, (cycles, 0), channel, cycles)
    }),
    // This leaves a board that is not sound.
    ("cycles kept as phase with prescaler 0", |channel, cycles| {
        only(channel.prescaler == 0, (cycles, cycles as u32), channel, cycles)
    }),
    ("32 bits of the cycles with prescaler 0", |channel, cycles| {
        only(channel.prescaler == 0, (cycles % (1 << 32), 0), channel, cycles)
    }),
    ("a tick of no cycles with prescaler 0", |channel, cycles| {
        only(channel.prescaler == 0, (cycles.max(1), 0), channel, cycles)
    }),
    ("the sum modulo 2^64", |channel, cycles| {
        divided(sum(channel, cycles) % (1 << 64), divisor(channel))
    }),
    ("the sum at most 2^64 - 1", |channel, cycles| {
        divided(sum(channel, cycles).min(TOP.into()), divisor(channel))
    }),
    ("the first tick a cycle late", |channel, cycles| {
        let first = sum(channel, cycles) == divisor(channel);
        only(first, (0, channel.prescaler), channel, cycles)
    }),
    ("phase lost where no tick comes", |channel, cycles| {
        only(sum(channel, cycles) < divisor(channel), (0, 0), channel, cycles)
    }),
    ("phase not moved where no tick comes", |channel, cycles| {
        let none = sum(channel, cycles) < divisor(channel);
        only(none, (0, channel.phase), channel, cycles)
    }),
    ("phase left out of the sum", |channel, cycles| {
        divided(cycles, divisor(channel))
    }),
    ("2^32 - 1 as divisor in place of 2^32", |channel, cycles| {
        divided(sum(channel, cycles), divisor(channel).min(u32::MAX.into()))
    }),
    ("one tick less where the sum passes 2^64", |channel, cycles| {
        one_less(sum(channel, cycles) > 1 << 64, channel, cycles)
    }),
    ("one tick less where the sum is 2^64", |channel, cycles| {
        one_less(sum(channel, cycles) == 1 << 64, channel, cycles)
    }),
    ("one tick less where the sum is 2^64 - 1", |channel, cycles| {
        one_less(sum(channel, cycles) == TOP.into(), channel, cycles)
    }),
];

/// A call of the Rust; but an advance follows the rules with step `STEP`.
fn one_call<const STEP: usize>(board: &mut Board, call: &[u8], room: &mut [u8]) -> Outcome {
    let before = board.fields();
    let outcome = run(board, call, room);
    if let (Ok((call @ Call::Advance { cycles }, _)), 1) = (Call::decode(call), outcome.calls) {
        let (mut after, matches) = advance_by(STEPS[STEP].1, &before, cycles);
        set_source_3(&mut after);
        let line = after.line();
        Answer::Advance { line, matches }.store(call.tag(), &mut room[..outcome.answer_bytes]);
        *board = Board::from_fields(&after);
    }
    outcome
}

/// Such a board by lists.
fn by_lists<const STEP: usize>(first: &[u8], list: &[u8], times: u64, answers: &mut [u8]) -> Outcome {
    call_by_call(first, list, times, answers, one_call::<STEP>)
}

/// Such a board in an image.
fn in_image<const STEP: usize>(image: &mut [u8], list: &[u8], answers: &mut [u8]) -> Outcome {
    let Ok((form, fields)) = read_image(image) else {
        return run_parked(image, list, answers);
    };
    let mut board = Board::from_fields(&fields);
    let outcome = each_call(&mut board, list, answers, one_call::<STEP>);
    image.copy_from_slice(&image_of(form, &board.fields()));
    outcome
}

/// A list over the board of an image.
type Run = fn(&mut [u8], &[u8], &mut [u8]) -> Outcome;

#[test]
fn the_rule_in_the_place_of_a_fault_agrees() {
    lists(&pair(by_lists::<0>)).unwrap();
    let run = in_image::<0>;
    parked(&Parking { run, ..RULES }).unwrap();
}

#[test]
fn faults_of_the_step_are_found() {
    let by_lists: [Runner; STEPS.len()] = runners!(by_lists: 0 1 2 3 4 5 6 7 8 9 10 11 12 13 14 15);
    let in_image: [Run; STEPS.len()] = runners!(in_image: 0 1 2 3 4 5 6 7 8 9 10 11 12 13 14 15);
    for (((name, _), runner), run) in STEPS.into_iter().zip(by_lists).zip(in_image).skip(1) {
        // The shortest list that shows it begins with an advance.
        let difference = lists(&pair(runner)).expect_err(name);
        let shown = Call::decode(&difference.second).map(|(call, _)| call.tag());
        assert_eq!(shown, Ok(Call::Advance { cycles: 0 }.tag()), "{name}: {difference}");
        let text = parked(&Parking { run, ..RULES }).expect_err(name);
        assert!(text.contains("  Advance"), "{name}: {text}");
    }
}
