//! The clock at each rate: the end of a second, the alarm's deadline, subseconds as nanoseconds, the clock switched
//! off, on and to host time, and the poll of an alarm on host time. And the rates that no board has.

use std::collections::BTreeSet;

use calls::{list_of, Call, Outcome, NANOSECONDS_PER_SECOND, RATES};

use super::passes::{Compared, BUFFER};
use super::{hex, readouts, Count, Pair, OLD};
use crate::fields::Fields;
use crate::generate;
use crate::list;
use crate::registers;
use crate::writes::{alarm, alarm_due, byte, two_words};

/// A board to advance: the calls that make it from a fresh one at a rate, and the advances on it.
pub struct Start {
    pub calls: Vec<Call>,
    pub advances: BTreeSet<u64>,
}

/// The alarm that is set on host time.
const HOST_ALARM: u64 = 9;

fn control(value: u8) -> Call {
    byte(registers::CLOCK_CONTROL + 3, value)
}

fn advance(cycles: u32) -> Call {
    Call::Advance { cycles: cycles.into() }
}

/// Cycles to each point, one less and one more, where they are 64-bit numbers.
fn about(points: impl IntoIterator<Item = u128>) -> BTreeSet<u64> {
    let cycles = points
        .into_iter()
        .flat_map(|point| [point.saturating_sub(1), point, point + 1]);
    cycles.filter_map(|cycles| u64::try_from(cycles).ok()).collect()
}

/// Points that a rate gives: none, a poll, a second, two and the most. They are those of every rate, to show a board
/// that uses a rate other than its own.
fn points() -> impl Iterator<Item = u128> {
    let of_rate = |rate| {
        let poll = Fields::fresh_at(rate).poll_limit();
        [poll, rate, 2 * rate].map(u128::from)
    };
    RATES.into_iter().flat_map(of_rate).chain([0, u64::MAX.into()])
}

/// Subseconds of a rate: about none, a poll, a third, a half and a whole second.
pub fn subseconds(rate: u32) -> BTreeSet<u32> {
    let poll = Fields::fresh_at(rate).poll_limit();
    let mut subseconds: BTreeSet<u32> = (0..8).chain([rate / 7]).collect();
    for middle in [poll, rate / 3, rate / 2, rate - 2] {
        subseconds.extend([middle - 1, middle, middle + 1]);
    }
    subseconds
}

/// Clocks that count, from the first second up to the last, with alarms from the next second on: settings F and G with
/// every subsecond, and alarms whose deadline is within a second of 2^64.
pub fn counting(rate: u32) -> Vec<Start> {
    let mut starts = Vec::new();
    for seconds in [0, 5, u64::MAX - 2, u64::MAX] {
        let later = |more: u64| seconds.checked_add(more);
        let far = (1 << 64) / u128::from(rate) + 1;
        let alarms = [later(1), later(2), later(far as u64), Some(u64::MAX), None];
        for subsecond in subseconds(rate) {
            for due in alarms {
                let mut calls = vec![control(3)];
                if seconds > 0 {
                    calls.extend(two_words(registers::SECONDS_LOW, registers::SECONDS_HIGH, seconds));
                }
                calls.extend(due.map_or(vec![], alarm));
                calls.push(advance(subsecond));
                let left = |seconds: u64| u128::from(seconds) * u128::from(rate) - u128::from(subsecond);
                let deadline = due.filter(|due| *due > seconds).map(|due| left(due - seconds));
                starts.push(Start {
                    calls,
                    advances: about(points().chain([left(1), left(2)]).chain(deadline)),
                });
            }
        }
    }
    starts
}

/// Alarms whose deadline is 2^64 - 2 to 2^64 + 1: a skip reaches the first two, and is refused with 13 for the others.
pub fn far(rate: u32) -> Vec<Start> {
    let top = 1_u128 << 64;
    let due = [top - 2, top - 1, top, top + 1];
    due.map(|deadline| Start {
        calls: alarm_due(rate, deadline),
        advances: about([1, top - 2, deadline]),
    })
    .into()
}

/// Alarms on host time, due and not, at a poll's beginning, after one cycle of it, and after all but one.
pub fn polled(rate: u32) -> Vec<Start> {
    let limit = Fields::fresh_at(rate).poll_limit();
    let mut starts = Vec::new();
    for clock_control in [5, 7] {
        for host in [HOST_ALARM - 1, HOST_ALARM] {
            for poll in [0, 1, limit / 2, limit - 1] {
                let mut calls = vec![control(clock_control)];
                calls.extend(alarm(HOST_ALARM));
                calls.push(advance(poll));
                calls.push(Call::HostTime {
                    seconds: host,
                    nanoseconds: NANOSECONDS_PER_SECOND - 1,
                });
                let left = [1, 2, 4].map(|polls| u128::from(polls * limit - poll));
                starts.push(Start {
                    calls,
                    advances: about(points().chain(left)),
                });
            }
        }
    }
    starts
}

/// From every control to every control: the clock is switched off, on, to host time and from it, at subseconds and host
/// times that are whole numbers of the other's unit, and that are not.
pub fn switched(rate: u32) -> Vec<Start> {
    let nanoseconds = [
        0,
        1,
        20,
        21,
        83,
        84,
        999,
        1_000,
        499_999_999,
        NANOSECONDS_PER_SECOND - 1,
    ];
    let subseconds: Vec<u32> = subseconds(rate).into_iter().collect();
    let mut starts = Vec::new();
    for before in 0..8 {
        for after in 0..8 {
            // Each subsecond with one of the host times.
            for (place, subsecond) in subseconds.iter().enumerate() {
                let mut calls = alarm(HOST_ALARM);
                calls.push(advance(*subsecond));
                calls.push(control(before));
                calls.push(Call::HostTime {
                    seconds: 3,
                    nanoseconds: nanoseconds[(place + usize::from(before + after)) % nanoseconds.len()],
                });
                calls.push(control(after));
                starts.push(Start {
                    calls,
                    advances: [0, 1, (rate - subsecond).into()].into(),
                });
            }
        }
    }
    starts
}

/// The calls after an advance: they show the time as nanoseconds and as seconds, the alarm, the deadline, and what one
/// more cycle brings.
fn shown() -> Vec<Call> {
    let word = |word: u16| (word..word + 4).map(|address| Call::Read { address });
    let mut calls = vec![Call::Deadline];
    for register in [registers::SUBSECOND, registers::SECONDS_LOW, registers::SECONDS_HIGH] {
        calls.extend(word(register));
    }
    let status = Call::Read {
        address: registers::CLOCK_STATUS + 3,
    };
    calls.extend([status, Call::Output, advance(1), status, Call::Deadline]);
    calls
}

/// Compares each board with each of its advances and what is shown after it; and what the board holds before, with a
/// skip.
pub fn lists(pair: &Pair) -> Compared {
    let mut count = Count::default();
    let rate = pair.rate;
    let starts = [counting(rate), far(rate), polled(rate), switched(rate)];
    for start in starts.into_iter().flatten() {
        let board = list_of(&start.calls);
        for cycles in start.advances {
            let calls = [&[Call::Advance { cycles }][..], &shown()].concat();
            count.add(pair.compare(&board, Some(&list_of(&calls)), BUFFER)?);
        }
        let [_, controller, latches, _] = readouts();
        for readout in [controller, latches] {
            count.add(pair.compare(&board, Some(&readout), BUFFER)?);
        }
    }
    Ok(count)
}

/// Runs a list over a fresh board of a rate, into an answer buffer.
pub type RunAt = fn(u32, &[u8], &mut [u8]) -> Outcome;

/// Runs a list over a fresh board at a rate, and then a second list a number of times over the board that is left.
pub type RunRepeatedAt = fn(u32, &[u8], &[u8], u64, &mut [u8]) -> Outcome;

/// The operations that take a rate, of a board under comparison.
#[derive(Clone, Copy)]
pub struct AtRates {
    pub run: RunAt,
    pub run_repeated: RunRepeatedAt,
}

/// The same by the rules, over the Rust.
pub const RULES: AtRates = AtRates {
    run: list::run_at,
    run_repeated: list::run_repeated_at,
};

/// Rates that no board has: some limits, the neighbours of the three, and those that differ from one of the three in
/// one bit.
pub fn other_rates() -> BTreeSet<u32> {
    let mut rates: BTreeSet<u32> = [0, 1, 1_000, 12_000, 48_000, 24_000_000, 1_000_000_000, u32::MAX].into();
    for rate in RATES {
        rates.extend([rate - 1, rate + 1]);
        rates.extend((0..32).map(|bit| rate ^ 1 << bit));
    }
    rates
}

/// The seeds whose lists are run at every rate.
const SEEDS: u64 = 20;

/// Gives both functions every rate, of the three or not, with lists that are empty, cut, damaged or refused otherwise,
/// and into buffers with room and without any. This shows that 15 comes first and leaves the buffer.
pub fn rates(other: &AtRates) -> Result<Count, String> {
    let mut lists = vec![(vec![], 3), (vec![0xFF], 3), (list_of(&[Call::Output]), 4)];
    for seed in 0..SEEDS {
        let generated = generate::list(seed);
        lists.push((generated.list, generated.buffer));
    }
    let mut count = Count::default();
    for rate in other_rates().into_iter().chain(RATES) {
        for (list, buffer) in &lists {
            for buffer in [0, *buffer] {
                count.add(compare_at(rate, other, list, buffer)?);
            }
        }
    }
    Ok(count)
}

/// Runs a list at a rate on the given board, into an answer buffer.
type Way<'a> = &'a dyn Fn(&AtRates, &mut [u8]) -> Outcome;

/// A list at a rate: in a run; as the first list of a repeated run with 0 times; and twice over the board that a read
/// leaves.
fn compare_at(rate: u32, other: &AtRates, list: &[u8], buffer: usize) -> Result<Count, String> {
    let read = Call::Read {
        address: registers::CLOCK_CONTROL + 3,
    };
    let first = read.encode();
    let ways: [(&str, Way); 3] = [
        ("run", &|board, answers| (board.run)(rate, list, answers)),
        ("first", &|board, answers| {
            (board.run_repeated)(rate, list, &[], 0, answers)
        }),
        ("repeated", &|board, answers| {
            (board.run_repeated)(rate, &first, list, 2, answers)
        }),
    ];
    let mut count = Count::default();
    for (way, run) in ways {
        let [rules, other] = [&RULES, other].map(|board| {
            let mut answers = OLD[..buffer].to_vec();
            (run(board, &mut answers), answers)
        });
        if rules != other {
            return Err(format!(
                "at {rate} cycles a second, {way}, the list {} into {buffer} bytes: the rules give {:?} and\n{}\n\
                 the proved board {:?} and\n{}",
                hex(list),
                rules.0,
                hex(&rules.1),
                other.0,
                hex(&other.1)
            ));
        }
        count.add(Count {
            comparisons: 1,
            calls: rules.0.calls as u64,
        });
    }
    Ok(count)
}
