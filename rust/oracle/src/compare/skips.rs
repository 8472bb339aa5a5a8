//! Skips where the deadline is 2^64 - 1 cycles, a little less, more, or the largest: up to 2^64 - 1 they reach it,
//! above that they are refused with 13.

use calls::{list_of, Call, DEFAULT_RATE, NANOSECONDS_PER_SECOND};

use super::parked::{self, Parking};
use super::passes::{Compared, BUFFER};
use super::{readouts, Count, Pair};
use crate::fields::Fields;
use crate::image::Form;
use crate::registers::{self, CHANNELS};
use crate::writes::{alarm, alarm_due, byte, channel_due, program, RUNNING};

/// The deadlines about the limit of one skip.
const ABOUT_THE_LIMIT: [u128; 4] = [(1 << 64) - 2, (1 << 64) - 1, 1 << 64, (1 << 64) + 1];

/// The largest deadline of a channel.
const LARGEST: u128 = 1 << 96;

/// Prescalers from none to the largest. 2^64 - 1 is a multiple of 2 + 1, and 2^64 + 1 of 274,176 + 1: there the phase
/// is 0. With the others it is not.
const PRESCALERS: [u32; 7] = [0, 1, 2, 9, 274_176, u32::MAX - 1, u32::MAX];

/// A board to skip on: the calls that make it from a fresh one, its D, and whether its line is high.
pub struct Start {
    pub calls: Vec<Call>,
    pub deadline: Option<u128>,
    pub line: bool,
}

/// A board with a low line.
fn low(calls: Vec<Call>, deadline: u128) -> Start {
    Start {
        calls,
        deadline: Some(deadline),
        line: false,
    }
}

/// Lets every enabled channel run.
fn all_run() -> Call {
    byte(registers::ENABLE + 3, 15)
}

/// The boards.
pub fn starts() -> Vec<Start> {
    let mut starts = one_channel();
    starts.extend(beside_a_high_line());
    starts.extend(several_channels());
    starts.extend(alarms());
    starts
}

/// One channel in each mode, with each prescaler, the clock running from host time or not.
fn one_channel() -> Vec<Start> {
    let from_host_time = vec![
        Call::HostTime {
            seconds: 5,
            nanoseconds: NANOSECONDS_PER_SECOND - 1,
        },
        byte(registers::CLOCK_CONTROL + 3, 5),
    ];
    let mut starts = Vec::new();
    for clock in [vec![], from_host_time] {
        for deadline in ABOUT_THE_LIMIT.into_iter().chain([LARGEST - 1, LARGEST]) {
            for (place, prescaler) in PRESCALERS.into_iter().enumerate() {
                for mode in 0..3 {
                    // A mode and a prescaler that cannot have this deadline are left out.
                    if let Some(channel) = channel_due(place % CHANNELS, mode, prescaler, deadline) {
                        starts.push(low([&clock[..], &channel].concat(), deadline));
                    }
                }
            }
        }
    }
    starts
}

/// A channel that is due, beside another that is pending and holds the line high.
fn beside_a_high_line() -> Vec<Start> {
    // One-shot with compare 0: the first cycle makes it pending.
    let mut pending = program(3, RUNNING, 0, 0, 0);
    pending.extend([byte(registers::ENABLE + 3, 1 << 3), Call::Advance { cycles: 1 }]);
    let due = ABOUT_THE_LIMIT.into_iter().chain([LARGEST]);
    due.map(|deadline| Start {
        calls: [&pending[..], &free_running(0, deadline)].concat(),
        deadline: Some(deadline),
        line: true,
    })
    .collect()
}

/// A free-running channel with the largest prescaler, which allows any deadline up to the largest.
fn free_running(number: usize, deadline: u128) -> Vec<Call> {
    channel_due(number, 2, u32::MAX, deadline).expect("the deadline is one of a free-running channel's")
}

/// Four channels, each in turn the one with the smallest deadline.
fn several_channels() -> Vec<Start> {
    let mut starts = Vec::new();
    for first in 0..CHANNELS {
        for deadline in ABOUT_THE_LIMIT {
            let mut calls = Vec::new();
            for later in 0..CHANNELS {
                let number = (first + later) % CHANNELS;
                calls.extend(free_running(number, [deadline, deadline + 1, 1 << 65, LARGEST][later]));
            }
            calls.push(all_run());
            starts.push(low(calls, deadline));
        }
    }
    starts
}

/// The alarm, by itself and beside a channel that is due a cycle before it, with it and after it; the last alarm; and
/// an alarm on host time, which has no deadline.
fn alarms() -> Vec<Start> {
    let mut starts = Vec::new();
    for deadline in ABOUT_THE_LIMIT {
        starts.push(low(alarm_due(DEFAULT_RATE, deadline), deadline));
        for other in [deadline - 1, deadline, deadline + 1] {
            // Only a channel whose phase is 0 leaves the clock unchanged.
            if let Some(channel) = channel_due(1, 2, 0, other) {
                starts.push(low(
                    [alarm_due(DEFAULT_RATE, deadline), channel].concat(),
                    deadline.min(other),
                ));
            }
        }
    }
    let last = u128::from(u64::MAX) * u128::from(DEFAULT_RATE);
    starts.push(low(alarm(u64::MAX), last));
    let mut on_host_time = vec![byte(registers::CLOCK_CONTROL + 3, 5)];
    on_host_time.extend(alarm(u64::MAX));
    starts.push(Start {
        calls: on_host_time,
        deadline: None,
        line: false,
    });
    starts
}

/// The calls on each board: a skip at once; after a cycle; and after 2^64 - 1. The calls after a refused skip are not
/// carried out.
fn endings() -> [Vec<Call>; 3] {
    let behind = [Call::Output, Call::Advance { cycles: 7 }, Call::Skip];
    let at_once = vec![Call::Skip];
    let later = [1, u64::MAX].map(|cycles| vec![Call::Deadline, Call::Advance { cycles }, Call::Skip]);
    let [after_a_cycle, at_the_end] = later;
    [at_once, after_a_cycle, at_the_end].map(|calls| [&calls[..], &behind].concat())
}

/// A list, the length of a buffer that its answers fill, and the bytes of answers before the first skip of its ending.
struct Case {
    list: Vec<u8>,
    room: usize,
    before: usize,
}

fn cases() -> Vec<Case> {
    let mut cases = Vec::new();
    for start in starts() {
        for ending in endings() {
            let bytes = |calls: &[Call]| calls.iter().map(Call::answer_bytes).sum::<usize>();
            let skip = ending
                .iter()
                .position(|call| *call == Call::Skip)
                .expect("there is one");
            cases.push(Case {
                list: [list_of(&start.calls), list_of(&ending)].concat(),
                room: bytes(&start.calls) + bytes(&ending),
                before: bytes(&start.calls) + bytes(&ending[..skip]),
            });
        }
    }
    cases
}

/// Each list into buffers of every length up to one byte more than its answers have, and what the board holds after it.
pub fn lists(pair: &Pair) -> Compared {
    let mut count = Count::default();
    for Case { list, room, .. } in cases() {
        for buffer in 0..=room + 1 {
            count.add(pair.compare(&list, None, buffer)?);
        }
        for readout in readouts() {
            count.add(pair.compare(&list, Some(&readout), BUFFER)?);
        }
    }
    Ok(count)
}

/// Each list over a parked board, into buffers that end before the skip's record, in it, after it, and with the last.
pub fn parked(parking: &Parking) -> Result<Count, String> {
    let mut count = Count::default();
    for Case { list, room, before } in cases() {
        let after = before + Call::Skip.answer_bytes();
        for buffer in [before, after - 1, after, room] {
            count.add(parked::list_from(parking, Form::New, &Fields::fresh(), &list, buffer)?);
        }
    }
    Ok(count)
}
