//! Advances at the edges of the prescaler step, phase + cycles divided by prescaler + 1: up to the first tick and about
//! it, and to sums about 2^64. Four channels at once, each with its own setting.

use std::collections::BTreeSet;

use calls::{list_of, Call};

use super::boards::Start;
use super::parked::{self, Parking};
use super::passes::{Compared, BUFFER};
use super::{Count, Pair};
use crate::fields::Channel;
use crate::image::Form;
use crate::registers::CHANNELS;
use crate::writes::RUNNING;

/// Prescalers with phases: 0 and the prescaler.
const PRESCALERS: [(u32, u32); 7] = [
    (0, 0),
    (1, 0),
    (1, 1),
    (u32::MAX - 1, 0),
    (u32::MAX - 1, u32::MAX - 1),
    (u32::MAX, 0),
    (u32::MAX, u32::MAX),
];

/// Counters, compares and reloads.
const NUMBERS: [(u64, u64, u64); 7] = [
    // Every tick is a match of a periodic channel.
    (0, 1, 1),
    // The second tick is the first match.
    (0, 2, 3),
    // At the compare and past it: one-shot and periodic match at the first tick, free-running goes round.
    (5, 5, 1),
    (7, 5, 2),
    // As far below the compare as possible: the counter after any advance is the number of its ticks.
    (0, u64::MAX, 1),
    // One tick from the top, and at it: one-shot and periodic stop there, free-running goes round to 0.
    (u64::MAX - 1, u64::MAX, 1),
    (u64::MAX, 0, 0),
];

/// The boards. Each channel in turn has every mode, every prescaler and every row of numbers; the channel after it has
/// the next mode, the next prescaler and the next numbers.
pub fn starts() -> Vec<Start> {
    let mut starts = Vec::new();
    for mode in 0..4 {
        for prescaler in 0..PRESCALERS.len() {
            for numbers in 0..NUMBERS.len() {
                starts.push(Start {
                    channels: std::array::from_fn(|next| setting(mode + next, prescaler + next, numbers + next)),
                    timer_enable: 15,
                });
            }
        }
    }
    starts
}

/// A channel that runs with its interrupt enabled, by its places in the tables, which start again after their ends.
fn setting(mode: usize, prescaler: usize, numbers: usize) -> Channel {
    let (prescaler, phase) = PRESCALERS[prescaler % PRESCALERS.len()];
    let (counter, compare, reload) = NUMBERS[numbers % NUMBERS.len()];
    Channel {
        control: RUNNING + (mode % 4) as u8,
        counter,
        compare,
        reload,
        prescaler,
        phase,
        // Few channels are pending.
        pending: prescaler == 1 && phase == 0 && counter > compare,
        armed: true,
    }
}

/// The cycles at the edges of the channels' steps.
pub fn advances(channels: &[Channel; CHANNELS]) -> BTreeSet<u64> {
    channels.iter().flat_map(edges).collect()
}

/// No cycles, one, and the most; and those with which phase + cycles is a cycle before the first tick, at it and after
/// it, and 2^64 - 1 and 2^64.
fn edges(channel: &Channel) -> impl Iterator<Item = u64> {
    let divisor = u128::from(channel.prescaler) + 1;
    let phase = u128::from(channel.phase);
    let sums = [divisor - 1, divisor, divisor + 1, (1 << 64) - 1, 1 << 64];
    // From phase 0 no advance reaches a sum of 2^64.
    let cycles = sums.into_iter().filter_map(move |sum| u64::try_from(sum - phase).ok());
    cycles.chain([0, 1, u64::MAX])
}

/// Each board, made by calls, with each of its advances, and a cycle after it. No register shows a phase; the deadlines
/// and the second advance do.
pub fn lists(pair: &Pair) -> Compared {
    let mut count = Count::default();
    for start in starts() {
        let board = list_of(&start.calls());
        for cycles in advances(&start.channels) {
            let calls = [cycles, 1].map(|cycles| [Call::Advance { cycles }, Call::Deadline]);
            count.add(pair.compare(&board, Some(&list_of(calls.as_flattened())), BUFFER)?);
        }
    }
    Ok(count)
}

/// Each board, parked as its fields, with each of its advances: the image after it shows every field.
pub fn parked(parking: &Parking) -> Result<Count, String> {
    let mut count = Count::default();
    for start in starts() {
        for cycles in advances(&start.channels) {
            let calls = [Call::Advance { cycles }, Call::Deadline];
            let room = calls.iter().map(Call::answer_bytes).sum();
            let (fields, list) = (start.fields(), list_of(&calls));
            count.add(parked::list_from(parking, Form::New, &fields, &list, room)?);
        }
    }
    Ok(count)
}
