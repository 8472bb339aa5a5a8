//! The kinds of list that are measured, at a rate, and the groups of operations: `bench` times them, `instructions`
//! counts their instructions.

#[cfg(feature = "proved")]
pub mod parking;
#[cfg(feature = "proved")]
pub mod previews;

use calls::Call;
#[cfg(feature = "proved")]
use calls::DEFAULT_RATE;

use crate::generate::Random;
use crate::registers::{self, channel, of_channel, CHANNELS};
use crate::writes::{alarm, byte, program, RUNNING};

/// The calls of a measured list.
pub const CALLS: usize = 4_000;
/// About how many calls one repeat of a benchmark carries out.
const WORK: usize = 4_000_000;
/// Room for the answers of a list; the longest, an advance's, has 68 bytes.
pub const BUFFER: usize = 72 * CALLS;

/// A kind of list: what prepares the board, the list that is measured, and how often a benchmark runs it.
pub struct Kind {
    pub name: &'static str,
    pub first: Vec<Call>,
    pub list: Vec<Call>,
    pub times: u64,
}

/// An operation, and the function that carries it out a number of times.
pub struct Operation {
    pub name: &'static str,
    pub repeat: fn(u64),
}

/// Operations that are measured side by side. The others are compared with the last.
pub struct Group {
    /// Its name in `bench` and `instructions`.
    pub name: &'static str,
    /// What is printed above its table.
    pub title: &'static str,
    /// What is printed above the column of the ratios to the last operation.
    pub ratio: &'static str,
    pub operations: &'static [Operation],
}

/// The groups.
#[cfg(feature = "proved")]
pub const GROUPS: [Group; 2] = [parking::GROUP, previews::GROUP];

/// The kind with a name for boards at a rate, or every kind where no name is given; none where no kind has that name.
pub fn named(rate: u32, wanted: Option<&str>) -> Vec<Kind> {
    let mut kinds = kinds(rate);
    kinds.retain(|kind| wanted.is_none_or(|wanted| wanted == kind.name));
    kinds
}

/// The group with a name, or every group where no name is given; none where no group has that name, or at a rate other
/// than that of the operations' board.
#[cfg(feature = "proved")]
pub fn groups(rate: u32, wanted: Option<&str>) -> Vec<Group> {
    let mut groups = Vec::from(GROUPS);
    groups.retain(|group| rate == DEFAULT_RATE && wanted.is_none_or(|wanted| wanted == group.name));
    groups
}

/// Four channels in modes 1 and 2 that match at times, and a clock whose alarm is far off.
fn running(prescaler: u32) -> Vec<Call> {
    let mut calls = Vec::new();
    for number in 0..CHANNELS {
        calls.extend(program(
            number,
            RUNNING | (1 + number as u8 % 2),
            prescaler,
            1_000 + number as u64,
            1_000,
        ));
    }
    calls.extend(alarm(1 << 40));
    calls.push(byte(registers::ENABLE + 3, 15));
    calls
}

fn kinds(rate: u32) -> Vec<Kind> {
    let mut random = Random::at(rate, 1);
    let mut advances = || -> Vec<Call> {
        let cycles = (0..CALLS).map(|_| random.below(5_000));
        cycles.map(|cycles| Call::Advance { cycles }).collect()
    };
    let acknowledge = byte(registers::ACKNOWLEDGE + 3, 15);
    let [plain, divided] = [advances(), advances()];
    let mut registers_list = Vec::new();
    let addresses: Vec<u16> = (registers::CLOCK_CONTROL..=registers::ALARM_ACKNOWLEDGE)
        .chain(
            (0..CHANNELS)
                .flat_map(|number| of_channel(number, channel::CONTROL)..of_channel(number, channel::PRESCALER) + 4),
        )
        .collect();
    while registers_list.len() < CALLS {
        let address = random.pick(&addresses);
        registers_list.extend([Call::Read { address }, byte(address, random.word() as u8)]);
    }
    let skips: Vec<Call> = (0..CALLS / 2).flat_map(|_| [Call::Skip, acknowledge]).collect();
    let mut mixed = Vec::new();
    while mixed.len() < CALLS {
        let call = random.call();
        if call.refusal().is_none() {
            mixed.push(call);
        }
    }
    let times = (WORK / CALLS) as u64;
    let kind = |name, first, list| Kind {
        name,
        first,
        list,
        times,
    };
    let mut kinds = vec![
        kind("advance", running(0), plain),
        kind("advance-prescaled", running(6), divided),
        kind("registers", running(0), registers_list),
        kind("skip", running(0), skips.clone()),
        kind("mixed", running(0), mixed),
    ];
    // One channel for which every number is a compare point, advanced by a cycle and by 2^40 in turn. In the two
    // million pairs of a benchmark its counter stays below 2^61, so it is not switched off.
    let mut every_number = program(0, RUNNING | 1, 0, 1, 1);
    every_number.push(byte(registers::ENABLE + 3, 1));
    let burst = [1, 1 << 40].map(|cycles| Call::Advance { cycles });
    kinds.push(kind("prescaler-0-burst", every_number, burst.repeat(CALLS / 2)));
    // Ten years of interrupts, one each simulated minute: this prescaler gives a tick each millisecond.
    let mut minute = program(0, RUNNING | 1, rate / 1_000 - 1, 60_000, 60_000);
    minute.push(byte(registers::ENABLE + 3, 1));
    kinds.push(Kind {
        name: "ten-years",
        first: minute,
        list: skips,
        times: 5_256_000 / (CALLS as u64 / 2),
    });
    kinds
}
