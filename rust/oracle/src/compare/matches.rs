//! Counts of matches on boards whose channels stand at limits of the rule: four at once, each with its own setting, and
//! advances to their points and about them, up to the longest. The Rust has no counts: they are compared with the
//! oracle's own reading of S-4 (`crate::matches`).

use calls::{list_of, Call};

use super::boards::Start;
use super::passes::{Compared, BUFFER};
use super::{Count, Pair};
use crate::fields::Channel;
use crate::generate::Random;
use crate::registers::CHANNELS;

/// Counters and compares.
const NUMBERS: [u64; 5] = [0, 1, 1 << 63, u64::MAX - 1, u64::MAX];
const RELOADS: [u64; 5] = [0, 1, 3, 1 << 63, u64::MAX];
/// Prescalers with phases.
const PRESCALERS: [(u32, u32); 4] = [(0, 0), (1, 1), (u32::MAX, 0), (u32::MAX, u32::MAX)];
/// How often every setting is used, each time beside others and with other flags.
const ROUNDS: usize = 8;

/// The boards.
pub fn starts() -> Vec<Start> {
    let mut starts = orders();
    let mut random = Random::new(1);
    for _ in 0..ROUNDS {
        let mut settings = settings(&mut random);
        random.shuffle(&mut settings);
        for channels in settings.chunks_exact(CHANNELS) {
            let channels = channels.try_into().expect("a chunk has a setting for each channel");
            let any = random.below(16) as u8;
            starts.push(Start {
                channels,
                timer_enable: random.pick(&[15, 15, 15, any]),
            });
        }
    }
    starts
}

/// Four periodic channels with different reloads, in every order.
fn orders() -> Vec<Start> {
    let periodic = [1, 2, 3, 5].map(|reload| Channel {
        control: 1 + 4,
        reload,
        armed: true,
        ..Channel::default()
    });
    let mut starts = Vec::new();
    for places in 0..4_usize.pow(4) {
        let places = [places % 4, places / 4 % 4, places / 16 % 4, places / 64];
        if (0..4).all(|place| places.contains(&place)) {
            starts.push(Start {
                channels: places.map(|place| periodic[place]),
                timer_enable: 15,
            });
        }
    }
    starts
}

/// Every mode, counter, compare, reload and prescaler; most of the channels are enabled.
fn settings(random: &mut Random) -> Vec<Channel> {
    let mut settings = Vec::new();
    for mode in 0..4 {
        for counter in NUMBERS {
            for compare in NUMBERS {
                for reload in RELOADS {
                    for (prescaler, phase) in PRESCALERS {
                        settings.push(Channel {
                            control: mode | random.pick(&[4, 4, 4, 12, 12, 12, 0, 8]),
                            counter,
                            compare,
                            reload,
                            prescaler,
                            phase,
                            pending: random.once_in(3),
                            armed: !random.once_in(3),
                        });
                    }
                }
            }
        }
    }
    settings
}

/// Cycles to a channel's first tick, to its compare, to the point after it and round to its compare, each with a cycle
/// less and a cycle more; and some that do not depend on the channels.
pub fn advances(channels: &[Channel; CHANNELS]) -> Vec<u64> {
    let mut cycles = vec![0, 1, 2, 1 << 32, 1 << 40, 1 << 63, u64::MAX - 1, u64::MAX];
    for channel in channels {
        let [counter, compare, reload] = [channel.counter, channel.compare, channel.reload].map(u128::from);
        let ticks = [
            1,
            compare.saturating_sub(counter),
            (compare + reload).saturating_sub(counter),
            (1 << 64) + compare - counter,
        ];
        for ticks in ticks.into_iter().filter(|ticks| *ticks > 0) {
            let exact = ticks * (u128::from(channel.prescaler) + 1) - u128::from(channel.phase);
            cycles.extend(
                [exact - 1, exact, exact + 1]
                    .into_iter()
                    .filter_map(|cycles| u64::try_from(cycles).ok()),
            );
        }
    }
    cycles.sort();
    cycles.dedup();
    cycles
}

/// Compares each board with each of its advances, and a cycle after it.
pub fn lists(pair: &Pair) -> Compared {
    let mut count = Count::default();
    for start in starts() {
        let board = list_of(&start.calls());
        for cycles in advances(&start.channels) {
            let list = list_of(&[Call::Advance { cycles }, Call::Advance { cycles: 1 }]);
            count.add(pair.compare(&board, Some(&list), BUFFER)?);
        }
    }
    Ok(count)
}
