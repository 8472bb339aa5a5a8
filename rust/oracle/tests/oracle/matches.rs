//! S-4's counts of matches at the edges of its rule, by both readings: the oracle's, from what an advance changed, and
//! that of the rules, from the old compare and the new counter. Also, the counts of an advance in pieces add up.

use calls::{list_of, Answer, Call, Refusal};
use oracle::board::Reply;
use oracle::compare::boards::Start;
use oracle::compare::Runner;
use oracle::fields::{Channel, Fields};
use oracle::list::{runner, uncounted_runner};
use oracle::matches::zero_counts;
use oracle::writes::{byte, program};
use oracle::{generate, registers};

use crate::rules::{direct, some_cycles};
use crate::support::*;

const TOP: u64 = u64::MAX;

/// An enabled channel in a mode; the fields not named are 0.
fn channel(mode: u8, counter: u64, compare: u64) -> Channel {
    Channel {
        control: 4 + mode,
        counter,
        compare,
        ..Channel::default()
    }
}

fn one_shot(counter: u64, compare: u64) -> Channel {
    channel(0, counter, compare)
}

fn periodic(counter: u64, compare: u64, reload: u64) -> Channel {
    Channel {
        reload,
        ..channel(1, counter, compare)
    }
}

/// A free-running channel that is armed.
fn free_running(counter: u64, compare: u64) -> Channel {
    Channel {
        armed: true,
        ..channel(2, counter, compare)
    }
}

fn prescaled(channel: Channel, prescaler: u32, phase: u32) -> Channel {
    Channel {
        prescaler,
        phase,
        ..channel
    }
}

/// The fresh board with these channels, all of which run.
fn board_of(channels: [Channel; 4]) -> Fields {
    let timer_enable = 15;
    let fields = Start { channels, timer_enable }.fields();
    assert!(fields.sound());
    fields
}

/// The counts of an advance; the two readings must agree.
fn counts(fields: &Fields, cycles: u64) -> [u128; 4] {
    let call = Call::Advance { cycles };
    let mut board = Board::from_fields(fields);
    let (_, matches) = advanced(&mut board, cycles);
    let line = board.fields().line();
    let expected = (0, Answer::Advance { line, matches }, board.fields());
    assert_eq!(direct(fields, call), expected, "{fields:?} {call:?}");
    matches
}

/// A channel, the cycles of an advance, and the count that they give.
type Row = (&'static str, Channel, u64, u128);

fn rows() -> Vec<Row> {
    vec![
        // The points of setting B are 10, 14, 18, 22 and so on.
        ("setting B", periodic(0, 10, 4), 19, 3),
        ("before the first point", periodic(0, 10, 4), 9, 0),
        ("at the first point", periodic(0, 10, 4), 10, 1),
        ("before the second point", periodic(0, 10, 4), 13, 1),
        ("at the second point", periodic(0, 10, 4), 14, 2),
        // Every number is a point, from 0 or from 1 to 2^64 - 1.
        ("the largest count", periodic(0, 0, 1), TOP, 1 << 64),
        ("one less", periodic(0, 1, 1), TOP, (1 << 64) - 1),
        ("of every second number", periodic(0, 0, 2), TOP, 1 << 63),
        // The counter is at 21 after a tick, past the points 10, 14 and 18.
        ("overdue points", periodic(20, 10, 4), 1, 3),
        ("a point that the counter stands at", periodic(10, 10, 4), 1, 1),
        ("overdue, no cycles", periodic(20, 10, 4), 0, 0),
        ("overdue, no tick", prescaled(periodic(20, 10, 4), 4, 0), 4, 0),
        ("overdue, the first tick", prescaled(periodic(20, 10, 4), 4, 0), 5, 3),
        ("reload 0, before the point", periodic(0, 10, 0), 9, 0),
        ("reload 0, at the point", periodic(0, 10, 0), 10, 1),
        ("reload 0, far past the point", periodic(0, 10, 0), TOP, 1),
        ("reload 0, overdue", periodic(20, 10, 0), 1, 1),
        // The next point is past 2^64 - 1, so the channel is switched off.
        ("setting C, reload 4", periodic(TOP - 2, TOP - 1, 4), 1, 1),
        ("the next point is 2^64", periodic(0, 1 << 63, 1 << 63), 1 << 63, 1),
        ("two points below 2^64", periodic(0, 0, 1 << 63), TOP, 2),
        // 2^64 - 10, - 7, - 4 and - 1.
        ("four points, the last 2^64 - 1", periodic(TOP - 10, TOP - 9, 3), 10, 4),
        // The counter stops at 2^64 - 1: the points are 2^64 - 3, - 2 and - 1.
        ("a counter that stops", periodic(TOP - 4, TOP - 2, 1), 100, 3),
        ("a counter at the top", periodic(TOP, TOP, 1), 1, 1),
        ("a counter at the top, all overdue", periodic(TOP, 0, 1), 1, 1 << 64),
        // A tick each 3 cycles, the first after 2.
        ("phase 1, one tick", prescaled(periodic(0, 2, 2), 2, 1), 4, 0),
        ("phase 1, two ticks", prescaled(periodic(0, 2, 2), 2, 1), 5, 1),
        ("phase 1, four ticks", prescaled(periodic(0, 2, 2), 2, 1), 11, 2),
        // 2^64 - 1 cycles after phase 2^32 - 1 are 2^32 ticks and a remainder.
        (
            "largest phase, one tick",
            prescaled(periodic(0, 1, 1), u32::MAX, u32::MAX),
            1,
            1,
        ),
        (
            "largest phase",
            prescaled(periodic(0, 1, 1), u32::MAX, u32::MAX),
            TOP,
            1 << 32,
        ),
        (
            "largest prescaler",
            prescaled(periodic(0, 1, 1), u32::MAX, 0),
            TOP,
            (1 << 32) - 1,
        ),
        ("one-shot before its point", one_shot(0, 10), 9, 0),
        ("one-shot at its point", one_shot(0, 10), 10, 1),
        ("one-shot far past its point", one_shot(0, 10), TOP, 1),
        ("one-shot overdue", one_shot(20, 10), 1, 1),
        ("one-shot at its compare", one_shot(10, 10), 1, 1),
        ("one-shot overdue, no cycles", one_shot(20, 10), 0, 0),
        ("one-shot overdue, no tick", prescaled(one_shot(20, 10), 1, 0), 1, 0),
        // The distance from 2^64 - 3 to 2 is 5.
        ("free-running before its point", free_running(TOP - 2, 2), 4, 0),
        ("free-running round to its point", free_running(TOP - 2, 2), 5, 1),
        ("free-running far past its point", free_running(TOP - 2, 2), TOP, 1),
        ("distance 2^64 - 1", free_running(1, 0), TOP, 1),
        ("distance 0, which is 2^64", free_running(7, 7), TOP, 0),
        ("disarmed", channel(2, 0, 5), 10, 0),
        ("mode 3", channel(3, 0, 5), 10, 0),
        (
            "mode 3, overdue",
            Channel {
                reload: 1,
                armed: true,
                ..channel(3, 9, 5)
            },
            10,
            0,
        ),
    ]
}

#[test]
fn counts_at_the_edges() {
    for (name, channel, cycles, expected) in rows() {
        for number in 0..4 {
            let mut channels = [Channel::default(); 4];
            let mut count = [0; 4];
            count[number] = expected;
            // Neither pending nor interrupt enable matters.
            for (pending, interrupt) in [(false, 0), (true, 0), (false, 8), (true, 8)] {
                channels[number] = Channel {
                    pending,
                    control: channel.control | interrupt,
                    ..channel
                };
                let fields = board_of(channels);
                assert_eq!(counts(&fields, cycles), count, "{name}, channel {number}");
                // A channel that is not selected, and one that is not enabled, do not run.
                for other in [
                    Fields {
                        timer_enable: 15 - (1 << number),
                        ..fields
                    },
                    Fields {
                        channels: fields.channels.map(|channel| Channel {
                            control: channel.control & !4,
                            ..channel
                        }),
                        ..fields
                    },
                ] {
                    assert_eq!(counts(&other, cycles), [0; 4], "{name}, channel {number} stopped");
                }
            }
        }
    }
}

#[test]
fn channel_0_comes_first() {
    // In 19 cycles: 10, 14, 18; every number from 0 to 19; its only point; 1, 3 and so on to 19.
    let channels = [periodic(0, 10, 4), periodic(0, 0, 1), one_shot(0, 5), periodic(0, 1, 2)];
    assert_eq!(counts(&board_of(channels), 19), [3, 20, 1, 10]);
    let [first, second, third, fourth] = channels;
    assert_eq!(counts(&board_of([fourth, third, second, first]), 19), [10, 1, 20, 3]);
}

#[test]
fn a_match_is_counted_once() {
    // Setting B goes on with compare 22. One-shot is switched off; free-running is disarmed, though it comes round.
    let mut board = Board::from_fields(&board_of([
        periodic(0, 10, 4),
        one_shot(0, 10),
        free_running(0, 10),
        periodic(0, 10, 0),
    ]));
    assert_eq!(advanced(&mut board, 19).1, [3, 1, 1, 1]);
    assert_eq!(advanced(&mut board, 2).1, [0; 4]);
    assert_eq!(advanced(&mut board, 1).1, [1, 0, 0, 0]);
    assert_eq!(advanced(&mut board, 8).1, [2, 0, 0, 0]);
    // From 30 to the top: 34 and on to 2^64 - 2, which is 34 + 4 (2^62 - 9).
    assert_eq!(advanced(&mut board, TOP).1, [(1 << 62) - 8, 0, 0, 0]);
    // Switched off, since the next point would be 2^64 + 2.
    assert_eq!(advanced(&mut board, TOP).1, [0; 4]);
}

#[test]
fn a_refused_advance_gives_zeros() {
    let mut fields = board_of([periodic(0, 0, 1); 4]);
    fields.channels[0].control |= 8;
    assert_eq!(counts(&fields, 9), [10; 4]);
    // Channel 0 is pending with its interrupt enabled, and level bit 3 is 0.
    fields.channels[0].pending = true;
    let mut board = Board::from_fields(&fields);
    let zeros = Reply {
        refusal: Some(Refusal::UnsoundBoard),
        answer: Answer::Advance {
            line: false,
            matches: [0; 4],
        },
    };
    assert_eq!(board.call(Call::Advance { cycles: 9 }), zeros);
    assert_eq!(board.fields(), fields);
}

#[test]
fn the_counts_of_parts_add_up() {
    // Whole advances by mode with a count of 0, of 1 and of more; whole advances whose points fall in more than one
    // piece; and periodic channels that a piece before the last switches off.
    let mut seen = [[0; 3]; 4];
    let (mut shared, mut switched_off) = (0, 0);
    for (mut random, mut fields) in sound_boards(150_000) {
        // Lets more channels run.
        fields.timer_enable = 15;
        for channel in &mut fields.channels {
            channel.control |= 4;
        }
        let whole = some_cycles(&mut random, &fields);
        let expected = counts(&fields, whole);
        let mut cuts: Vec<u64> = (0..1 + random.below(4))
            .map(|_| {
                let about = some_cycles(&mut random, &fields).min(whole);
                let any = random.below(whole.max(1));
                random.pick(&[about, any, whole / 2])
            })
            .collect();
        cuts.sort();
        cuts.push(whole);
        let mut board = Board::from_fields(&fields);
        let (mut total, mut meeting, mut done) = ([0; 4], [0; 4], 0);
        for (part, cut) in cuts.iter().enumerate() {
            let (_, matches) = advanced(&mut board, cut - done);
            done = *cut;
            for number in 0..4 {
                total[number] += matches[number];
                meeting[number] += usize::from(matches[number] > 0);
                let off = matches[number] > 0 && !board.fields().channels[number].enabled();
                let periodic = fields.channels[number].mode() == 1 && fields.channels[number].reload > 0;
                switched_off += usize::from(off && periodic && part + 1 < cuts.len());
            }
        }
        assert_eq!(total, expected, "{fields:?} {whole} in parts up to {cuts:?}");
        for number in 0..4 {
            let mode = usize::from(fields.channels[number].mode());
            seen[mode][expected[number].min(2) as usize] += 1;
            shared += usize::from(meeting[number] > 1);
        }
    }
    // Only a periodic channel meets more than one point, and mode 3 none.
    assert!(seen[1].iter().all(|&count| count > 500), "{seen:?}");
    for mode in [0, 2] {
        assert!(
            seen[mode][0] > 500 && seen[mode][1] > 500 && seen[mode][2] == 0,
            "{seen:?}"
        );
    }
    assert_eq!(seen[3][1..], [0, 0]);
    assert!(shared > 500 && switched_off > 500, "{shared} {switched_off}");
}

#[test]
fn cycle_by_cycle_the_counts_add_up() {
    // Every setting of small numbers, and the same just below 2^64.
    let mut met = [0_u128; 4];
    for bits in 0..1 << 13 {
        let field = |place: u32, size: u32| bits >> place & ((1 << size) - 1);
        let base = if field(0, 1) == 1 { TOP - 5 } else { 0 };
        let (mode, counter, compare) = (field(1, 2) as u8, field(3, 2), field(5, 3));
        let (reload, prescaler, phase) = (field(8, 2), field(10, 1) as u32, field(11, 1) as u32);
        let channel = Channel {
            reload,
            armed: field(12, 1) == 1,
            ..channel(mode, base + counter, base.wrapping_add(compare))
        };
        let channels = [prescaled(channel, prescaler, phase.min(prescaler)); 4];
        let fields = board_of(channels);
        let mut board = Board::from_fields(&fields);
        let mut total = [0; 4];
        for cycles in 0..=12 {
            assert_eq!(counts(&fields, cycles), total, "{channel:?} {cycles}");
            let (_, matches) = advanced(&mut board, 1);
            (0..4).for_each(|number| total[number] += matches[number]);
        }
        met[usize::from(mode)] = met[usize::from(mode)].max(total[0]);
    }
    // The largest counts: just below 2^64 a compare past it is 0, and with reload 1 every number is an overdue point.
    assert_eq!(met, [1, 1 << 64, 1, 0]);
}

/// The runner at a rate that counts, and the one that is measured, which does not.
fn runners_at(rate: u32) -> [Runner; 2] {
    [runner, uncounted_runner].map(|of_rate| of_rate(rate).expect("the rate is one of the three"))
}

#[test]
fn a_run_that_does_not_count_differs_in_the_counts_alone() {
    for rate in RATES {
        let runners = runners_at(rate);
        let mut differ = 0;
        for seed in 0..200 {
            let generated = generate::list_at(rate, seed);
            let [mut counted, uncounted] = runners.map(|runner| {
                let mut answers = vec![0; generated.buffer];
                let outcome = runner(&generated.list, &[], 0, &mut answers);
                (outcome, answers)
            });
            differ += usize::from(uncounted != counted);
            let written = counted.0.answer_bytes;
            zero_counts(&mut counted.1[..written]);
            assert_eq!(uncounted, counted, "seed {seed} at {rate}");
        }
        assert!(differ > 50, "{differ} at {rate}");
    }
    // Setting B, the channel's interrupt not enabled: a count of 3, in the last of its 16 bytes, and 0.
    let mut first = program(0, 5, 0, 10, 4);
    first.push(byte(registers::ENABLE + 3, 1));
    let list = list_of(&[Call::Advance { cycles: 19 }]);
    for (runner, count) in RATES
        .into_iter()
        .flat_map(|rate| runners_at(rate).into_iter().zip([3, 0]))
    {
        let mut record = [0xEE; 68];
        let outcome = runner(&list_of(&first), &list, 1, &mut record);
        assert_eq!((outcome.answer_bytes, outcome.refusal), (68, None));
        let mut expected = [0; 68];
        (expected[0], expected[2], expected[19]) = (4, 65, count);
        assert_eq!(record, expected);
    }
}
