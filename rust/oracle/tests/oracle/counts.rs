//! The comparison of counts of matches: its boards have the settings that they are made for, their advances reach every
//! kind of count, and it finds planted faults.

use std::collections::BTreeSet;

use calls::{Answer, Call, Outcome};
use oracle::compare::matches::{advances, lists, starts};
use oracle::compare::Runner;
use oracle::fields::{Channel, Fields};
use oracle::list::run_repeated;

use crate::support::*;

#[test]
fn the_boards_have_their_settings() {
    let mut seen = BTreeSet::new();
    for start in starts() {
        let fields = made(&start);
        for (number, channel) in start.channels.iter().enumerate() {
            seen.insert((fields.runs(number), channel.mode(), channel.pending, channel.armed));
        }
    }
    // Running or not, four modes, pending or not, armed or not.
    assert_eq!(seen.len(), 32);
}

#[test]
fn the_advances_reach_every_sort_of_count() {
    // 0, 1, up to 2^32, up to 2^64 - 1, and 2^64, for each channel; and advances whose four counts all differ.
    let mut seen = [[0; 5]; 4];
    let mut different = 0;
    for start in starts() {
        let fields = made(&start);
        for cycles in advances(&start.channels) {
            let (_, matches) = advanced(&mut Board::from_fields(&fields), cycles);
            for (seen, count) in seen.iter_mut().zip(matches) {
                let sort = [1, 2, (1 << 32) + 1, 1 << 64].iter().filter(|limit| count >= **limit);
                seen[sort.count()] += 1;
            }
            different += usize::from(BTreeSet::from(matches).len() == 4);
        }
    }
    assert!(seen.iter().flatten().all(|&count| count > 50), "{seen:?}");
    assert!(different > 200, "{different}");
}

/// The counts that a faulty advance gives, from the fields before and after it and the correct counts.
type Fault = fn(&Fields, &Fields, [u128; 4]) -> [u128; 4];

/// The counts with those of some channels replaced.
fn replaced(counts: [u128; 4], change: impl Fn(usize, u128) -> u128) -> [u128; 4] {
    std::array::from_fn(|number| change(number, counts[number]))
}

/// The counts of channels in a mode replaced; the function is given the channel before and after the advance.
fn of_mode(
    mode: u8,
    before: &Fields,
    after: &Fields,
    counts: [u128; 4],
    change: fn(&Channel, &Channel, u128) -> u128,
) -> [u128; 4] {
    replaced(counts, |number, count| {
        let (old, new) = (&before.channels[number], &after.channels[number]);
        if old.mode() == mode {
            change(old, new, count)
        } else {
            count
        }
    })
}

const FAULTS: [(&str, Fault); 18] = [
    ("no counts", |_, _, _| [0; 4]),
    ("channel 3 first", |_, _, [a, b, c, d]| [d, c, b, a]),
    ("channels 1 and 2 exchanged", |_, _, [a, b, c, d]| [a, c, b, d]),
    ("2^64 as 0", |_, _, counts| counts.map(|count| u128::from(count as u64))),
    ("2^64 as 2^64 - 1", |_, _, counts| {
        counts.map(|count| count.min(u64::MAX.into()))
    }),
    ("at most 2^32", |_, _, counts| counts.map(|count| count.min(1 << 32))),
    ("1 for any match", |_, _, counts| counts.map(|count| count.min(1))),
    ("0 where pending was set before", |before, _, counts| {
        replaced(
            counts,
            |number, count| if before.channels[number].pending { 0 } else { count },
        )
    }),
    ("0 without interrupt enable", |before, _, counts| {
        replaced(counts, |number, count| {
            if before.channels[number].interrupt_enabled() {
                count
            } else {
                0
            }
        })
    }),
    ("without overdue points", |before, after, counts| {
        of_mode(1, before, after, counts, |old, _, count| {
            let overdue = old
                .counter
                .checked_sub(old.compare)
                .and_then(|past| past.checked_div(old.reload));
            count.saturating_sub(overdue.map_or(0, |periods| u128::from(periods) + 1))
        })
    }),
    ("0 with reload 0", |before, after, counts| {
        of_mode(
            1,
            before,
            after,
            counts,
            |old, _, count| if old.reload == 0 { 0 } else { count },
        )
    }),
    ("0 where the next compare is too large", |before, after, counts| {
        of_mode(1, before, after, counts, |old, new, count| {
            if old.reload > 0 && !new.enabled() {
                0
            } else {
                count
            }
        })
    }),
    (
        "one less where the next compare is too large",
        |before, after, counts| {
            of_mode(1, before, after, counts, |old, new, count| {
                count.saturating_sub(u128::from(old.reload > 0 && !new.enabled()))
            })
        },
    ),
    ("points past 2^64 - 1", |before, after, counts| {
        // As if the counter did not stop: one point more where it has reached the top.
        of_mode(1, before, after, counts, |old, new, count| {
            count + u128::from(count > 0 && old.reload == 1 && new.counter == u64::MAX)
        })
    }),
    ("an overdue point without a tick", |before, after, counts| {
        of_mode(1, before, after, counts, |old, new, count| {
            let overdue = old.enabled() && old.compare <= old.counter;
            count.max(u128::from(
                overdue && old.counter == new.counter && old.compare == new.compare,
            ))
        })
    }),
    ("a stopped one-shot that is overdue", |before, after, counts| {
        of_mode(0, before, after, counts, |old, _, count| {
            count.max(u128::from(!old.enabled() && old.compare <= old.counter))
        })
    }),
    ("distance 0 reached at once", |before, after, counts| {
        of_mode(2, before, after, counts, |old, new, count| {
            let moved = old.counter != new.counter;
            count.max(u128::from(old.armed && moved && old.compare == old.counter))
        })
    }),
    ("mode 3 as mode 0", |before, after, counts| {
        of_mode(3, before, after, counts, |old, new, count| {
            count.max(u128::from(
                old.enabled() && old.phase != new.phase && old.compare <= old.counter,
            ))
        })
    }),
];

/// The Rust, except for its counts, which have fault `FAULT`.
fn faulty<const FAULT: usize>(first: &[u8], list: &[u8], times: u64, answers: &mut [u8]) -> Outcome {
    let (_, fault) = FAULTS[FAULT];
    call_by_call(first, list, times, answers, |board, call, room| {
        let before = board.fields();
        let outcome = run(board, call, room);
        let record = &mut room[..outcome.answer_bytes];
        if let Ok((tag, Answer::Advance { line, matches }, _)) = Answer::decode(record) {
            let matches = fault(&before, &board.fields(), matches);
            Answer::Advance { line, matches }.store(tag, record);
        }
        outcome
    })
}

#[test]
fn the_rust_agrees_with_itself_on_counts() {
    let count = lists(&pair(run_repeated)).unwrap();
    assert!(count.comparisons > 10_000, "{count:?}");
    // Two advances each.
    assert_eq!(count.calls, 2 * count.comparisons);
}

#[test]
fn faults_of_counts_are_found() {
    let faulty: [Runner; FAULTS.len()] = runners!(faulty: 0 1 2 3 4 5 6 7 8 9 10 11 12 13 14 15 16 17);
    for ((name, _), runner) in FAULTS.into_iter().zip(faulty) {
        let difference = lists(&pair(runner)).expect_err(name);
        // The shortest list that shows it begins with an advance.
        let shown = Call::decode(&difference.second).map(|(call, _)| call.tag());
        assert_eq!(shown, Ok(Call::Advance { cycles: 0 }.tag()), "{name}: {difference}");
    }
}
