//! The dispatcher's rule: turns worked out by hand from S-3's sentences, the sixteen turns within which a source is
//! served, and the faults that the comparison finds.

use oracle::compare::dispatcher::compare;
use oracle::compare::Count;
use oracle::dispatcher::{turn, Turn, FRESH};
use oracle::generate::Random;

/// Levels that no turn may change.
const LEVELS: u16 = 0x1234;
const ALL: u16 = 0xFFFF;

#[test]
fn turns_are_those_worked_out_by_hand() {
    assert_eq!(FRESH, 15);
    // Remembered, pending and enable; then the source served, pending after, and remembered after.
    for (last, pending, enable, served, pending_after, remembered) in [
        // A fresh dispatcher has 15, and 0 follows.
        (15, ALL, ALL, Some(0), 0xFFFE, 0),
        // Sources 0 and 9, in turn.
        (0, 0x0201, ALL, Some(9), 0x0001, 9),
        (9, 0x0201, ALL, Some(0), 0x0200, 0),
        // Going round.
        (14, 0x8001, ALL, Some(15), 0x0001, 15),
        (15, 0x8001, ALL, Some(0), 0x8000, 0),
        // The remembered source itself comes last, after the one below it.
        (5, 0x0070, ALL, Some(6), 0x0030, 6),
        (5, 0x0030, ALL, Some(4), 0x0020, 4),
        (5, 0x0020, ALL, Some(5), 0x0000, 5),
        (15, 0x8000, ALL, Some(15), 0x0000, 15),
        // Sources 4 and 8 are pending, and 4 is not enabled.
        (3, 0x0110, 0xFFEF, Some(8), 0x0010, 8),
        (3, 0x0110, 0x0010, Some(4), 0x0100, 4),
        // None is served: nothing pending, nothing enabled, and none of the pending ones enabled.
        (7, 0x0000, ALL, None, 0x0000, 7),
        (7, ALL, 0x0000, None, ALL, 7),
        (0, 0x5A3C, 0xA5C3, None, 0x5A3C, 0),
        (15, 0x0000, 0x0000, None, 0x0000, 15),
        // A number above 15 is read as 15; modulo 16, 16 would be 0 and 255 would be 15.
        (16, 0x8001, ALL, Some(0), 0x8000, 0),
        (16, 0x8000, ALL, Some(15), 0x0000, 15),
        (255, 0x8001, ALL, Some(0), 0x8000, 0),
        (16, 0x0000, ALL, None, 0x0000, 15),
        (128, ALL, 0x0000, None, ALL, 15),
        (255, 0x0000, ALL, None, 0x0000, 15),
    ] {
        let expected = Turn {
            words: [pending_after, enable, LEVELS],
            served,
            remembered,
        };
        let found = turn([pending, enable, LEVELS], last);
        assert_eq!(found, expected, "after {last} on {pending:x} and {enable:x}");
    }
}

#[test]
fn a_source_that_stays_is_served_within_sixteen_turns() {
    let mut latest = 0;
    for seed in 0..20_000 {
        let mut random = Random::new(seed);
        let number = random.below(16) as u8;
        let mut last = random.word() as u8;
        let density = random.below(4) as usize;
        // Any words at each turn, with few sources, many or all, always with this one.
        let mut any = || {
            let (one, other) = (random.word() as u16, random.word() as u16);
            [one & other, one, one | other, ALL][density] | 1 << number
        };
        let served = (1..=16).find(|_| {
            let found = turn([any(), any(), any()], last);
            last = found.remembered;
            found.served == Some(number)
        });
        let served = served.unwrap_or_else(|| panic!("source {number} is not served, seed {seed}"));
        latest = latest.max(served);
    }
    // Fewer turns are not enough.
    assert_eq!(latest, 16);
}

#[test]
fn the_remembered_source_waits_for_the_sixteenth_turn_where_all_stay() {
    for number in 0..16 {
        let mut last = number;
        for later in 1..=16 {
            let found = turn([ALL, ALL, LEVELS], last);
            assert_eq!(found.served, Some((number + later) % 16));
            last = found.remembered;
        }
        assert_eq!(last, number);
    }
}

#[test]
fn the_comparison_has_every_pair_of_bytes_after_every_number() {
    let mut turns = 0;
    // The turns on every pair of bytes, as the low halves of pending and enable and as the high ones.
    let mut low = vec![0; 65_536];
    let mut high = low.clone();
    let count = compare(|words, last| {
        turns += 1;
        let [pending, enable, _] = words.map(usize::from);
        if pending < 256 && enable < 256 {
            low[pending << 8 | enable] += 1;
        }
        if pending % 256 == 0 && enable % 256 == 0 {
            high[pending | enable >> 8] += 1;
        }
        turn(words, last)
    });
    let comparisons = 2 * 65_536 + 20_000;
    assert_eq!(count, Ok(Count { comparisons, calls: 0 }));
    assert_eq!(turns, comparisons * 256);
    assert!(low.iter().chain(&high).all(|turns| *turns >= 256));
}

/// A turn with a fault.
type Faulty = fn([u16; 3], u8) -> Turn;

/// The rule, except for a change where a source is served, whose number is given.
fn served_but(words: [u16; 3], last: u8, change: fn(&mut [u16; 3], u8)) -> Turn {
    let mut found = turn(words, last);
    if let Some(number) = found.served {
        change(&mut found.words, number);
    }
    found
}

/// The rule, except that it serves the source of another turn.
fn taken_by(other: Turn, last: u8) -> Turn {
    Turn {
        remembered: other.served.unwrap_or(last.min(15)),
        ..other
    }
}

const FAULTS: [(&str, Faulty); 13] = [
    ("the remembered source first", |words, last| {
        taken_by(turn(words, (last.min(15) + 15) % 16), last)
    }),
    ("pending left set", |words, last| Turn {
        words,
        ..turn(words, last)
    }),
    ("a number above 15 read modulo 16", |words, last| turn(words, last % 16)),
    ("15 remembered where none is served", |words, last| {
        let found = turn(words, last);
        Turn {
            remembered: found.served.unwrap_or(15),
            ..found
        }
    }),
    ("a number above 15 left as it is where none is served", |words, last| {
        let found = turn(words, last);
        Turn {
            remembered: found.served.unwrap_or(last),
            ..found
        }
    }),
    ("all pending bits cleared", |words, last| {
        served_but(words, last, |words, _| words[0] = 0)
    }),
    ("pending bits of the other half cleared", |words, last| {
        served_but(words, last, |words, number| {
            words[0] &= if number < 8 { 0x00FF } else { 0xFF00 };
        })
    }),
    ("enable cleared", |words, last| {
        served_but(words, last, |words, number| words[1] &= !(1 << number))
    }),
    ("level cleared", |words, last| {
        served_but(words, last, |words, number| words[2] &= !(1 << number))
    }),
    ("lowest first", |words, last| taken_by(turn(words, 15), last)),
    ("not going round", |words, last| {
        let found = turn(words, last);
        match found.served {
            Some(number) if number <= last.min(15) => Turn {
                words,
                served: None,
                remembered: last.min(15),
            },
            _ => found,
        }
    }),
    ("source 15 left out", |[pending, enable, levels], last| {
        let mut found = turn([pending, enable & 0x7FFF, levels], last);
        found.words[1] = enable;
        found
    }),
    ("a source that is not enabled", |[pending, enable, levels], last| {
        let mut found = turn([pending, ALL, levels], last);
        found.words[1] = enable;
        found
    }),
];

#[test]
fn faults_of_turns_are_found() {
    for (name, faulty) in FAULTS {
        let text = compare(faulty).expect_err(name);
        assert!(text.starts_with("a turn, "), "{name}: {text}");
    }
    // The first controller that can show a pending bit left set has source 0 alone.
    let (name, faulty) = FAULTS[1];
    let text = compare(faulty).expect_err(name);
    assert!(text.contains(" after 0 on pending, enable, levels [1, 1, "), "{text}");
}
