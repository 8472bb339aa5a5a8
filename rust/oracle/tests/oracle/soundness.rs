//! Sound: each clause of document 01, what is refused without it, and that every call keeps it.

use calls::{list_of, Call, Outcome, Refusal};
use oracle::compare::clock::other_rates;
use oracle::fields::Fields;

use crate::support::*;

pub type Edit = fn(&mut Fields);

/// For each clause, an edit of the fresh board that breaks it and the nearest one that does not.
pub const CLAUSES: [(&str, Edit, Edit); 19] = [
    (
        "control",
        |f| f.channels[3].control = 16,
        |f| f.channels[3].control = 15,
    ),
    (
        "phase",
        |f| f.channels[1].phase = 1,
        |f| (f.channels[1].phase, f.channels[1].prescaler) = (1, 1),
    ),
    (
        "phase at the top",
        |f| (f.channels[2].phase, f.channels[2].prescaler) = (u32::MAX, u32::MAX - 1),
        |f| (f.channels[2].phase, f.channels[2].prescaler) = (u32::MAX, u32::MAX),
    ),
    ("timer enable", |f| f.timer_enable = 16, |f| f.timer_enable = 15),
    ("clock control", |f| f.clock_control = 8, |f| f.clock_control = 7),
    ("alarm enable", |f| f.alarm_enable = 2, |f| f.alarm_enable = 1),
    ("subsecond", |f| f.subsecond = F, |f| f.subsecond = F - 1),
    (
        "offset nanoseconds",
        |f| f.offset_nanoseconds = SECOND as u32,
        |f| f.offset_nanoseconds = SECOND as u32 - 1,
    ),
    (
        "host nanoseconds",
        |f| f.host_nanoseconds = SECOND as u32,
        |f| f.host_nanoseconds = SECOND as u32 - 1,
    ),
    (
        "negative zero",
        |f| f.offset_negative = true,
        |f| (f.offset_negative, f.offset_nanoseconds) = (true, 1),
    ),
    ("seconds mask", |f| f.seconds_mask = 255, |f| f.seconds_mask = 254),
    ("alarm mask", |f| f.alarm_mask = 255, |f| f.alarm_mask = 254),
    ("poll", |f| f.poll = POLL, |f| f.poll = POLL - 1),
    (
        "alarm pending and armed",
        |f| (f.alarm_pending, f.alarm_armed, f.alarm) = (true, true, 1),
        |f| (f.alarm_pending, f.alarm) = (true, 1),
    ),
    (
        "armed alarm at seconds",
        |f| f.alarm_armed = true,
        |f| (f.alarm_armed, f.alarm) = (true, 1),
    ),
    (
        "armed alarm below seconds",
        |f| (f.alarm_armed, f.alarm, f.seconds, f.clock_control) = (true, 1, 2, 3),
        |f| (f.alarm_armed, f.alarm, f.seconds, f.clock_control) = (true, 1, 2, 5),
    ),
    (
        "level of a high line",
        |f| (f.channels[0].pending, f.channels[0].control) = (true, 8),
        |f| (f.channels[0].pending, f.channels[0].control, f.controller_levels) = (true, 8, 8),
    ),
    (
        "level of a low line",
        |f| (f.controller_levels, f.channels[0].pending, f.alarm_enable) = (8, true, 1),
        |f| (f.controller_levels, f.channels[0].pending, f.alarm_enable) = (0xFFF7, true, 1),
    ),
    (
        "empty latch",
        |f| f.clock_high_latch.value = 1,
        |f| (f.clock_high_latch.held, f.clock_high_latch.value) = (true, 1),
    ),
];

/// S-7's clause, on a field that the old form of an image does not have: 'a record carrying a rate outside the three is
/// 1'.
pub const RATE_CLAUSES: [(&str, Edit, Edit); 4] = [
    ("rate 0", |f| f.rate = 0, |f| f.rate = 1_000_000),
    ("rate below", |f| f.rate = 999_999, |f| f.rate = 1_000_000),
    ("rate between", |f| f.rate = 24_000_000, |f| f.rate = 12_000_000),
    ("rate above", |f| f.rate = 48_000_001, |f| f.rate = 48_000_000),
];

#[test]
fn a_board_that_is_not_sound_is_refused_with_1() {
    for (name, unsound, sound) in CLAUSES.into_iter().chain(RATE_CLAUSES) {
        let mut fields = Fields::fresh();
        unsound(&mut fields);
        assert!(!fields.sound(), "{name}");
        let mut board = Board::from_fields(&fields);
        for call in CALLS {
            let reply = board.call(call);
            assert_eq!(
                (number(&reply), reply.answer),
                (1, call.zero_answer()),
                "{name}, {call:?}"
            );
        }
        // 1 comes before a call's own refusals and those of the list.
        assert_eq!(number(&board.call(Call::Source { number: 16, level: 2 })), 1);
        for list in [&[][..], &[1], &list_of(&CALLS)] {
            let mut buffer = [0xEE; 100];
            let refused = Outcome {
                refusal: Some(Refusal::UnsoundBoard),
                ..Outcome::default()
            };
            assert_eq!(run(&mut board, list, &mut buffer), refused);
            assert_eq!(buffer, [0xEE; 100]);
        }
        assert_eq!(board.fields(), fields, "{name}");

        let mut fields = Fields::fresh();
        sound(&mut fields);
        assert!(fields.sound(), "{name}");
        for call in CALLS {
            assert_eq!(Board::from_fields(&fields).call(call).refusal, None, "{name}, {call:?}");
        }
    }
    // The clauses on an empty latch hold for each latch.
    let edits: [Edit; 5] = [
        |f| f.clock_low_latch.value = 1,
        |f| f.count_latches[0].value = 1,
        |f| f.count_latches[1].value = 1,
        |f| f.count_latches[2].value = 1,
        |f| f.count_latches[3].value = 1,
    ];
    for edit in edits {
        let mut fields = Fields::fresh();
        edit(&mut fields);
        assert!(!fields.sound());
    }
}

#[test]
fn the_fresh_board_is_document_01s() {
    assert_eq!(Board::fresh().fields(), Fields::fresh());
    assert!(Board::fresh().sound());
    assert_eq!(Fields::fresh(), Fields::fresh_at(F));
}

#[test]
fn a_fresh_board_takes_one_of_three_rates() {
    for rate in RATES {
        let (board, refusal) = Board::fresh_at(rate);
        assert_eq!((board.fields(), refusal), (Fields::fresh_at(rate), None));
        assert!(board.sound());
        // The same, except for the rate.
        let other = Fields {
            rate: F,
            ..board.fields()
        };
        assert_eq!(other, Fields::fresh());
    }
    for rate in other_rates() {
        assert!(!RATES.contains(&rate));
        let (board, refusal) = Board::fresh_at(rate);
        assert_eq!(
            (board.fields(), refusal),
            (Fields::fresh(), Some(Refusal::UnsupportedRate))
        );
        assert!(!Fields::fresh_at(rate).sound(), "{rate}");
    }
}

#[test]
fn subsecond_and_poll_are_below_the_boards_own_limits() {
    for rate in RATES {
        for (subsecond, poll, sound) in [
            (rate - 1, poll_at(rate) - 1, true),
            (rate, 0, false),
            (0, poll_at(rate), false),
        ] {
            let fields = Fields {
                subsecond,
                poll,
                ..Fields::fresh_at(rate)
            };
            let refusal = number(&Board::from_fields(&fields).call(Call::Output));
            assert_eq!(
                (fields.sound(), refusal),
                (sound, u8::from(!sound)),
                "{subsecond} {poll} at {rate}"
            );
        }
    }
}

#[test]
fn fields_are_set_and_read_back() {
    for (mut random, fields) in RATES.into_iter().flat_map(|rate| sound_boards_at(rate, 8_000)) {
        let board = Board::from_fields(&fields);
        assert!(fields.sound());
        assert_eq!(board.fields(), fields);
        // Reading leaves the controller as it is.
        assert_eq!(board.fields(), fields);
        let mut any = Fields::fresh_at(random.word() as u32);
        any.controller_levels = random.word() as u16;
        any.offset_nanoseconds = random.word() as u32;
        assert_eq!(Board::from_fields(&any).fields(), any);
    }
}

#[test]
fn every_call_keeps_a_sound_board_sound() {
    let mut accepted = [0; 11];
    let mut refused = [0; 14];
    for (mut random, fields) in RATES.into_iter().flat_map(|rate| sound_boards_at(rate, 25_000)) {
        let mut board = Board::from_fields(&fields);
        for _ in 0..4 {
            let before = board.fields();
            let call = random.call();
            let reply = board.call(call);
            let after = board.fields();
            assert!(after.sound(), "{before:?} {call:?} {after:?}");
            assert_eq!(after.rate, fields.rate);
            if reply.refusal.is_none() {
                accepted[usize::from(call.tag())] += 1;
                deadline(&mut board);
            } else {
                refused[usize::from(number(&reply))] += 1;
                assert_eq!((reply.answer, after), (call.zero_answer(), before));
            }
        }
    }
    assert!(accepted[1..].iter().all(|&count| count > 10_000), "{accepted:?}");
    for (number, &count) in refused.iter().enumerate() {
        let own = matches!(number, 6..=10 | 13);
        assert!(if own { count > 500 } else { count == 0 }, "{refused:?}");
    }
}
