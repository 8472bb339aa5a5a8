//! Document 01's settings A to J, the wrong readings that it names, and the skip with S-2's limit.

use calls::{list_of, Answer, Call, Outcome, Refusal};
use oracle::board::Reply;
use oracle::fields::Fields;
use oracle::list::run_at;

use crate::support::*;

/// The answers of a list on a fresh board, every call of which must be accepted.
fn answers(calls: &[Call]) -> Vec<u8> {
    answers_at(F, calls)
}

/// The same on a fresh board of a rate.
fn answers_at(rate: u32, calls: &[Call]) -> Vec<u8> {
    let list = list_of(calls);
    let mut answers = vec![0; 32_768];
    let outcome = run_at(rate, &list, &mut answers);
    answers.truncate(outcome.answer_bytes);
    assert_eq!(
        (outcome.calls, outcome.refusal, outcome.list_bytes),
        (calls.len(), None, list.len())
    );
    answers
}

fn writes(bytes: &[(u16, u8)]) -> Vec<Call> {
    bytes
        .iter()
        .map(|&(address, byte)| Call::Write { address, byte })
        .collect()
}

/// The records of the empty answers to a number of writes.
fn written(count: usize) -> Vec<u8> {
    [0x03, 0, 0].repeat(count)
}

/// The record of an advance: the line, and S-4's counts.
fn advance_record(line: u8, matches: [u128; 4]) -> Vec<u8> {
    [&[0x04, 0, 65, line][..], &matches.map(u128::to_be_bytes).concat()].concat()
}

fn deadline_record(exact: u128, capped: u64) -> Vec<u8> {
    [&[0x05, 0, 25, 1][..], &exact.to_be_bytes(), &capped.to_be_bytes()].concat()
}

#[test]
fn a_one_shot_with_prescaler() {
    // Channel 0 is at offset 0x400, address 0x280: compare low, prescaler, control; timer enable at address 4.
    let mut calls = writes(&[(0x293, 10), (0x2A3, 2), (0x283, 12), (0x007, 1)]);
    calls.extend([
        Call::Deadline,
        Call::Advance { cycles: 29 },
        Call::Advance { cycles: 1 },
        Call::ControllerRead { address: 1 },
    ]);
    let expected = [
        &written(4)[..],
        &deadline_record(30, 30),
        &advance_record(0, [0; 4]),
        &advance_record(1, [1, 0, 0, 0]),
        &[0x08, 0, 1, 8],
    ];
    assert_eq!(answers(&calls), expected.concat());
}

#[test]
fn b_periodic_passes_three_periods() {
    let mut fields = running(1);
    fields.channels[0].compare = 10;
    fields.channels[0].reload = 4;
    let after = fields_after(&fields, Call::Advance { cycles: 19 });
    assert_eq!((after.channels[0].counter, after.channels[0].compare), (19, 22));
    assert!(after.channels[0].pending && after.channels[0].enabled());
}

#[test]
fn c_periodic_at_the_top() {
    for (reload, compare, enabled) in [(1, u64::MAX, true), (4, u64::MAX - 1, false)] {
        let mut fields = running(1);
        fields.channels[0].counter = u64::MAX - 2;
        fields.channels[0].compare = u64::MAX - 1;
        fields.channels[0].reload = reload;
        let channel = fields_after(&fields, Call::Advance { cycles: 1 }).channels[0];
        assert_eq!(
            (channel.counter, channel.compare, channel.enabled()),
            (u64::MAX - 1, compare, enabled)
        );
        assert!(channel.pending);
    }
}

#[test]
fn d_free_running_at_distance_0_goes_round() {
    let mut fields = running(2);
    fields.channels[0].armed = true;
    let mut board = Board::from_fields(&fields);
    assert_eq!(deadline(&mut board), Some(1 << 64));
    assert!(!advance(&mut board, u64::MAX));
    assert!(advance(&mut board, 1));
    assert_eq!(board.fields().channels[0].counter, 0);
}

#[test]
fn e_free_running_with_the_largest_prescaler() {
    let mut fields = running(2);
    fields.channels[0].armed = true;
    fields.channels[0].prescaler = u32::MAX;
    assert_eq!(deadline(&mut Board::from_fields(&fields)), Some(1 << 96));
}

#[test]
fn f_alarm_after_two_seconds() {
    // Alarm high at address 0x98, low at 0x94, alarm enable at 0x9C.
    let calls = writes(&[
        (0x98, 0),
        (0x99, 0),
        (0x9A, 0),
        (0x9B, 0),
        (0x94, 0),
        (0x95, 0),
        (0x96, 0),
        (0x97, 2),
        (0x9F, 1),
    ]);
    for (rate, due) in [
        (1_000_000, 2_000_000),
        (12_000_000, 24_000_000),
        (48_000_000, 96_000_000),
    ] {
        let behind = [
            Call::Deadline,
            Call::Advance { cycles: due - 1 },
            Call::Deadline,
            Call::Advance { cycles: 1 },
        ];
        let expected = [
            &written(9)[..],
            &deadline_record(due.into(), due),
            // The alarm is not a match of any channel.
            &advance_record(0, [0; 4]),
            &deadline_record(1, 1),
            &advance_record(1, [0; 4]),
        ];
        assert_eq!(answers_at(rate, &[&calls[..], &behind].concat()), expected.concat());
        // A skip reaches it at once.
        let expected = [&written(9)[..], &[0x06, 0, 9], &due.to_be_bytes(), &[1]];
        assert_eq!(
            answers_at(rate, &[&calls[..], &[Call::Skip]].concat()),
            expected.concat()
        );
    }
}

#[test]
fn g_clock_at_its_top() {
    for (rate, cycles, subsecond) in [
        (1_000_000, 999_999, 999_999),
        (1_000_000, 1_000_000, 0),
        (12_000_000, 11_999_999, 11_999_999),
        (12_000_000, 12_000_000, 0),
        (48_000_000, 47_999_999, 47_999_999),
        (48_000_000, 48_000_000, 0),
    ] {
        let fields = Fields {
            seconds: u64::MAX,
            ..Fields::fresh_at(rate)
        };
        let after = fields_after(&fields, Call::Advance { cycles });
        assert_eq!(
            (after.seconds, after.subsecond),
            (u64::MAX, subsecond),
            "{cycles} at {rate}"
        );
    }
}

#[test]
fn h_lowest_enabled_pending_source() {
    for (enable, number) in [(0x0200, 9), (0x0220, 5)] {
        let mut board = Board::from_fields(&Fields {
            controller_pending: 1 << 5 | 1 << 9,
            controller_enable: enable,
            ..Fields::fresh()
        });
        assert_eq!(
            accepted(&mut board, Call::Output),
            Answer::Output { valid: true, number }
        );
    }
}

#[test]
fn i_seven_bytes_do_not_commit() {
    // Clock control at address 0x80, seconds low at 0x88, high at 0x8C.
    let seven = [
        (0x83, 3),
        (0x8C, 1),
        (0x8D, 1),
        (0x8E, 1),
        (0x8F, 1),
        (0x88, 1),
        (0x89, 1),
        (0x8A, 1),
    ];
    let (outcome, _, board) = run_fresh(&list_of(&writes(&seven)));
    assert_eq!((outcome.calls, outcome.refusal), (8, None));
    let expected = Fields {
        clock_control: 3,
        seconds_shadow: 0x0101_0101_0101_0100,
        seconds_mask: 0x7F,
        ..Fields::fresh()
    };
    assert_eq!(board.fields(), expected);

    let eight = [&writes(&seven)[..], &writes(&[(0x8B, 1)])].concat();
    let (_, _, board) = run_fresh(&list_of(&eight));
    let committed = Fields {
        seconds: 0x0101_0101_0101_0101,
        seconds_shadow: 0x0101_0101_0101_0101,
        seconds_mask: 0,
        ..expected
    };
    assert_eq!(board.fields(), committed);
}

#[test]
fn j_empty_list() {
    let (outcome, answers, board) = run_fresh(&[]);
    assert_eq!(outcome, Default::default());
    assert!(answers.is_empty());
    assert_eq!(board.fields(), Fields::fresh());
}

#[test]
fn wrong_low_count_latched() {
    let mut fields = running(2);
    fields.channels[0].counter = 0x1_FFFF_FFFF;
    let mut board = Board::from_fields(&fields);
    // Count low at address 0x288, high at 0x28C.
    assert_eq!(read(&mut board, 0x288), 0xFF);
    advance(&mut board, 1);
    let low: Vec<u8> = (0x288..0x28C)
        .skip(1)
        .map(|address| read(&mut board, address))
        .collect();
    assert_eq!(low, [0, 0, 0], "the low word is live");
    let high: Vec<u8> = (0x28C..0x290).map(|address| read(&mut board, address)).collect();
    assert_eq!(high, [0, 0, 0, 1], "the high word is latched");
    assert_eq!(read(&mut board, 0x28F), 2, "byte 3 freed the latch");
}

#[test]
fn wrong_compare_of_a_disabled_channel_moved() {
    // Neither control's enable alone nor timer enable alone makes it run; the phase stays too.
    for (control, timer_enable) in [(9, 1), (13, 0), (13, 14)] {
        let mut fields = running(1);
        fields.channels[0].control = control;
        fields.channels[0].compare = 5;
        fields.channels[0].reload = 3;
        fields.channels[0].prescaler = 7;
        fields.channels[0].phase = 4;
        fields.timer_enable = timer_enable;
        let after = fields_after(&fields, Call::Advance { cycles: 1_000 });
        assert_eq!(after.channels, fields.channels);
    }
    // One that the advance itself switches off keeps its compare: setting C with reload 4.
}

#[test]
fn wrong_pending_from_a_steady_level() {
    let mut board = Board::fresh();
    let raise = Call::Source { number: 5, level: 1 };
    accepted(&mut board, raise);
    assert_eq!(board.fields().controller_pending, 1 << 5);
    accepted(
        &mut board,
        Call::ControllerWrite {
            address: 1,
            byte: 1 << 5,
        },
    );
    accepted(&mut board, raise);
    assert_eq!(board.fields().controller_pending, 0);

    // The same for the line, which the board sets after every call.
    let mut fields = running(0);
    fields.channels[0].compare = 1;
    let mut board = Board::from_fields(&fields);
    assert!(advance(&mut board, 1));
    assert_eq!(board.fields().controller_pending, 1 << 3);
    accepted(
        &mut board,
        Call::ControllerWrite {
            address: 1,
            byte: 1 << 3,
        },
    );
    assert!(advance(&mut board, 1));
    assert_eq!(board.fields().controller_pending, 0);
}

#[test]
fn wrong_subsecond_1_kept_when_the_clock_is_switched_off() {
    let fields = Fields {
        subsecond: 1,
        ..Fields::fresh()
    };
    let after = fields_after(&fields, Call::Write { address: 0x83, byte: 0 });
    assert_eq!((after.clock_control, after.seconds, after.subsecond), (0, 0, 0));
    // By way of nanoseconds 3 cycles are 62.5 ns, cut to 62, and these are 2.976 cycles, cut to 2.
    let fields = Fields { subsecond: 3, ..fields };
    let after = fields_after(&fields, Call::Write { address: 0x83, byte: 0 });
    assert_eq!(after.subsecond, 2);
    let fields = Fields { subsecond: 6, ..fields };
    let after = fields_after(&fields, Call::Write { address: 0x83, byte: 0 });
    assert_eq!(after.subsecond, 6, "6 cycles are 125 ns exactly");
    // At 12,000,000 a cycle is 83 1/3 ns, and 83 ns are 0.996 cycles; at 1,000,000 it is 1,000 ns.
    for (rate, subsecond, after) in [
        (12_000_000, 1, 0),
        (12_000_000, 2, 1),
        (12_000_000, 3, 3),
        (12_000_000, 11_999_999, 11_999_998),
        (1_000_000, 1, 1),
        (1_000_000, 999_999, 999_999),
        (48_000_000, 47_999_999, 47_999_998),
    ] {
        let fields = Fields {
            subsecond,
            ..Fields::fresh_at(rate)
        };
        let switched = fields_after(&fields, Call::Write { address: 0x83, byte: 0 });
        assert_eq!(switched.subsecond, after, "{subsecond} at {rate}");
    }
}

#[test]
fn skip_by_line_and_deadline_of_any_board() {
    let mut seen = [0; 4];
    for (_, fields) in RATES.into_iter().flat_map(|rate| sound_boards_at(rate, 8_000)) {
        let mut board = Board::from_fields(&fields);
        let deadline = deadline(&mut board);
        let reply = board.call(Call::Skip);
        let after = board.fields();
        let kind = match deadline.map(u64::try_from) {
            _ if fields.line() => {
                assert_eq!((reply, after), (skipped(0, true), fields));
                0
            }
            None => {
                assert_eq!((reply, after), (skipped(0, false), fields));
                1
            }
            Some(Ok(cycles)) => {
                assert_eq!(reply, skipped(cycles, true));
                assert_eq!(after, fields_after(&fields, Call::Advance { cycles }));
                2
            }
            Some(Err(_)) => {
                assert_eq!((reply, after), (TOO_LARGE, fields));
                3
            }
        };
        seen[kind] += 1;
    }
    assert!(seen.iter().all(|&count| count > 500), "{seen:?}");
}

/// Boards whose D is 2^64 - 1 or above, with the line low: a name, D and the fields.
fn far_boards() -> Vec<(&'static str, u128, Fields)> {
    let with = |mode, edit: fn(&mut Fields)| {
        let mut fields = running(mode);
        fields.channels[0].armed = true;
        edit(&mut fields);
        fields
    };
    let alarm = |alarm, subsecond| Fields {
        alarm,
        subsecond,
        alarm_armed: true,
        alarm_enable: 1,
        ..Fields::fresh()
    };
    vec![
        (
            "one-shot at the top",
            (1 << 64) - 1,
            with(0, |f| f.channels[0].compare = u64::MAX),
        ),
        (
            "periodic at the top",
            (1 << 64) - 1,
            with(1, |f| f.channels[0].compare = u64::MAX),
        ),
        (
            "free-running below distance 0",
            (1 << 64) - 1,
            with(2, |f| f.channels[0].counter = 1),
        ),
        ("distance 0", 1 << 64, with(2, |_| {})),
        (
            "distance 0 at another counter",
            1 << 64,
            with(2, |f| {
                (f.channels[0].counter, f.channels[0].compare) = (77, 77);
            }),
        ),
        // 2^32 ticks of 2^32 cycles, at phase 0 and 1.
        (
            "2^32 ticks",
            1 << 64,
            with(0, |f| {
                (f.channels[0].compare, f.channels[0].prescaler) = (1 << 32, u32::MAX);
            }),
        ),
        (
            "2^32 ticks but one cycle",
            (1 << 64) - 1,
            with(1, |f| {
                (f.channels[0].compare, f.channels[0].prescaler, f.channels[0].phase) = (1 << 32, u32::MAX, 1);
            }),
        ),
        // 2^63 + 1 ticks of 2 cycles, at phase 1.
        (
            "one cycle more",
            (1 << 64) + 1,
            with(0, |f| {
                (f.channels[0].compare, f.channels[0].prescaler, f.channels[0].phase) = ((1 << 63) + 1, 1, 1);
            }),
        ),
        ("the largest", 1 << 96, with(2, |f| f.channels[0].prescaler = u32::MAX)),
        // 2^64 = 384,307,168,202 x F + 13,551,616, so 384,307,168,203 x F is 34,448,384 more than 2^64.
        ("an alarm at the top", (1 << 64) - 1, alarm(384_307_168_203, 34_448_385)),
        ("an alarm past the top", 1 << 64, alarm(384_307_168_203, 34_448_384)),
        ("the last alarm", 0xFFFF_FFFF_FFFF_FFFF * 48_000_000, alarm(u64::MAX, 0)),
    ]
}

/// The reply of an accepted skip.
fn skipped(passed: u64, line: bool) -> Reply {
    Reply {
        refusal: None,
        answer: Answer::Skip { passed, line },
    }
}

/// The reply of a skip that is refused with 13.
const TOO_LARGE: Reply = Reply {
    refusal: Some(Refusal::DeadlineTooLarge),
    answer: Answer::Skip { passed: 0, line: false },
};

#[test]
fn skip_gets_there_or_is_refused_with_13() {
    for (name, exact, fields) in far_boards() {
        let mut board = Board::from_fields(&fields);
        assert_eq!(deadline(&mut board), Some(exact), "{name}");
        let reply = board.call(Call::Skip);
        if exact < 1 << 64 {
            assert_eq!(reply, skipped(exact as u64, true), "{name}");
            let advanced = fields_after(&fields, Call::Advance { cycles: exact as u64 });
            assert_eq!(board.fields(), advanced, "{name}");
            assert!(advanced.line(), "{name}");
        } else {
            assert_eq!(reply, TOO_LARGE, "{name}");
            assert_eq!(board.fields(), fields, "{name}");
            assert_eq!(number(&reply), 13);
            // Once the remaining deadline fits, a skip reaches it.
            if exact < (1 << 65) - 1 {
                assert!(!advance(&mut board, u64::MAX), "{name}");
                let rest = (exact - u128::from(u64::MAX)) as u64;
                assert_eq!(board.call(Call::Skip), skipped(rest, true), "{name}");
            }
        }
    }
}

#[test]
fn skip_is_refused_with_13_after_1_and_before_11() {
    let calls = [Call::Source { number: 4, level: 1 }, Call::Skip, Call::Output];
    let list = list_of(&calls);
    for (name, exact, fields) in far_boards() {
        let too_large = exact >= 1 << 64;
        // The source's record has 3 bytes, the skip's 12, the output's 5.
        for length in 0..=21 {
            let mut board = Board::from_fields(&fields);
            let mut buffer = [0xEE; 21];
            let outcome = run(&mut board, &list, &mut buffer[..length]);
            let (done, refusal) = match length {
                0..3 => (0, 11),
                _ if too_large => (1, 13),
                3..15 => (1, 11),
                15..20 => (2, 11),
                _ => (3, 0),
            };
            let expected = Outcome {
                calls: done,
                list_bytes: [0, 5, 8, 11][done],
                answer_bytes: [0, 3, 15, 20][done],
                refusal: Refusal::from_number(refusal),
            };
            assert_eq!(outcome, expected, "{name} into {length}");
            // The calls before the refused one stand, and nothing else changes.
            let after = calls[..done]
                .iter()
                .fold(fields, |fields, &call| fields_after(&fields, call));
            assert_eq!(board.fields(), after, "{name} into {length}");
            assert!(buffer[outcome.answer_bytes..].iter().all(|&byte| byte == 0xEE));
        }
        // A record that is cut or too long is refused for its form.
        for (form, refusal) in [(&[6][..], 2), (&[6, 0], 2), (&[6, 0, 1, 0], 4)] {
            let mut board = Board::from_fields(&fields);
            assert_eq!(run(&mut board, form, &mut []).refusal_number(), refusal, "{name}");
        }
        // A board that is not sound is refused for that.
        let unsound = Fields {
            timer_enable: 17,
            ..fields
        };
        let mut board = Board::from_fields(&unsound);
        assert_eq!(number(&board.call(Call::Skip)), 1, "{name}");
        assert_eq!(run(&mut board, &[6, 0, 0], &mut []).refusal_number(), 1, "{name}");
        assert_eq!(board.fields(), unsound, "{name}");
    }
}

#[test]
fn skip_of_a_high_line_is_accepted_beside_any_deadline() {
    for (name, exact, mut fields) in far_boards() {
        // Channel 1 is pending with its interrupt enabled, and does not run.
        fields.channels[1].pending = true;
        fields.channels[1].control = 8;
        fields.controller_levels = 1 << 3;
        let mut board = Board::from_fields(&fields);
        assert_eq!(deadline(&mut board), Some(exact), "{name}");
        assert_eq!(board.call(Call::Skip), skipped(0, true), "{name}");
        assert_eq!(board.fields(), fields, "{name}");
    }
}

#[test]
fn the_smallest_deadline_decides_a_skip() {
    for (name, exact, mut fields) in far_boards() {
        // Channel 1 is due after 5 cycles; without its interrupt, never.
        fields.timer_enable |= 2;
        fields.channels[1].compare = 5;
        fields.channels[1].control = 12;
        assert_eq!(Board::from_fields(&fields).call(Call::Skip), skipped(5, true), "{name}");
        fields.channels[1].control = 4;
        let reply = Board::from_fields(&fields).call(Call::Skip);
        assert_eq!(number(&reply), if exact < 1 << 64 { 0 } else { 13 }, "{name}");
    }
}
