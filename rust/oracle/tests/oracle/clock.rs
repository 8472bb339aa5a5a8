//! The clock: control changes, offsets, commits of the shadows, and the poll of an alarm on host time.

use calls::Call;
use oracle::fields::Fields;

use crate::rules::{carry_out, set_source_3};
use crate::support::*;

const CONTROL: u16 = 0x83;
/// Bytes of the clock's seconds and of the alarm, most significant first.
const SECONDS: [u16; 8] = [0x8C, 0x8D, 0x8E, 0x8F, 0x88, 0x89, 0x8A, 0x8B];
const ALARM: [u16; 8] = [0x98, 0x99, 0x9A, 0x9B, 0x94, 0x95, 0x96, 0x97];

#[test]
fn every_control_from_every_control() {
    RATES.into_iter().for_each(every_control_at);
}

/// The same for clocks at a rate.
fn every_control_at(rate: u32) {
    let offsets = [
        0,
        1,
        -1,
        11 * SECOND / 2,
        -11 * SECOND / 2,
        i128::from(u64::MAX) * SECOND + SECOND - 1,
        -i128::from(u64::MAX) * SECOND - SECOND + 1,
    ];
    let hosts = [(0, 0), (5, 500_000_000), (7, 1), (u64::MAX, 999_999_999)];
    let times = [(0, 0), (7, 1), (7, rate / 2 - 1), (5, rate / 2), (u64::MAX, rate - 1)];
    let alarms = [None, Some(0), Some(6), Some(8), Some(u64::MAX)];
    let (mut changes, mut negative, mut positive, mut zero, mut saturated, mut pending) = (0, 0, 0, 0, 0, 0);
    for (before, after) in (0..8).flat_map(|before| (0..8).map(move |after| (before, after))) {
        for offset in offsets {
            for (host_seconds, host_nanoseconds) in hosts {
                for (seconds, subsecond) in times {
                    for alarm in alarms {
                        let mut fields = Fields {
                            clock_control: before,
                            seconds,
                            subsecond,
                            alarm_enable: 1,
                            alarm: alarm.unwrap_or(0),
                            alarm_armed: alarm.is_some(),
                            seconds_shadow: 0x1122_3344_5566_7788,
                            seconds_mask: 0x5A,
                            poll: 77,
                            host_seconds,
                            host_nanoseconds,
                            ..Fields::fresh_at(rate)
                        };
                        set_offset(&mut fields, offset);
                        if !fields.sound() {
                            continue;
                        }
                        let call = Call::Write {
                            address: CONTROL,
                            byte: after,
                        };
                        let found = fields_after(&fields, call);
                        assert_eq!(found, carry_out(&fields, call).1, "{fields:?} to {after}");
                        changes += 1;
                        if found.offset_ns() != offset {
                            negative += usize::from(found.offset_ns() < 0);
                            positive += usize::from(found.offset_ns() > 0);
                            zero += usize::from(found.offset_ns() == 0);
                        }
                        saturated += usize::from(found.seconds == u64::MAX && seconds != u64::MAX);
                        pending += usize::from(found.alarm_pending);
                    }
                }
            }
        }
    }
    assert!(changes > 30_000, "{changes}");
    for count in [negative, positive, zero, saturated, pending] {
        assert!(count > 100, "{negative} {positive} {zero} {saturated} {pending}");
    }
}

#[test]
fn control_takes_its_low_byte_only() {
    for address in [0x80, 0x81, 0x82] {
        let after = fields_after(&Fields::fresh(), Call::Write { address, byte: 0xFF });
        assert_eq!(after, Fields::fresh());
    }
    let after = fields_after(
        &Fields::fresh(),
        Call::Write {
            address: CONTROL,
            byte: 0xFB,
        },
    );
    assert_eq!(after.clock_control, 3);
}

#[test]
fn a_change_into_realtime_ends_with_the_alarm_check_too() {
    // Document 01 names the check for a clock left enabled and not realtime, and says that control changes
    // follow `write_rtc_control`, which checks after every change. Disabled, a clock may stand past its alarm.
    let fields = Fields {
        clock_control: 0,
        seconds: 1,
        alarm: 1,
        alarm_armed: true,
        ..Fields::fresh()
    };
    assert!(fields.sound());
    for control in [1, 5] {
        let after = fields_after(
            &fields,
            Call::Write {
                address: CONTROL,
                byte: control,
            },
        );
        assert!(after.alarm_pending && !after.alarm_armed, "{control}");
    }
}

/// Writes all bytes in the order of `places` and gives after how many a commit was made, which the mask shows.
fn commits_after(fields: &Fields, addresses: [u16; 8], places: &[usize]) -> Option<usize> {
    let mut board = Board::from_fields(fields);
    for (count, &place) in places.iter().enumerate() {
        write(&mut board, addresses[place], place as u8 + 1);
        let fields = board.fields();
        let mask = if addresses == SECONDS {
            fields.seconds_mask
        } else {
            fields.alarm_mask
        };
        if mask == 0 {
            let value = if addresses == SECONDS {
                fields.seconds
            } else {
                fields.alarm
            };
            assert_eq!(value, 0x0102_0304_0506_0708);
            return Some(count + 1);
        }
    }
    None
}

#[test]
fn the_eighth_distinct_byte_commits() {
    for clock_control in 0..8 {
        let fields = Fields {
            clock_control,
            ..Fields::fresh()
        };
        // A commit shows as a mask that becomes 0 again; without set enable the mask never leaves 0.
        let set_enable = clock_control & 2 != 0;
        for (addresses, taken) in [(SECONDS, set_enable), (ALARM, true)] {
            if !taken {
                continue;
            }
            for places in [
                [0, 1, 2, 3, 4, 5, 6, 7],
                [7, 6, 5, 4, 3, 2, 1, 0],
                [3, 7, 0, 4, 1, 6, 2, 5],
            ] {
                assert_eq!(commits_after(&fields, addresses, &places), Some(8));
                assert_eq!(commits_after(&fields, addresses, &places[..7]), None);
                let repeated = [&[places[0]; 9], &places[..7], &places[..7], &places[7..]].concat();
                assert_eq!(commits_after(&fields, addresses, &repeated), Some(24));
            }
        }
    }
}

#[test]
fn seconds_need_set_enable_for_each_byte() {
    let mut board = Board::fresh();
    for address in SECONDS {
        write(&mut board, address, 9);
    }
    assert_eq!(board.fields(), Fields::fresh(), "without set enable nothing is kept");
    // Seven bytes with set enable and one without, which does not count. Then it is written with set enable.
    write(&mut board, CONTROL, 3);
    for &address in &SECONDS[..7] {
        write(&mut board, address, 9);
    }
    write(&mut board, CONTROL, 1);
    write(&mut board, SECONDS[7], 9);
    assert_eq!((board.fields().seconds, board.fields().seconds_mask), (0, 0x7F));
    write(&mut board, CONTROL, 3);
    write(&mut board, SECONDS[7], 8);
    assert_eq!(
        (board.fields().seconds, board.fields().seconds_mask),
        (0x0909_0909_0909_0908, 0)
    );
}

#[test]
fn committed_seconds_zero_subsecond_and_set_the_offset_in_realtime() {
    for clock_control in [2, 3, 6, 7] {
        for (host_seconds, host_nanoseconds) in [(0, 0), (4, 999_999_999), (5, 0), (u64::MAX, 1)] {
            let mut fields = Fields {
                clock_control,
                seconds: 1,
                subsecond: 123,
                seconds_shadow: 0xFF05,
                seconds_mask: 0xBF,
                alarm_enable: 1,
                alarm: 5,
                alarm_armed: true,
                host_seconds,
                host_nanoseconds,
                ..Fields::fresh()
            };
            set_offset(&mut fields, -77);
            let mut expected = Fields {
                seconds: 5,
                subsecond: 0,
                seconds_shadow: 5,
                seconds_mask: 0,
                ..fields
            };
            if clock_control == 7 {
                set_offset(&mut expected, 5 * SECOND - fields.host_ns());
            }
            if clock_control % 2 == 1 {
                (expected.alarm_pending, expected.alarm_armed) = (true, false);
            }
            set_source_3(&mut expected);
            let after = fields_after(
                &fields,
                Call::Write {
                    address: SECONDS[6],
                    byte: 0,
                },
            );
            assert_eq!(after, expected);
        }
    }
}

#[test]
fn committed_alarm_arms_clears_pending_and_is_checked() {
    for (seconds, reached) in [(4, false), (5, true), (6, true)] {
        let fields = Fields {
            seconds,
            alarm_pending: true,
            alarm_enable: 1,
            alarm_shadow: 0xFF,
            alarm_mask: 0x7F,
            controller_levels: 8,
            ..Fields::fresh()
        };
        assert!(fields.sound());
        let after = fields_after(
            &fields,
            Call::Write {
                address: ALARM[7],
                byte: 5,
            },
        );
        assert_eq!((after.alarm, after.alarm_mask), (5, 0));
        assert_eq!((after.alarm_pending, after.alarm_armed), (reached, !reached));
        // The line falls or stays high. It does not rise, so nothing is latched.
        assert_eq!((after.line(), after.controller_pending), (reached, 0));
    }
}

/// A clock on host time, of a rate, whose alarm is due and not checked yet.
fn due_on_host_time(rate: u32) -> Fields {
    Fields {
        clock_control: 5,
        alarm_enable: 1,
        alarm: 9,
        alarm_armed: true,
        host_seconds: 9,
        ..Fields::fresh_at(rate)
    }
}

#[test]
fn poll_is_made_at_48_000_cycles() {
    poll_is_made_at(48_000_000, 48_000, 15_616);
}

#[test]
fn poll_is_made_at_a_thousandth_of_another_rate() {
    poll_is_made_at(1_000_000, 1_000, 616);
    poll_is_made_at(12_000_000, 12_000, 3_616);
}

/// The same at a rate; `rest` is the remainder of 2^64 by the poll limit.
fn poll_is_made_at(rate: u32, limit: u32, rest: u32) {
    let fields = due_on_host_time(rate);
    let mut board = Board::from_fields(&fields);
    assert!(!advance(&mut board, u64::from(limit) - 1));
    assert_eq!(board.fields().poll, limit - 1);
    assert!(advance(&mut board, 1));
    assert_eq!(board.fields().poll, 0);

    let mut board = Board::from_fields(&fields);
    assert!(advance(&mut board, u64::from(limit)));
    let mut board = Board::from_fields(&fields);
    assert!(advance(&mut board, 0), "an advance of 0 makes the check at once");

    // Before the alarm the poll is the remainder. A host time makes no check.
    let mut board = Board::from_fields(&Fields {
        host_seconds: 8,
        host_nanoseconds: 999_999_999,
        ..fields
    });
    assert!(!advance(&mut board, u64::from(limit) * 4 - 1));
    assert_eq!(board.fields().poll, limit - 1);
    host_time(&mut board, 9, 0);
    assert!(board.fields().alarm_armed);
    assert!(advance(&mut board, u64::MAX));
    // limit - 1 + 2^64 - 1 = 2^64 + limit - 2.
    assert_eq!(board.fields().poll, (rest + limit - 2) % limit);
    advance(&mut board, 1);
    assert_eq!(board.fields().poll, 0, "with the alarm pending the poll is zeroed");
}

#[test]
fn clock_latches_keep_both_words() {
    for rate in RATES {
        let mut board = Board::from_fields(&Fields {
            seconds: 0x1_FFFF_FFFF,
            ..Fields::fresh_at(rate)
        });
        assert_eq!(read(&mut board, 0x88), 0xFF);
        advance(&mut board, u64::from(rate));
        let words: Vec<u8> = [0x8C, 0x8D, 0x8E, 0x8F, 0x89, 0x8A, 0x8B]
            .into_iter()
            .map(|address| read(&mut board, address))
            .collect();
        assert_eq!(words, [0, 0, 0, 1, 0xFF, 0xFF, 0xFF]);
        // Each word is freed by its own byte 3, so both are live again.
        assert_eq!((read(&mut board, 0x8F), read(&mut board, 0x8B)), (2, 0));
    }
}

#[test]
fn a_second_has_as_many_cycles_as_the_rate_and_a_subsecond_its_nanoseconds() {
    // The rate, cycles, and then the seconds and the nanoseconds that the registers show.
    for (rate, cycles, seconds, nanoseconds) in [
        (1_000_000, 1, 0, 1_000_u32),
        (1_000_000, 999_999, 0, 999_999_000),
        (1_000_000, 1_000_000, 1, 0),
        (1_000_000, 2_000_001, 2, 1_000),
        (12_000_000, 1, 0, 83),
        (12_000_000, 2, 0, 166),
        (12_000_000, 3, 0, 250),
        (12_000_000, 11_999_999, 0, 999_999_916),
        (12_000_000, 12_000_000, 1, 0),
        (48_000_000, 1, 0, 20),
        (48_000_000, 3, 0, 62),
        (48_000_000, 6, 0, 125),
        (48_000_000, 47_999_999, 0, 999_999_979),
        (48_000_000, 48_000_000, 1, 0),
    ] {
        let (mut board, _) = Board::fresh_at(rate);
        advance(&mut board, cycles);
        let shown = [0x90, 0x91, 0x92, 0x93].map(|address| read(&mut board, address));
        assert_eq!(u32::from_be_bytes(shown), nanoseconds, "{cycles} at {rate}");
        assert_eq!(read(&mut board, 0x8B), seconds, "{cycles} at {rate}");
    }
}

#[test]
fn the_check_precedes_a_read_that_no_latch_serves() {
    let mut fields = due_on_host_time(F);
    for address in [0x000, 0x088, 0x089, 0x37F] {
        let after = fields_after(&fields, Call::Read { address });
        // Byte 0 of seconds low fills the latch and is served by it.
        assert_eq!(after.alarm_pending, address != 0x088, "{address:x}");
    }
    fields.clock_low_latch.held = true;
    fields.count_latches[2].held = true;
    for address in [0x089, 0x08B, 0x30C, 0x30F] {
        assert!(fields_after(&fields, Call::Read { address }).alarm_armed, "{address:x}");
    }
}
