//! Every register address with every byte, on several boards.

use std::collections::BTreeSet;

use calls::Call;
use oracle::fields::{Fields, Latch};
use oracle::generate::Random;
use oracle::registers::{self, channel, of_channel};

use crate::rules::{carry_out, set_source_3};
use crate::support::*;

/// The boards of each rate.
fn boards() -> Vec<Fields> {
    RATES.into_iter().flat_map(boards_at).collect()
}

/// The fresh board at a rate, one about to commit, one with its alarm due and latches held, a busy one, and a random
/// one.
fn boards_at(rate: u32) -> Vec<Fields> {
    let held = Latch {
        held: true,
        value: 0x0102_0304,
    };
    let about_to_commit = Fields {
        clock_control: 7,
        alarm_enable: 1,
        alarm: 3,
        alarm_armed: true,
        seconds_mask: 0xFE,
        alarm_mask: 0x7F,
        host_seconds: 1,
        ..Fields::fresh_at(rate)
    };
    let alarm_due = Fields {
        clock_control: 5,
        alarm_enable: 1,
        alarm: 3,
        alarm_armed: true,
        host_seconds: 3,
        count_latches: [held; 4],
        clock_low_latch: held,
        clock_high_latch: held,
        ..Fields::fresh_at(rate)
    };
    let mut busy = Fields {
        rate,
        subsecond: rate - 1,
        ..running(1)
    };
    for (number, channel) in busy.channels.iter_mut().enumerate() {
        channel.control = 12 + number as u8;
        channel.counter = 0x1122_3344_5566_7788;
        channel.compare = 0x99AA_BBCC_DDEE_FF00;
        channel.reload = 0x0F1E_2D3C_4B5A_6978;
        channel.prescaler = 0x8796_A5B4;
        channel.phase = 0x0102_0304;
        channel.pending = true;
    }
    busy.alarm_pending = true;
    busy.clock_control = 3;
    set_source_3(&mut busy);
    let random = Random::at(rate, 7).sound_fields();
    vec![Fields::fresh_at(rate), about_to_commit, alarm_due, busy, random]
}

#[test]
fn every_write_keeps_the_board_sound_and_reaches_its_register() {
    let mut changed = BTreeSet::new();
    for fields in boards() {
        assert!(fields.sound());
        for address in 0..0x380 {
            for byte in 0..=255 {
                let call = Call::Write { address, byte };
                let after = fields_after(&fields, call);
                assert!(after.sound(), "{address:x} {byte:x}");
                assert_eq!(after, carry_out(&fields, call).1, "{address:x} {byte:x}");
                if after != fields {
                    changed.insert(address);
                }
            }
        }
    }
    // The registers that a write may change, from `write_byte`. In some, only the last byte has an effect.
    let mut expected = BTreeSet::new();
    for register in [
        registers::ENABLE,
        registers::ACKNOWLEDGE,
        registers::ALARM_ENABLE,
        registers::ALARM_ACKNOWLEDGE,
    ] {
        expected.insert(register + 3);
    }
    for register in [
        // Any byte of clock control ends with the alarm check.
        registers::CLOCK_CONTROL,
        registers::SECONDS_LOW,
        registers::SECONDS_HIGH,
        registers::ALARM_LOW,
        registers::ALARM_HIGH,
    ] {
        expected.extend(register..register + 4);
    }
    for number in 0..4 {
        expected.insert(of_channel(number, channel::CONTROL) + 3);
        let wide = of_channel(number, channel::COUNT_LOW);
        expected.extend(wide..of_channel(number, channel::PRESCALER) + 4);
    }
    assert_eq!(changed, expected);
}

#[test]
fn every_read_keeps_the_board_sound_and_gives_its_register() {
    for fields in boards() {
        for address in 0..0x380 {
            let call = Call::Read { address };
            let mut board = Board::from_fields(&fields);
            let answer = accepted(&mut board, call);
            assert!(board.sound(), "{address:x}");
            assert_eq!((answer, board.fields()), carry_out(&fields, call), "{address:x}");
        }
    }
}

#[test]
fn addresses_from_0x380_on_are_refused() {
    for fields in boards() {
        for address in [0x380, 0x381, 0x400, 0x7FFF, 0x8000, 0xFFFF] {
            for call in [Call::Read { address }, Call::Write { address, byte: 0xFF }] {
                let mut board = Board::from_fields(&fields);
                assert_eq!(number(&board.call(call)), 6);
                assert_eq!(board.fields(), fields);
            }
        }
    }
}

#[test]
fn registers_read_back_what_was_written() {
    for number in 0..4 {
        let mut board = Board::fresh();
        let first = of_channel(number, channel::COUNT_LOW);
        let last = of_channel(number, channel::PRESCALER) + 3;
        for address in first..=last {
            write(&mut board, address, address as u8);
        }
        let bytes: Vec<u8> = (first..=last).map(|address| read(&mut board, address)).collect();
        assert_eq!(bytes, (first..=last).map(|address| address as u8).collect::<Vec<_>>());
        // Most significant first: channel n's count low is at offset 0x408 + 0x40 n, address 0x288 + 0x40 n.
        let base = 0x288 + 0x40 * number as u16;
        let channel = board.fields().channels[number];
        let word = |at: u16| {
            u64::from(u32::from_be_bytes(
                [at, at + 1, at + 2, at + 3].map(|address| address as u8),
            ))
        };
        assert_eq!(channel.counter, word(base + 4) << 32 | word(base));
        assert_eq!(channel.compare, word(base + 12) << 32 | word(base + 8));
        assert_eq!(channel.reload, word(base + 20) << 32 | word(base + 16));
        assert_eq!(u64::from(channel.prescaler), word(base + 24));
        assert!(channel.armed);
    }
    let mut board = Board::fresh();
    let identity: Vec<u8> = (0..4).map(|address| read(&mut board, address)).collect();
    assert_eq!(identity, [0x51, 0x54, 0x00, 0x01]);
}

#[test]
fn control_bit_4_resets_and_prescaler_bytes_zero_phase() {
    let mut fields = running(1);
    let channel = &mut fields.channels[0];
    (channel.counter, channel.compare, channel.prescaler, channel.phase) = (9, 8, 7, 6);
    channel.pending = true;
    set_source_3(&mut fields);
    let after = fields_after(
        &fields,
        Call::Write {
            address: 0x283,
            byte: 0xFD,
        },
    );
    let mut expected = fields.channels[0];
    (expected.control, expected.counter, expected.phase) = (13, 0, 0);
    (expected.pending, expected.armed) = (false, true);
    assert_eq!(after.channels[0], expected);
    assert_eq!(after.controller_levels, 0);
    for byte in 0..4 {
        // The most significant bytes are already 0, so only the phase changes.
        let write = Call::Write {
            address: 0x2A0 + byte,
            byte: if byte == 3 { 7 } else { 0 },
        };
        let after = fields_after(&fields, write).channels[0];
        assert_eq!((after.prescaler, after.phase), (7, 0));
    }
}
