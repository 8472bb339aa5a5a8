//! Document 01's rules for every call, with S-4's counts, written from their sentences over exact numbers and whole
//! fields; for register offsets, read values and write effects document 01 points to timing.rs. The board is compared
//! with these rules.

use calls::{Answer, Call};
use oracle::deadline;
use oracle::fields::{Channel, Fields, Latch};
use oracle::generate::Random;

use crate::support::*;

const TOP: u128 = u64::MAX as u128;

/// Document 01's alarm check.
fn check_alarm(fields: &mut Fields) {
    let reached = fields.time_seconds() >= fields.alarm;
    if fields.clock_enabled() && fields.alarm_armed && !fields.alarm_pending && reached {
        fields.alarm_pending = true;
        fields.alarm_armed = false;
    }
}

/// "Ticks reach the channel", for t ticks. Gives S-4's match: whether the rule sets pending, set before or not.
fn tick(channel: &mut Channel, ticks: u128) -> bool {
    let counter = u128::from(channel.counter);
    let compare = u128::from(channel.compare);
    let reload = u128::from(channel.reload);
    let disabled = channel.control & !4;
    if ticks == 0 {
        return false;
    }
    let matched = match channel.mode() {
        0 if compare <= counter => {
            channel.control = disabled;
            true
        }
        0 if compare - counter <= ticks => {
            channel.control = disabled;
            channel.counter = channel.compare;
            true
        }
        0 => {
            channel.counter = (counter + ticks) as u64;
            false
        }
        1 => {
            let counter = (counter + ticks).min(TOP);
            channel.counter = counter as u64;
            if compare <= counter {
                // With reload 0 there is no quotient, and so no next compare.
                let periods = (counter - compare).checked_div(reload);
                match periods.map(|periods| compare + (periods + 1) * reload) {
                    Some(next) if next <= TOP => channel.compare = next as u64,
                    _ => channel.control = disabled,
                }
            }
            compare <= counter
        }
        2 => {
            let modulus = TOP + 1;
            let difference = (compare + modulus - counter) % modulus;
            let distance = if difference == 0 { modulus } else { difference };
            channel.counter = ((counter + ticks) % modulus) as u64;
            let reached = channel.armed && ticks >= distance;
            channel.armed &= !reached;
            reached
        }
        _ => false,
    };
    channel.pending |= matched;
    matched
}

/// S-4's count of the compare points that a channel met on a match, from its old compare and its new counter.
fn points(old: &Channel, new: &Channel) -> u128 {
    if old.mode() == 1 && old.reload != 0 {
        u128::from(new.counter - old.compare) / u128::from(old.reload) + 1
    } else {
        1
    }
}

/// A rule for the ticks that a number of cycles gives a channel, and for its phase after them.
pub type Step = fn(&Channel, u128) -> (u128, u32);

/// Document 01's rule for c cycles and divisor V = prescaler + 1.
pub fn step(channel: &Channel, cycles: u128) -> (u128, u32) {
    let divisor = u128::from(channel.prescaler) + 1;
    let sum = u128::from(channel.phase) + cycles;
    (sum / divisor, (sum % divisor) as u32)
}

/// The fields after an advance by c cycles, and S-4's counts.
fn advance(before: &Fields, cycles: u64) -> (Fields, [u128; 4]) {
    advance_by(step, before, cycles)
}

/// The same with another rule for ticks and phase.
pub fn advance_by(step: Step, before: &Fields, cycles: u64) -> (Fields, [u128; 4]) {
    let mut after = *before;
    let mut matches = [0; 4];
    let cycles = u128::from(cycles);
    for number in (0..4).filter(|&number| before.runs(number)) {
        let channel = &mut after.channels[number];
        let (ticks, phase) = step(channel, cycles);
        channel.phase = phase;
        if tick(channel, ticks) {
            matches[number] = points(&before.channels[number], channel);
        }
    }
    if before.clock_enabled() && !before.realtime() && cycles > 0 {
        let sum = u128::from(before.subsecond) + cycles;
        let elapsed = sum / u128::from(before.rate);
        if elapsed > TOP - u128::from(before.seconds) {
            after.seconds = u64::MAX;
            after.subsecond = 0;
        } else {
            after.seconds += elapsed as u64;
            after.subsecond = (sum % u128::from(before.rate)) as u32;
        }
    }
    if before.runs_from_host_time() && before.alarm_armed && !before.alarm_pending && cycles > 0 {
        let sum = u128::from(before.poll) + cycles;
        let limit = u128::from(poll_at(before.rate));
        after.poll = (sum % limit) as u32;
        if sum >= limit {
            check_alarm(&mut after);
        }
    } else {
        after.poll = 0;
        check_alarm(&mut after);
    }
    (after, matches)
}

/// A control change, as in `write_rtc_control`.
fn write_clock_control(before: &Fields, control: u8) -> Fields {
    let time = before.time_ns();
    let mut after = Fields {
        clock_control: control,
        ..*before
    };
    let switched_off = before.clock_enabled() && !after.clock_enabled();
    // This also holds where the clock was disabled with the realtime bit set.
    let left_realtime = after.clock_enabled() && !after.realtime() && before.realtime();
    if switched_off || left_realtime {
        let seconds = time / SECOND;
        if seconds > i128::from(u64::MAX) {
            (after.seconds, after.subsecond) = (u64::MAX, 0);
        } else {
            // The ratio of the cycles of a second to 10^9 ns.
            let (cycles, nanoseconds) = match before.rate {
                1_000_000 => (1, 1_000),
                12_000_000 => (3, 250),
                _ => (6, 125),
            };
            (after.seconds, after.subsecond) = (seconds as u64, (time % SECOND * cycles / nanoseconds) as u32);
        }
        after.seconds_shadow = after.seconds;
    }
    if after.runs_from_host_time() && !before.runs_from_host_time() {
        set_offset(&mut after, time - before.host_ns());
    }
    check_alarm(&mut after);
    after
}

/// A byte of a number, 0 being the most significant.
fn set_byte(number: &mut u64, place: u16, byte: u8) {
    let mut bytes = number.to_be_bytes();
    bytes[usize::from(place)] = byte;
    *number = u64::from_be_bytes(bytes);
}

/// Writes a byte into a shadow; true where it is the eighth distinct one, and the mask is then 0 again.
fn write_shadow(shadow: &mut u64, mask: &mut u8, place: u16, byte: u8) -> bool {
    set_byte(shadow, place, byte);
    *mask |= 1 << place;
    let commits = *mask == 255;
    if commits {
        *mask = 0;
    }
    commits
}

/// The fields after a byte is written.
fn write(before: &Fields, address: u16, byte: u8) -> Fields {
    let mut after = *before;
    let offset = address + 0x180;
    let place = offset % 4;
    match offset {
        0x187 => after.timer_enable = byte % 16,
        0x18F => {
            for (number, channel) in after.channels.iter_mut().enumerate() {
                channel.pending &= byte >> number & 1 == 0;
            }
        }
        0x200..=0x202 => after = write_clock_control(before, before.clock_control),
        0x203 => after = write_clock_control(before, byte % 8),
        0x208..=0x20F if before.clock_control / 2 % 2 == 1 => {
            // The low word comes first in the addresses.
            let place = if offset < 0x20C { place + 4 } else { place };
            if write_shadow(&mut after.seconds_shadow, &mut after.seconds_mask, place, byte) {
                after.seconds = after.seconds_shadow;
                after.subsecond = 0;
                if before.runs_from_host_time() {
                    let committed = i128::from(after.seconds) * SECOND;
                    set_offset(&mut after, committed - before.host_ns());
                }
                check_alarm(&mut after);
            }
        }
        0x214..=0x21B => {
            let place = if offset < 0x218 { place + 4 } else { place };
            if write_shadow(&mut after.alarm_shadow, &mut after.alarm_mask, place, byte) {
                after.alarm = after.alarm_shadow;
                after.alarm_armed = true;
                after.alarm_pending = false;
                check_alarm(&mut after);
            }
        }
        0x21F => after.alarm_enable = byte % 2,
        0x223 if byte % 2 == 1 => after.alarm_pending = false,
        0x400..=0x4FF => {
            let number = usize::from((offset - 0x400) / 0x40);
            write_channel(&mut after.channels[number], offset % 0x40, byte);
        }
        _ => {}
    }
    after
}

/// A byte written into a channel's register.
fn write_channel(channel: &mut Channel, register: u16, byte: u8) {
    let place = register % 4;
    match register {
        0x03 => {
            channel.control = byte % 16;
            if byte / 16 % 2 == 1 {
                (channel.counter, channel.phase, channel.pending, channel.armed) = (0, 0, false, true);
            }
        }
        0x08..=0x0B => set_byte(&mut channel.counter, place + 4, byte),
        0x0C..=0x0F => set_byte(&mut channel.counter, place, byte),
        0x10..=0x13 => {
            set_byte(&mut channel.compare, place + 4, byte);
            channel.armed = true;
        }
        0x14..=0x17 => {
            set_byte(&mut channel.compare, place, byte);
            channel.armed = true;
        }
        0x18..=0x1B => set_byte(&mut channel.reload, place + 4, byte),
        0x1C..=0x1F => set_byte(&mut channel.reload, place, byte),
        0x20..=0x23 => {
            let mut prescaler = u64::from(channel.prescaler);
            set_byte(&mut prescaler, place + 4, byte);
            channel.prescaler = prescaler as u32;
            channel.phase = 0;
        }
        _ => {}
    }
}

/// The byte that a read gives, and the fields after it.
fn read(before: &Fields, address: u16) -> (u8, Fields) {
    let mut after = *before;
    let offset = address + 0x180;
    let number = usize::from(offset.saturating_sub(0x400) / 0x40);
    let held = |value: u64| Latch {
        held: true,
        value: value as u32,
    };
    if offset == 0x208 {
        after.clock_low_latch = held(before.time_seconds());
        after.clock_high_latch = held(before.time_seconds() >> 32);
    }
    let latch = match offset {
        0x208..=0x20B => Some(&mut after.clock_low_latch),
        0x20C..=0x20F => Some(&mut after.clock_high_latch),
        0x400..=0x4FF if matches!(offset % 0x40, 0x0C..=0x0F) => Some(&mut after.count_latches[number]),
        _ => None,
    };
    let place = usize::from(offset % 4);
    if let Some(latch) = latch.filter(|latch| latch.held) {
        let byte = latch.value.to_be_bytes()[place];
        if place == 3 {
            *latch = Latch::default();
        }
        return (byte, after);
    }
    if (0x400..0x500).contains(&offset) && offset % 0x40 == 0x08 {
        after.count_latches[number] = held(before.channels[number].counter >> 32);
    }
    check_alarm(&mut after);
    (live_register(&after, offset - offset % 4).to_be_bytes()[place], after)
}

/// The live value of the register at an offset, after the alarm check.
fn live_register(fields: &Fields, offset: u16) -> u32 {
    let pending = |number: usize| u32::from(fields.channels[number].pending) << number;
    let low = |number: u64| number as u32;
    let high = |number: u64| (number >> 32) as u32;
    match offset {
        0x180 => 0x5154_0001,
        0x184 => u32::from(fields.timer_enable),
        0x188 => (0..4).map(pending).sum(),
        0x200 => u32::from(fields.clock_control),
        0x204 => u32::from(fields.alarm_pending) + 2 * u32::from(fields.alarm_armed),
        0x208 => low(fields.time_seconds()),
        0x20C => high(fields.time_seconds()),
        0x210 => (fields.time_ns() % SECOND) as u32,
        0x214 => low(fields.alarm),
        0x218 => high(fields.alarm),
        0x21C => u32::from(fields.alarm_enable),
        0x400..=0x4FF => {
            let channel = &fields.channels[usize::from((offset - 0x400) / 0x40)];
            match offset % 0x40 {
                0x00 => u32::from(channel.control),
                0x04 => u32::from(channel.enabled()) + 2 * u32::from(channel.pending),
                0x08 => low(channel.counter),
                0x0C => high(channel.counter),
                0x10 => low(channel.compare),
                0x14 => high(channel.compare),
                0x18 => low(channel.reload),
                0x1C => high(channel.reload),
                0x20 => channel.prescaler,
                _ => 0,
            }
        }
        _ => 0,
    }
}

/// The two registers of the controller at their addresses, others 0.
fn controller_read(fields: &Fields, address: u32) -> u8 {
    match address {
        0 => (fields.controller_pending >> 8) as u8,
        1 => fields.controller_pending as u8,
        4 => (fields.controller_enable >> 8) as u8,
        5 => fields.controller_enable as u8,
        _ => 0,
    }
}

fn controller_write(before: &Fields, address: u32, byte: u8) -> Fields {
    let byte = u16::from(byte);
    let mut after = *before;
    match address {
        0 => after.controller_pending &= !(byte << 8),
        1 => after.controller_pending &= !byte,
        4 => after.controller_enable = byte << 8 | after.controller_enable & 0xFF,
        5 => after.controller_enable = after.controller_enable & 0xFF00 | byte,
        _ => {}
    }
    after
}

/// A source is set to a level; a rise latches its pending bit.
fn set_source(fields: &mut Fields, number: u8, level: bool) {
    let bit = 1 << number;
    if level {
        fields.controller_pending |= bit & !fields.controller_levels;
        fields.controller_levels |= bit;
    } else {
        fields.controller_levels &= !bit;
    }
}

/// Source 3 is set to the line, as after every accepted call.
pub fn set_source_3(fields: &mut Fields) {
    set_source(fields, 3, fields.line());
}

/// The cycles that an accepted skip passes, and the fields after it.
fn skip(before: &Fields) -> (u64, Fields) {
    match deadline::exact(before) {
        Some(exact) if !before.line() => {
            let passed = u64::try_from(exact).expect("a larger D is refused");
            (passed, advance(before, passed).0)
        }
        _ => (0, *before),
    }
}

/// The number of the refusal that a sound board gives a call, 0 for none.
fn refusal(before: &Fields, call: Call) -> u8 {
    match call {
        Call::Read { address } | Call::Write { address, .. } if address >= 0x380 => 6,
        Call::HostTime { nanoseconds, .. } if i128::from(nanoseconds) >= SECOND => 7,
        Call::Source { number, .. } if number > 15 => 8,
        Call::Source { number: 3, .. } => 9,
        Call::Source { level, .. } if level > 1 => 10,
        Call::Skip if !before.line() && deadline::exact(before).is_some_and(|exact| exact > TOP) => 13,
        _ => 0,
    }
}

/// What a sound board answers to a direct call: the refusal's number, the answer and the fields after it.
pub fn direct(before: &Fields, call: Call) -> (u8, Answer, Fields) {
    match refusal(before, call) {
        0 => {
            let (answer, after) = carry_out(before, call);
            (0, answer, after)
        }
        refused => (refused, call.zero_answer(), *before),
    }
}

/// The answer of a call that a sound board accepts, and the fields after it.
pub fn carry_out(before: &Fields, call: Call) -> (Answer, Fields) {
    let mut after = *before;
    let mut answer = Answer::Empty;
    match call {
        Call::HostTime { seconds, nanoseconds } => {
            (after.host_seconds, after.host_nanoseconds) = (seconds, nanoseconds);
        }
        Call::Read { address } => {
            let (byte, fields) = read(before, address);
            (answer, after) = (Answer::Byte(byte), fields);
        }
        Call::Write { address, byte } => after = write(before, address, byte),
        Call::Advance { cycles } => {
            let (fields, matches) = advance(before, cycles);
            after = fields;
            answer = Answer::Advance {
                line: after.line(),
                matches,
            };
        }
        Call::Deadline => {
            let exact = deadline::exact(before);
            answer = Answer::Deadline {
                present: exact.is_some(),
                exact: exact.unwrap_or(0),
                capped: exact.unwrap_or(0).min(TOP) as u64,
            };
        }
        Call::Skip => {
            let (passed, fields) = skip(before);
            after = fields;
            answer = Answer::Skip {
                passed,
                line: after.line(),
            };
        }
        Call::Source { number, level } => set_source(&mut after, number, level == 1),
        Call::ControllerRead { address } => answer = Answer::Byte(controller_read(before, address)),
        Call::ControllerWrite { address, byte } => after = controller_write(before, address, byte),
        Call::Output => {
            let active = before.controller_pending & before.controller_enable;
            let lowest = (0..16).find(|number| active >> number & 1 == 1);
            answer = Answer::Output {
                valid: lowest.is_some(),
                number: lowest.unwrap_or(0),
            };
        }
    }
    set_source_3(&mut after);
    (answer, after)
}

/// Compares the board's refusal, answer and fields with the rules, and gives them.
pub fn compare(fields: &Fields, call: Call) -> (u8, Answer, Fields) {
    let mut board = Board::from_fields(fields);
    let reply = board.call(call);
    let given = (number(&reply), reply.answer, board.fields());
    assert_eq!(given, direct(fields, call), "{fields:?} {call:?}");
    given
}

/// Cycles to about a channel's tick, its match or the end of a second, or any number.
pub fn some_cycles(random: &mut Random, fields: &Fields) -> u64 {
    let channel = fields.channels[random.below(4) as usize];
    let divisor = u64::from(channel.prescaler) + 1;
    let ticks = channel.compare.wrapping_sub(channel.counter);
    let about = [
        divisor - u64::from(channel.phase),
        divisor.wrapping_mul(ticks).wrapping_sub(u64::from(channel.phase)),
        u64::from(fields.rate - fields.subsecond),
        u64::from(poll_at(fields.rate) - fields.poll),
    ];
    let about = random.pick(&about).wrapping_add(random.below(3)).wrapping_sub(1);
    let any = random.number();
    random.pick(&[about, any, 0])
}

#[test]
fn advance_follows_the_rules() {
    // By mode: matches that set pending, and matches of a channel that is pending already. Then, in mode 1, counts of
    // more than 1, 2^32 and 2^63.
    let (mut rises, mut again, mut large) = ([0; 4], [0; 4], [0; 3]);
    for (mut random, fields) in RATES.into_iter().flat_map(|rate| sound_boards_at(rate, 60_000)) {
        let cycles = some_cycles(&mut random, &fields);
        let (_, answer, after) = compare(&fields, Call::Advance { cycles });
        let Answer::Advance { matches, .. } = answer else {
            panic!("{answer:?}")
        };
        for (number, count) in matches.into_iter().enumerate() {
            let (old, new) = (fields.channels[number], after.channels[number]);
            let mode = usize::from(old.mode());
            rises[mode] += usize::from(!old.pending && new.pending);
            again[mode] += usize::from(old.pending && count > 0);
            for (limit, seen) in [1, 1 << 32, 1 << 63].into_iter().zip(&mut large) {
                *seen += usize::from(count > limit);
            }
        }
    }
    // Mode 3 never sets pending.
    let all = |seen: &[usize], least: usize| seen.iter().all(|&count| count > least);
    assert!(all(&rises[..3], 1_000) && rises[3] == 0, "{rises:?}");
    assert!(all(&again[..3], 100) && again[3] == 0, "{again:?}");
    assert!(all(&large, 100), "{large:?}");
}

#[test]
fn every_call_follows_the_rules() {
    for rate in RATES {
        let (mut accepted, mut refused) = ([0; 11], [0; 14]);
        for (mut random, fields) in sound_boards_at(rate, 150_000) {
            let call = random.call();
            match compare(&fields, call) {
                (0, ..) => accepted[usize::from(call.tag())] += 1,
                (number, ..) => refused[usize::from(number)] += 1,
            }
        }
        assert!(accepted[1..].iter().all(|&count| count > 4_000), "{accepted:?}");
        let own = [6, 7, 8, 9, 10, 13];
        assert!(own.iter().all(|&number| refused[number] > 300), "{refused:?}");
    }
}

#[test]
fn an_overdue_alarm_gives_a_deadline_of_1() {
    // No sound board has one, so only the exact deadline is checked.
    for rate in RATES {
        let fields = Fields {
            seconds: 5,
            subsecond: 7,
            alarm: 5,
            alarm_armed: true,
            alarm_enable: 1,
            ..Fields::fresh_at(rate)
        };
        for (alarm, exact) in [(4, 1), (5, 1), (6, u128::from(rate) - 7)] {
            assert_eq!(deadline::exact(&Fields { alarm, ..fields }), Some(exact));
        }
    }
}
