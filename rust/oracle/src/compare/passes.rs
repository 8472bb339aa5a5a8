//! What is compared: lists by seed, every register with every byte, damaged lists, short buffers.

use calls::{list_of, Call, DEFAULT_RATE};

use super::{readouts, shared, Count, Difference, Pair};
use crate::generate;
use crate::registers::{self, channel, of_channel, CHANNELS};
use crate::writes::{alarm, byte, two_words, word};

/// The answer buffer of a run with room for all answers.
pub const BUFFER: usize = 32_768;

/// The answer buffer of the pass over the registers: room for the lists of `prepared` and for `state_readout`.
pub const REGISTERS_BUFFER: usize = 4_096;

/// What a pass gives: how much agreed, or the first difference.
pub type Compared = Result<Count, Box<Difference>>;

/// The list of a seed, then what the board holds after it, and then the list of the next seed over that board.
pub fn seed(pair: &Pair, seed: u64) -> Compared {
    let generated = generate::list_at(pair.rate, seed);
    let list = &generated.list;
    let mut count = pair.compare(list, None, generated.buffer)?;
    for readout in readouts() {
        count.add(pair.compare(list, Some(&readout), BUFFER)?);
    }
    let next = generate::list_at(pair.rate, seed.wrapping_add(1));
    count.add(pair.compare(list, Some(&next.list), next.buffer)?);
    Ok(count)
}

/// How many calls of a seed's list a run carries out.
pub fn seed_calls(pair: &Pair, seed: u64) -> u64 {
    let generated = generate::list_at(pair.rate, seed);
    (pair.rust)(&generated.list, &[], 0, &mut vec![0; generated.buffer]).calls as u64
}

/// Every register address with every byte written, and read, over several boards, and what each board holds afterwards.
/// The addresses are shared out over the machine's processors.
pub fn registers(pair: &Pair) -> Compared {
    let (boards, state) = (prepared(pair.rate), state_readout());
    shared(0..registers::SIZE, |address| {
        let mut count = Count::default();
        for board in &boards {
            let read = list_of(&[Call::Read { address }]);
            for readout in readouts() {
                count.add(pair.compare(&[&board[..], &read].concat(), Some(&readout), BUFFER)?);
            }
            for byte in 0..=255 {
                let write = list_of(&[Call::Write { address, byte }]);
                count.add(pair.compare(&[&board[..], &write].concat(), Some(&state), REGISTERS_BUFFER)?);
            }
        }
        Ok(count)
    })
}

/// Lists that leave boards with little set, with every field set, about to commit, with an alarm due on host time and
/// with latches held. Their calls are for boards at a rate.
pub fn prepared(rate: u32) -> Vec<Vec<u8>> {
    let mut about_to_commit = vec![byte(registers::CLOCK_CONTROL + 3, 7)];
    about_to_commit.push(Call::HostTime {
        seconds: 1,
        nanoseconds: 5,
    });
    about_to_commit.extend(word(registers::SECONDS_HIGH, 0x0102_0304));
    about_to_commit.extend(&word(registers::SECONDS_LOW, 0x0506_0708)[..3]);
    about_to_commit.extend(&word(registers::ALARM_HIGH, 0)[1..]);
    about_to_commit.extend(word(registers::ALARM_LOW, 3));
    about_to_commit.push(byte(registers::ALARM_ENABLE + 3, 1));

    let mut alarm_due = Vec::new();
    for number in 0..CHANNELS {
        let register = |register| of_channel(number, register);
        alarm_due.extend(word(register(channel::COUNT_HIGH), 0x0102_0304 + number as u32));
        alarm_due.push(Call::Read {
            address: register(channel::COUNT_LOW),
        });
    }
    alarm_due.push(byte(registers::CLOCK_CONTROL + 3, 5));
    alarm_due.push(Call::Read {
        address: registers::SECONDS_LOW,
    });
    alarm_due.extend(alarm(3));
    alarm_due.push(Call::HostTime {
        seconds: 3,
        nanoseconds: 0,
    });

    let mut busy = Vec::new();
    for number in 0..CHANNELS {
        let register = |register| of_channel(number, register);
        busy.extend(word(register(channel::PRESCALER), 2));
        for (low, high, value) in [
            (channel::RELOAD_LOW, channel::RELOAD_HIGH, 0x0F1E_2D3C_4B5A_6978),
            (channel::COUNT_LOW, channel::COUNT_HIGH, 0x1122_3344_5566_7788),
            (channel::COMPARE_LOW, channel::COMPARE_HIGH, 0x1122_3344_5566_7798),
        ] {
            busy.extend(two_words(register(low), register(high), value));
        }
        busy.push(byte(register(channel::CONTROL) + 3, 12 + number as u8));
    }
    busy.extend(alarm(1));
    busy.push(byte(registers::ENABLE + 3, 15));
    busy.push(Call::ControllerWrite { address: 5, byte: 8 });
    let mut fired = busy.clone();
    fired.push(Call::Advance {
        cycles: u64::from(rate) + 1,
    });
    busy.push(Call::Advance { cycles: 10 });

    [vec![], about_to_commit, alarm_due, busy, fired]
        .iter()
        .map(|calls| list_of(calls))
        .collect()
}

/// Shows the state in fewer calls than `readouts`: every register that exists, deadline, controller and line.
pub fn state_readout() -> Vec<u8> {
    let mut calls = vec![Call::Deadline, Call::Output];
    calls.extend((0..6).map(|address| Call::ControllerRead { address }));
    let mut words = vec![registers::IDENTITY, registers::ENABLE, registers::ACKNOWLEDGE];
    words.extend((registers::CLOCK_CONTROL..=registers::ALARM_ACKNOWLEDGE).step_by(4));
    for number in 0..CHANNELS {
        words.extend(
            (channel::CONTROL..=channel::PRESCALER)
                .step_by(4)
                .map(|register| of_channel(number, register)),
        );
    }
    // The high word of a latched pair first, so that its latch shows.
    words.sort_by_key(|word| std::cmp::Reverse(*word));
    for word in words {
        calls.extend((word..word + 4).map(|address| Call::Read { address }));
    }
    calls.push(Call::Advance { cycles: 7 });
    list_of(&calls)
}

/// One call of each tag.
fn every_tag() -> Vec<Call> {
    vec![
        Call::HostTime {
            seconds: 7,
            nanoseconds: 999_999_999,
        },
        Call::Write {
            address: registers::ALARM_ENABLE + 3,
            byte: 1,
        },
        Call::Read {
            address: registers::CLOCK_CONTROL + 3,
        },
        Call::Source { number: 15, level: 1 },
        Call::ControllerWrite { address: 4, byte: 0x80 },
        Call::ControllerRead { address: 0 },
        Call::Output,
        Call::Advance {
            cycles: u64::from(DEFAULT_RATE),
        },
        Call::Deadline,
        Call::Skip,
    ]
}

/// A list with every tag, cut at every place, and with every byte replaced by every other.
pub fn damaged(pair: &Pair) -> Compared {
    let list = list_of(&every_tag());
    let mut count = Count::default();
    for end in 0..=list.len() {
        count.add(pair.compare(&list[..end], None, BUFFER)?);
    }
    for place in 0..list.len() {
        for byte in 0..=255 {
            let mut list = list.clone();
            list[place] = byte;
            count.add(pair.compare(&list, None, BUFFER)?);
        }
    }
    Ok(count)
}

/// Lists that need more room than the buffer has: one with every tag at every length of the buffer, and long ones at
/// lengths about the end of one of their records.
pub fn short_buffers(pair: &Pair) -> Compared {
    let calls = every_tag();
    let list = list_of(&calls);
    let room: usize = calls.iter().map(Call::answer_bytes).sum();
    let mut count = Count::default();
    for buffer in 0..=room + 1 {
        count.add(pair.compare(&list, None, buffer)?);
    }
    for call in calls {
        let record = call.answer_bytes();
        let list = list_of(&vec![call; BUFFER / record + 2]);
        for buffer in [
            BUFFER - 1,
            BUFFER,
            BUFFER + 1,
            BUFFER / record * record,
            BUFFER / record * record - 1,
        ] {
            count.add(pair.compare(&list, None, buffer)?);
        }
    }
    Ok(count)
}
