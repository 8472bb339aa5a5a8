//! The recording that the program `replay` replays: call lists by theme, from fixed seeds, and the Rust's answers.
//! README.md has the layout of its files.

use std::collections::BTreeSet;

use calls::{list_of, tags, value_length, Call, Outcome, NANOSECONDS_PER_SECOND};

use crate::board::Board;
use crate::fields::Fields;
use crate::generate::{self, Random};
use crate::list;
use crate::registers::{self, channel, of_channel, CHANNELS};
use crate::writes::{alarm, byte, channel_due, word};

/// The longest file, and the longest answer buffer, that `replay` takes.
pub const FILE_LIMIT: usize = 65_535;
pub const BUFFER_LIMIT: usize = 32_768;

/// The longest answer buffer of a mixed list. It keeps a list that is made to pass its buffer short.
const MIXED_BUFFER: usize = 4_096;

/// A list to run on the fresh board with a timer enable, and the length of the buffer for its answers.
pub struct Start {
    pub timer_enable: u8,
    pub list: Vec<u8>,
    pub buffer: usize,
}

/// A list and what its run answered.
pub struct Record {
    pub start: Start,
    pub outcome: Outcome,
    pub answers: Vec<u8>,
}

/// The records of one file.
pub struct Recording {
    pub name: &'static str,
    pub records: Vec<Record>,
}

/// What records cover.
#[derive(Default)]
pub struct Coverage {
    pub records: usize,
    /// Calls done.
    pub calls: usize,
    /// Tags of calls done.
    pub tags: BTreeSet<u8>,
    /// Addresses that calls done read.
    pub read: BTreeSet<u16>,
    /// Addresses that calls done wrote.
    pub written: BTreeSet<u16>,
    pub refusals: BTreeSet<u8>,
}

/// Every file of the recording.
pub fn recordings() -> Vec<Recording> {
    let recording = |name, starts: Vec<Start>| Recording {
        name,
        records: starts.into_iter().map(Start::run).collect(),
    };
    vec![
        recording("mixed-1", (1..=15).map(mixed).collect()),
        recording("mixed-2", (16..=30).map(mixed).collect()),
        recording("mixed-3", (31..=45).map(mixed).collect()),
        recording("registers-read", registers_read(&mut Random::new(91))),
        recording("registers-written", registers_written(&mut Random::new(92))),
        recording("refusals", refusals(&mut Random::new(93))),
        recording("short-buffers", short_buffers(&mut Random::new(94))),
    ]
}

impl Start {
    fn run(self) -> Record {
        let mut board = Board::from_fields(&Fields {
            timer_enable: self.timer_enable,
            ..Fields::fresh()
        });
        let mut answers = vec![0; self.buffer];
        let outcome = list::run(&mut board, &self.list, &mut answers);
        answers.truncate(outcome.answer_bytes);
        Record {
            start: self,
            outcome,
            answers,
        }
    }
}

impl Record {
    /// The record's bytes in a file.
    fn encode(&self) -> Vec<u8> {
        let two = |number: usize| {
            u16::try_from(number)
                .expect("a record's numbers are short")
                .to_be_bytes()
        };
        assert!(self.start.buffer <= BUFFER_LIMIT);
        [
            &[self.start.timer_enable][..],
            &two(self.start.list.len()),
            &two(self.start.buffer),
            &two(self.outcome.calls),
            &two(self.outcome.list_bytes),
            &two(self.outcome.answer_bytes),
            &[self.outcome.refusal_number()],
            &self.start.list,
            &self.answers,
        ]
        .concat()
    }
}

impl Recording {
    /// The file's bytes: its records one after another.
    pub fn encode(&self) -> Vec<u8> {
        let bytes: Vec<u8> = self.records.iter().flat_map(Record::encode).collect();
        assert!(bytes.len() <= FILE_LIMIT, "{} has {} bytes", self.name, bytes.len());
        bytes
    }
}

impl Coverage {
    /// What the recordings cover together.
    pub fn of<'a>(recordings: impl IntoIterator<Item = &'a Recording>) -> Self {
        let mut coverage = Self::default();
        for record in recordings.into_iter().flat_map(|recording| &recording.records) {
            coverage.records += 1;
            coverage.calls += record.outcome.calls;
            coverage.refusals.insert(record.outcome.refusal_number());
            let mut done = &record.start.list[..record.outcome.list_bytes];
            while !done.is_empty() {
                let (call, used) = Call::decode(done).expect("a call done is whole");
                coverage.tags.insert(call.tag());
                match call {
                    Call::Read { address } => coverage.read.insert(address),
                    Call::Write { address, .. } => coverage.written.insert(address),
                    _ => false,
                };
                done = &done[used..];
            }
        }
        coverage
    }
}

/// The list of a seed, on a board whose timer enable is often 0, the one that the list was made for.
fn mixed(seed: u64) -> Start {
    let generated = generate::list(seed);
    let mut random = Random::new(seed);
    let any = random.below(16) as u8;
    Start {
        timer_enable: random.pick(&[0, 0, 15, any]),
        list: generated.list,
        buffer: generated.buffer.min(MIXED_BUFFER),
    }
}

/// The bytes of the answers of calls that are all done.
fn answer_bytes(calls: &[Call]) -> usize {
    calls.iter().map(Call::answer_bytes).sum()
}

/// The calls on a board, into a buffer a little longer than their answers.
fn whole(random: &mut Random, calls: &[Call]) -> Start {
    Start {
        timer_enable: 15,
        list: list_of(calls),
        buffer: answer_bytes(calls) + random.below(9) as usize,
    }
}

/// Calls that fill the board: all channels, the clock, its alarm, the host time and the controller. The channels
/// are in modes 0 to 3, and the clock runs from host time or not.
fn prepared(random: &mut Random, realtime: bool) -> Vec<Call> {
    let mut calls = vec![Call::HostTime {
        seconds: random.number(),
        nanoseconds: random.below(u64::from(NANOSECONDS_PER_SECOND)) as u32,
    }];
    for number in 0..CHANNELS {
        for register in [
            channel::COUNT_LOW,
            channel::COUNT_HIGH,
            channel::COMPARE_LOW,
            channel::COMPARE_HIGH,
            channel::RELOAD_LOW,
            channel::RELOAD_HIGH,
        ] {
            calls.extend(word(of_channel(number, register), random.word() as u32));
        }
        let prescaler = random.below(3) as u32;
        calls.extend(word(of_channel(number, channel::PRESCALER), prescaler));
        let flags = random.pick(&[12, 12, 4]);
        calls.push(byte(of_channel(number, channel::CONTROL) + 3, flags | number as u8));
    }
    calls.push(byte(registers::CLOCK_CONTROL + 3, if realtime { 7 } else { 3 }));
    for register in [registers::SECONDS_HIGH, registers::SECONDS_LOW] {
        calls.extend(word(register, random.word() as u32));
    }
    for register in [registers::ALARM_HIGH, registers::ALARM_LOW] {
        calls.extend(word(register, random.word() as u32 | 1 << 31));
    }
    calls.push(byte(registers::ALARM_ENABLE + 3, 1));
    for address in 4..6 {
        let byte = random.word() as u8;
        calls.push(Call::ControllerWrite { address, byte });
    }
    for number in [0, 2, 9, 15] {
        calls.push(Call::Source { number, level: 1 });
    }
    let cycles = random.below(1 << 40);
    calls.push(Call::Advance { cycles });
    calls
}

/// Calls that show the board at the end of a list. The skip comes late: it may be refused.
fn shown() -> impl Iterator<Item = Call> {
    [Call::Deadline, Call::Output]
        .into_iter()
        .chain((0..8).map(|address| Call::ControllerRead { address }))
        .chain([Call::Skip, Call::Output])
}

/// Every address, in order, backwards or shuffled.
fn addresses(random: &mut Random, order: Order) -> Vec<u16> {
    let mut addresses: Vec<u16> = (0..registers::SIZE).collect();
    match order {
        Order::Upwards => {}
        Order::Downwards => addresses.reverse(),
        Order::Shuffled => random.shuffle(&mut addresses),
    }
    addresses
}

#[derive(Clone, Copy)]
enum Order {
    Upwards,
    Downwards,
    Shuffled,
}

/// Every address read, on boards that are advanced between the reads: often after one that fills a latch, so that the
/// latched word differs from the live one.
fn registers_read(random: &mut Random) -> Vec<Start> {
    let mut starts = Vec::new();
    for (order, realtime) in [
        (Order::Upwards, false),
        (Order::Upwards, true),
        (Order::Downwards, false),
        (Order::Shuffled, false),
        (Order::Shuffled, true),
    ] {
        let mut calls = prepared(random, realtime);
        for address in addresses(random, order) {
            calls.push(Call::Read { address });
            if random.once_in(if fills_a_latch(address) { 2 } else { 40 }) {
                let small = random.below(100);
                let large = random.below(1 << 36);
                let cycles = random.pick(&[small, large]);
                calls.push(Call::Advance { cycles });
            }
        }
        calls.extend(shown());
        starts.push(whole(random, &calls));
    }
    starts
}

/// Whether a read of an address fills a latch: byte 0 of a count's low word, or of the clock's low seconds.
fn fills_a_latch(address: u16) -> bool {
    address == registers::SECONDS_LOW || (0..CHANNELS).any(|number| address == of_channel(number, channel::COUNT_LOW))
}

/// Every address written and read back, with the deadline at times.
fn registers_written(random: &mut Random) -> Vec<Start> {
    let mut starts = Vec::new();
    for (order, realtime) in [
        (Order::Upwards, false),
        (Order::Downwards, true),
        (Order::Shuffled, false),
    ] {
        let mut calls = prepared(random, realtime);
        for address in addresses(random, order) {
            let byte = random.word() as u8;
            calls.push(Call::Write { address, byte });
            calls.push(Call::Read { address });
            if random.once_in(24) {
                calls.push(Call::Deadline);
                let cycles = random.below(1 << 36);
                calls.push(Call::Advance { cycles });
            }
        }
        calls.extend(shown());
        starts.push(whole(random, &calls));
    }
    starts
}

/// A call whose value is not refused.
fn accepted(random: &mut Random) -> Call {
    loop {
        let call = random.call();
        if call.refusal().is_none() {
            return call;
        }
    }
}

/// Refusals 1 to 10 and 13, each after up to three calls, and at times with a call after it.
fn refusals(random: &mut Random) -> Vec<Start> {
    let mut starts = Vec::new();
    // 1: the board is not sound, whatever the list and the buffer.
    for timer_enable in [16, 17, 31, 32, 64, 128, 255] {
        for list in [
            vec![],
            list_of(&[Call::Output]),
            vec![0xFF],
            list_of(&[Call::Deadline; 3]),
        ] {
            for buffer in [0, 90] {
                starts.push(Start {
                    timer_enable,
                    list: list.clone(),
                    buffer,
                });
            }
        }
    }
    let ends = refused_ends(random).into_iter();
    let ends = ends.map(|(end, whole_call)| (vec![], end, whole_call));
    let skips = refused_skips().into_iter();
    let skips = skips.map(|board| (board, Call::Skip.encode(), true));
    for (board, end, whole_call) in ends.chain(skips) {
        let mut calls: Vec<Call> = (0..random.below(4)).map(|_| accepted(random)).collect();
        calls.extend(board);
        let mut list = list_of(&calls);
        list.extend(end);
        if whole_call && random.once_in(2) {
            Call::Output.encode_into(&mut list);
        }
        // The buffer is at times exact: the refusals here come before 11.
        let more = random.below(40) as usize;
        starts.push(Start {
            timer_enable: random.below(16) as u8,
            list,
            buffer: answer_bytes(&calls) + random.pick(&[0, more]),
        });
    }
    starts
}

/// Bytes that are refused with 2 to 10, and whether a call may follow them.
fn refused_ends(random: &mut Random) -> Vec<(Vec<u8>, bool)> {
    let mut ends = Vec::new();
    // 2: one or two bytes left.
    for tag in (0..=0x0B).chain([0x80, 0xFF]) {
        ends.push((vec![tag], false));
        ends.push((vec![tag, random.word() as u8], false));
    }
    // 3: every unknown tag, with any length.
    for tag in (0..=0xFF).filter(|tag| value_length(*tag).is_none()) {
        let length = random.pick(&[0, 2, 8, 0xFF]);
        ends.push((vec![tag, 0, length], true));
    }
    for tag in tags() {
        let right = value_length(tag).expect("the tag is known") as u16;
        // 4: a length about the right one, with its value or without.
        for length in (0..=13)
            .chain([right + 0x100, 0xFFFF])
            .filter(|length| *length != right)
        {
            let [high, low] = length.to_be_bytes();
            let mut end = vec![tag, high, low];
            if random.once_in(2) {
                end.extend(vec![0; usize::from(right)]);
            }
            ends.push((end, true));
        }
        // 5: a value cut anywhere, also one that would be refused whole.
        for cut in 0..right {
            let filler = random.pick(&[0, 0xFF]);
            let mut end = vec![tag, 0, right as u8];
            end.extend(vec![filler; usize::from(cut)]);
            ends.push((end, false));
        }
    }
    ends.extend(refused_calls(random).iter().map(|call| (call.encode(), true)));
    ends
}

/// Calls with a refusal of their own, 6 to 10.
fn refused_calls(random: &mut Random) -> Vec<Call> {
    let mut calls = Vec::new();
    for _ in 0..8 {
        let any = registers::SIZE + random.below(u64::from(u16::MAX - registers::SIZE)) as u16;
        for address in [registers::SIZE, registers::SIZE + 1, any, u16::MAX] {
            let byte = random.word() as u8;
            calls.push(Call::Read { address });
            calls.push(Call::Write { address, byte });
        }
    }
    for _ in 0..8 {
        let any = NANOSECONDS_PER_SECOND + random.below(1 << 31) as u32;
        for nanoseconds in [NANOSECONDS_PER_SECOND, NANOSECONDS_PER_SECOND + 1, any, u32::MAX] {
            let seconds = random.number();
            calls.push(Call::HostTime { seconds, nanoseconds });
        }
    }
    let levels = [0, 1, 2, 3, 128, 255];
    // 8 comes before 10, and 9 before 10.
    for number in [16, 17, 19, 31, 32, 128, 254, 255, 3, 3] {
        calls.extend(levels.map(|level| Call::Source { number, level }));
    }
    for number in (0..=15).filter(|number| *number != 3) {
        calls.extend(levels[2..].iter().map(|&level| Call::Source { number, level }));
    }
    calls
}

/// Calls after which a skip is refused with 13: each channel free-running, one-shot and periodic, on host time or not,
/// and the last alarm.
fn refused_skips() -> Vec<Vec<Call>> {
    let mut boards = Vec::new();
    for number in 0..CHANNELS {
        for (mode, prescaler, deadline) in [
            (2, 0, 1 << 64),
            (2, 1, (1 << 64) + 1),
            (2, u32::MAX, 1 << 96),
            (0, 1, 1 << 64),
            (0, u32::MAX, (1 << 64) + 1),
            (1, 274_176, (1 << 64) + 1),
            (1, u32::MAX - 1, 1 << 95),
        ] {
            let control = if mode == number as u8 { 5 } else { 1 };
            let mut board = vec![byte(registers::CLOCK_CONTROL + 3, control)];
            board.extend(channel_due(number, mode, prescaler, deadline).expect("a channel can have this deadline"));
            boards.push(board);
        }
    }
    boards.push([&[byte(registers::CLOCK_CONTROL + 3, 1)][..], &alarm(u64::MAX)].concat());
    boards
}

/// Refusal 11 at every place: lists with every tag, into buffers of every length up to one byte more than needed. Also
/// a skip of 2^64 - 1 cycles, and one of 2^64, which is refused with 13, into buffers from the start of its record on;
/// and an advance with the largest counts, into buffers without room for its record, a byte short, and with room.
fn short_buffers(random: &mut Random) -> Vec<Start> {
    let mut starts = Vec::new();
    for _ in 0..3 {
        let mut calls = Vec::new();
        for tag in tags() {
            let call = loop {
                let call = accepted(random);
                if call.tag() == tag {
                    break call;
                }
            };
            calls.insert(random.below(calls.len() as u64 + 1) as usize, call);
        }
        for buffer in 0..=answer_bytes(&calls) + 1 {
            starts.push(Start {
                timer_enable: random.below(16) as u8,
                list: list_of(&calls),
                buffer,
            });
        }
    }
    for deadline in [(1 << 64) - 1, 1 << 64] {
        let board = channel_due(0, 2, 0, deadline).expect("a free-running channel can have this deadline");
        let calls = [&board[..], &[Call::Skip, Call::Output]].concat();
        for buffer in answer_bytes(&board)..=answer_bytes(&calls) + 1 {
            starts.push(Start {
                timer_enable: 0,
                list: list_of(&calls),
                buffer,
            });
        }
    }
    // Periodic with reload 1 and with reload 2, and one-shot: 2^64, 2^63 and 1 points from 0 on. Channel 3 is off.
    let mut calls = Vec::new();
    for (number, control, reload) in [(0, 5, 1), (1, 5, 2), (2, 4, 0)] {
        calls.push(byte(of_channel(number, channel::RELOAD_LOW) + 3, reload));
        calls.push(byte(of_channel(number, channel::CONTROL) + 3, control));
    }
    let before = answer_bytes(&calls);
    calls.push(Call::Advance { cycles: u64::MAX });
    let room = answer_bytes(&calls);
    for buffer in [before, room - 1, room, room + 1] {
        starts.push(Start {
            timer_enable: 15,
            list: list_of(&calls),
            buffer,
        });
    }
    starts
}
