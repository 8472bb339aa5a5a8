//! Call lists and sound boards by seed, at a rate, the same on every machine, with a bias to limits.

use calls::{Call, DEFAULT_RATE, NANOSECONDS_PER_SECOND};

use crate::board::AnyBoard;
use crate::deadline;
use crate::fields::{Channel, Fields, Latch};
use crate::registers::{self, channel, of_channel, CHANNELS};
use crate::writes;

const BUFFER: usize = 32_768;
const SECOND: i128 = NANOSECONDS_PER_SECOND as i128;

/// Numbers at which some rule changes for a board at a rate; their neighbours are used too.
fn limits(rate: u32) -> [u64; 9] {
    [
        0,
        Fields::fresh_at(rate).poll_limit().into(),
        rate.into(),
        NANOSECONDS_PER_SECOND.into(),
        1 << 32,
        1 << 33,
        1 << 63,
        u64::MAX / u64::from(rate),
        u64::MAX,
    ]
}

/// The generator splitmix64, with the rate of the boards that its numbers are for.
pub struct Random {
    state: u64,
    rate: u32,
}

impl Random {
    /// For boards without a given rate.
    pub fn new(seed: u64) -> Self {
        Self::at(DEFAULT_RATE, seed)
    }

    /// For boards at a rate, one of the three.
    pub fn at(rate: u32, seed: u64) -> Self {
        Self { state: seed, rate }
    }

    /// Any 64-bit number.
    pub fn word(&mut self) -> u64 {
        self.state = self.state.wrapping_add(0x9E37_79B9_7F4A_7C15);
        let mixed = (self.state ^ self.state >> 30).wrapping_mul(0xBF58_476D_1CE4_E5B9);
        let mixed = (mixed ^ mixed >> 27).wrapping_mul(0x94D0_49BB_1331_11EB);
        mixed ^ mixed >> 31
    }

    /// A number below `bound`.
    pub fn below(&mut self, bound: u64) -> u64 {
        self.word() % bound
    }

    /// True once in `times`.
    pub fn once_in(&mut self, times: u64) -> bool {
        self.below(times) == 0
    }

    /// One of the choices.
    pub fn pick<T: Copy>(&mut self, choices: &[T]) -> T {
        choices[self.below(choices.len() as u64) as usize]
    }

    /// Puts the members of a slice into some order.
    pub fn shuffle<T>(&mut self, members: &mut [T]) {
        for last in (1..members.len()).rev() {
            members.swap(last, self.below(last as u64 + 1) as usize);
        }
    }

    /// A number within two of `value`, modulo 2^64.
    fn near(&mut self, value: u64) -> u64 {
        value.wrapping_add(self.below(5)).wrapping_sub(2)
    }

    /// A 64-bit number, often at a limit or small.
    pub fn number(&mut self) -> u64 {
        match self.below(6) {
            0 => self.below(4),
            1 => self.below(100),
            2 => u64::MAX - self.below(4),
            3 => {
                let limit = self.pick(&limits(self.rate));
                self.near(limit)
            }
            _ => self.word() >> self.below(64),
        }
    }

    /// A prescaler, often 0, small or the largest.
    fn prescaler(&mut self) -> u32 {
        match self.below(4) {
            0 => 0,
            1 => self.below(10) as u32,
            2 => u32::MAX - self.below(2) as u32,
            _ => (self.word() >> 32 >> self.below(32)) as u32,
        }
    }

    /// A compare, often below, at or a little above the counter.
    fn compare(&mut self, counter: u64) -> u64 {
        match self.below(3) {
            0 => self.near(counter),
            1 => counter.wrapping_add(self.below(50)),
            _ => self.number(),
        }
    }

    fn nanoseconds(&mut self) -> u32 {
        let any = self.below(u64::from(NANOSECONDS_PER_SECOND)) as u32;
        self.pick(&[0, 1, NANOSECONDS_PER_SECOND - 1, any])
    }

    fn latch(&mut self) -> Latch {
        if self.once_in(2) {
            Latch::default()
        } else {
            Latch {
                held: true,
                value: self.number() as u32,
            }
        }
    }

    fn channel(&mut self) -> Channel {
        let counter = self.number();
        let prescaler = self.prescaler();
        let any = self.below(u64::from(prescaler) + 1) as u32;
        Channel {
            control: self.below(16) as u8 | if self.once_in(2) { 12 } else { 0 },
            counter,
            compare: self.compare(counter),
            reload: self.number(),
            prescaler,
            phase: self.pick(&[0, prescaler, any]),
            pending: self.once_in(8),
            armed: !self.once_in(4),
        }
    }

    /// The fields of some sound board.
    pub fn sound_fields(&mut self) -> Fields {
        let rate = self.rate;
        let poll_limit = Fields::fresh_at(rate).poll_limit();
        let any_subsecond = self.below(rate.into()) as u32;
        let any_timer_enable = self.below(16) as u8;
        let any_poll = self.below(poll_limit.into()) as u32;
        let mut fields = Fields {
            rate,
            channels: [(); CHANNELS].map(|()| self.channel()),
            timer_enable: self.pick(&[15, any_timer_enable]),
            clock_control: self.below(8) as u8,
            seconds: self.number(),
            subsecond: self.pick(&[0, 1, rate - 1, any_subsecond]),
            offset_negative: self.once_in(2),
            offset_seconds: self.number(),
            offset_nanoseconds: self.nanoseconds(),
            alarm_enable: u8::from(!self.once_in(4)),
            alarm: self.number(),
            alarm_pending: self.once_in(8),
            alarm_armed: !self.once_in(4),
            seconds_shadow: self.number(),
            seconds_mask: self.mask(),
            poll: self.pick(&[0, poll_limit - 1, any_poll]),
            alarm_shadow: self.number(),
            alarm_mask: self.mask(),
            host_seconds: self.number(),
            host_nanoseconds: self.nanoseconds(),
            count_latches: [(); CHANNELS].map(|()| self.latch()),
            clock_low_latch: self.latch(),
            clock_high_latch: self.latch(),
            controller_pending: self.word() as u16,
            controller_enable: self.word() as u16,
            controller_levels: self.word() as u16 & !(1 << 3),
        };
        if self.once_in(2) {
            fields.host_seconds = self.near(fields.offset_seconds);
        }
        if self.once_in(2) {
            fields.alarm = self.near(fields.time_seconds());
        }
        fields.offset_negative &= fields.offset_ns() != 0;
        let overdue = fields.clock_enabled() && !fields.realtime() && fields.seconds >= fields.alarm;
        fields.alarm_armed &= !fields.alarm_pending && !overdue;
        fields.controller_levels |= u16::from(fields.line()) << 3;
        fields
    }

    /// Any call, at times a refused one, chosen without regard to a board.
    pub fn call(&mut self) -> Call {
        let address = match self.below(8) {
            0 => self.number() as u16,
            1 => registers::IDENTITY + self.below(16) as u16,
            2..=4 => registers::CLOCK_CONTROL + self.below(36) as u16,
            5 => registers::SIZE - self.below(2) as u16,
            _ => of_channel(0, 0) + self.below(256) as u16,
        };
        let low = self.below(8) as u32;
        let any = self.number() as u32;
        let controller_address = self.pick(&[low, low, low, any]);
        let byte = self.word() as u8;
        match self.below(10) {
            0 => Call::HostTime {
                seconds: self.number(),
                nanoseconds: self.nanoseconds() + u32::from(self.once_in(4)),
            },
            1 => Call::Read { address },
            2 => Call::Write { address, byte },
            3 => Call::Advance { cycles: self.number() },
            4 => Call::Deadline,
            5 => Call::Skip,
            6 => Call::Source {
                number: self.below(17) as u8,
                level: self.pick(&[0, 1, 0, 1, byte]),
            },
            7 => Call::ControllerRead {
                address: controller_address,
            },
            8 => Call::ControllerWrite {
                address: controller_address,
                byte,
            },
            _ => Call::Output,
        }
    }

    /// A write mask, often with one byte missing.
    fn mask(&mut self) -> u8 {
        let any = self.below(255) as u8;
        let one_missing = !(1 << self.below(8));
        self.pick(&[0, any, one_missing])
    }
}

/// A list and the length of the answer buffer to run it with.
pub struct Generated {
    pub list: Vec<u8>,
    pub buffer: usize,
}

/// The list of a seed, for a board without a given rate.
pub fn list(seed: u64) -> Generated {
    list_at(DEFAULT_RATE, seed)
}

/// The list of a seed, for a board at a rate, one of the three.
pub fn list_at(rate: u32, seed: u64) -> Generated {
    let mut generator = Generator {
        random: Random::at(rate, seed),
        board: AnyBoard::from_fields(&Fields::fresh_at(rate)),
        list: Vec::new(),
        starts: Vec::new(),
        answer_bytes: 0,
    };
    for _ in 0..generator.random.below(60) {
        generator.step();
    }
    generator.finish()
}

/// Builds a list for a fresh board. Each call is carried out at once, so that later ones can be chosen near what the
/// board then holds.
struct Generator {
    random: Random,
    board: AnyBoard,
    list: Vec<u8>,
    /// Where the calls start in the list.
    starts: Vec<usize>,
    answer_bytes: usize,
}

impl Generator {
    fn call(&mut self, call: Call) {
        self.starts.push(self.list.len());
        call.encode_into(&mut self.list);
        self.answer_bytes += call.answer_bytes();
        self.board.call(call);
    }

    fn step(&mut self) {
        // A line that stays high hides what comes after, so it is often acknowledged.
        if self.board.fields().line() && self.random.once_in(2) {
            self.write(registers::ACKNOWLEDGE + 3, 15);
            self.write(registers::ALARM_ACKNOWLEDGE + 3, 1);
        }
        match self.random.below(22) {
            0..=3 => self.program_channel(),
            4 => self.set_clock(),
            5 => self.set_alarm(),
            6 => self.realtime_alarm(),
            7 => self.write_clock_control(),
            8 => self.host_time(),
            9..=12 => self.advance(),
            13 => self.call(Call::Deadline),
            14 => self.skip(),
            15 => self.any_call(),
            16 => self.drive_controller(),
            17 => self.read_latched(),
            18 => self.acknowledge_or_enable(),
            19 => self.write_part_of_shadow(),
            _ => self.pass_periods(),
        }
    }

    fn write(&mut self, address: u16, byte: u8) {
        self.call(Call::Write { address, byte });
    }

    fn calls(&mut self, calls: Vec<Call>) {
        for call in calls {
            self.call(call);
        }
    }

    /// Programs a channel so that it runs more often than not.
    fn program_channel(&mut self) {
        let number = self.random.below(CHANNELS as u64) as usize;
        let register = |register| of_channel(number, register);
        let counter = self.random.number();
        let compare = self.random.compare(counter);
        let small = 1 + self.random.below(20);
        let any = self.random.number();
        let reload = self.random.pick(&[0, 1, small, any]);
        if !self.random.once_in(4) {
            let prescaler = self.random.prescaler();
            self.calls(writes::word(register(channel::PRESCALER), prescaler));
        }
        if self.random.once_in(2) {
            self.calls(writes::two_words(
                register(channel::RELOAD_LOW),
                register(channel::RELOAD_HIGH),
                reload,
            ));
        }
        if self.random.once_in(2) {
            self.calls(writes::two_words(
                register(channel::COUNT_LOW),
                register(channel::COUNT_HIGH),
                counter,
            ));
        }
        if !self.random.once_in(4) {
            self.calls(writes::two_words(
                register(channel::COMPARE_LOW),
                register(channel::COMPARE_HIGH),
                compare,
            ));
        }
        let mode = self.random.below(4) as u8;
        let flags = self.random.pick(&[12, 12, 12, 12 + 16, 4, 8, 0]);
        self.write(register(channel::CONTROL) + 3, mode | flags);
        if !self.random.once_in(4) {
            let enable = self.random.pick(&[15, 15, 1 << number]);
            self.write(registers::ENABLE + 3, enable);
        }
    }

    /// Makes some channels periodic, from 0 or from their present counters, and passes many of their points in one
    /// advance.
    fn pass_periods(&mut self) {
        for _ in 0..1 + self.random.below(3) {
            let number = self.random.below(CHANNELS as u64) as usize;
            let control = self.random.pick(&[5, 13]);
            let reset = self.random.pick(&[0, 16, 16]);
            let counter = self.board.fields().channels[number].counter;
            let compare = self.random.compare(if reset == 0 { counter } else { 0 });
            let [few, any] = [1 + self.random.below(20), self.random.number()];
            let reload = self.random.pick(&[1, few, few, any]);
            let prescaler = self.random.below(10) as u32;
            let prescaler = self.random.pick(&[0, 0, prescaler]);
            self.calls(writes::program(number, control | reset, prescaler, compare, reload));
        }
        self.write(registers::ENABLE + 3, 15);
        let cycles = self.cycles_over_periods();
        self.call(Call::Advance { cycles });
    }

    /// Cycles after which a channel, if it is periodic and runs, has met a number of points; else any number.
    fn cycles_over_periods(&mut self) -> u64 {
        let fields = self.board.fields();
        let periods = self.random.number();
        let running = (0..CHANNELS).filter(|&number| fields.runs(number) && fields.channels[number].mode() == 1);
        let running: Vec<_> = running.map(|number| fields.channels[number]).collect();
        if running.is_empty() {
            return periods;
        }
        let channel = self.random.pick(&running);
        let divisor = u128::from(channel.prescaler) + 1;
        let point = u128::from(channel.compare) + u128::from(periods) * u128::from(channel.reload);
        let ticks = point.saturating_sub(channel.counter.into());
        let cycles = ticks.saturating_mul(divisor).saturating_sub(channel.phase.into());
        let about = u64::try_from(cycles).unwrap_or(u64::MAX);
        about.saturating_add(self.random.below(3)).saturating_sub(1)
    }

    /// Writes eight bytes in some order, at times the first one twice.
    fn write_shuffled(&mut self, low: u16, high: u16, value: u64) {
        let mut bytes: Vec<(u16, u8)> = (high..high + 4).chain(low..low + 4).zip(value.to_be_bytes()).collect();
        self.random.shuffle(&mut bytes);
        if self.random.once_in(4) {
            bytes.insert(1, bytes[0]);
        }
        for (address, byte) in bytes {
            self.write(address, byte);
        }
    }

    fn set_clock(&mut self) {
        let control = self.board.fields().clock_control | 2;
        self.write(registers::CLOCK_CONTROL + 3, control);
        let seconds = self.random.number();
        self.write_shuffled(registers::SECONDS_LOW, registers::SECONDS_HIGH, seconds);
    }

    fn set_alarm(&mut self) {
        let now = self.board.fields().time_seconds();
        let near = self.random.near(now);
        let any = self.random.number();
        let alarm = self.random.pick(&[near, now.saturating_add(1), any]);
        self.write_shuffled(registers::ALARM_LOW, registers::ALARM_HIGH, alarm);
        let enable = self.random.pick(&[1, 1, 1, 0]);
        self.write(registers::ALARM_ENABLE + 3, enable);
    }

    /// An alarm on host time, and the host time and the advance that may reach it.
    fn realtime_alarm(&mut self) {
        let control = self.random.pick(&[5, 7]);
        self.write(registers::CLOCK_CONTROL + 3, control);
        self.set_alarm();
        self.host_time();
        self.advance();
    }

    fn write_clock_control(&mut self) {
        let any = self.random.word() as u8;
        let byte = self.random.pick(&[any, any % 8, any % 8]);
        let place = self.random.pick(&[3, 3, 3, any as u16 % 4]);
        self.write(registers::CLOCK_CONTROL + place, byte);
    }

    /// Host time anywhere, or about where the clock's time is 0 or at the alarm.
    fn host_time(&mut self) {
        let fields = self.board.fields();
        let seconds = self.random.number();
        let any = i128::from(seconds) * SECOND + i128::from(self.random.nanoseconds());
        let about = i128::from(self.random.below(3)) - 1;
        let zero = about - fields.offset_ns();
        let time = self.random.pick(&[any, zero, zero + i128::from(fields.alarm) * SECOND]);
        let time = time.clamp(0, i128::from(u64::MAX) * SECOND + SECOND - 1);
        self.call(Call::HostTime {
            seconds: (time / SECOND) as u64,
            nanoseconds: (time % SECOND) as u32,
        });
    }

    /// An advance by any number, or to about the deadline, the end of the second, the poll or a channel's later point.
    fn advance(&mut self) {
        let fields = self.board.fields();
        let deadline = deadline::exact(&fields).and_then(|cycles| u64::try_from(cycles).ok());
        let any = self.random.number();
        let later = self.cycles_over_periods();
        let about = self.random.pick(&[
            deadline.unwrap_or(any),
            later,
            u64::from(fields.rate - fields.subsecond),
            u64::from(fields.poll_limit() - fields.poll),
        ]);
        let about = about.wrapping_add(self.random.below(3)).wrapping_sub(1);
        let small = self.random.below(50);
        let cycles = self.random.pick(&[any, about, about, small]);
        self.call(Call::Advance { cycles });
    }

    /// Enables some sources, drives some, and asks for a register and the output.
    fn drive_controller(&mut self) {
        let enable = self.random.word() as u16 | self.random.word() as u16;
        for (address, byte) in (4..).zip(enable.to_be_bytes()) {
            self.call(Call::ControllerWrite { address, byte });
        }
        for _ in 0..self.random.below(5) {
            let number = self.random.pick(&[0, 1, 2, 4, 7, 8, 14, 15]);
            let level = self.random.pick(&[0, 1, 1]);
            self.call(Call::Source { number, level });
        }
        let address = self.random.below(8) as u32;
        self.call(Call::ControllerRead { address });
        self.call(Call::Output);
    }

    /// Any call that is accepted.
    fn any_call(&mut self) {
        let call = self.random.call();
        if self.board.refusal(call).is_none() {
            self.call(call);
        }
    }

    /// A skip. A refused one ends the run, so it is seldom left in the list.
    fn skip(&mut self) {
        if self.board.refusal(Call::Skip).is_none() || self.random.once_in(8) {
            self.call(Call::Skip);
        }
    }

    /// Fills the latches of a channel's count or of the clock, then reads some bytes of its words.
    fn read_latched(&mut self) {
        let number = self.random.below(CHANNELS as u64) as usize;
        let count = (
            of_channel(number, channel::COUNT_LOW),
            of_channel(number, channel::COUNT_HIGH),
        );
        let (low, high) = self
            .random
            .pick(&[count, (registers::SECONDS_LOW, registers::SECONDS_HIGH)]);
        self.call(Call::Read { address: low });
        if self.random.once_in(2) {
            self.advance();
        }
        let words = self.random.pick(&[[low, high], [high, low]]);
        for word in words {
            for byte in 0..self.random.below(5) as u16 {
                self.call(Call::Read { address: word + byte });
            }
        }
    }

    fn acknowledge_or_enable(&mut self) {
        let byte = self.random.word() as u8;
        let register = self.random.pick(&[
            registers::ACKNOWLEDGE,
            registers::ALARM_ACKNOWLEDGE,
            registers::ENABLE,
            registers::ALARM_ENABLE,
        ]);
        self.write(register + 3, byte);
    }

    fn write_part_of_shadow(&mut self) {
        let word = self.random.pick(&[
            registers::SECONDS_LOW,
            registers::SECONDS_HIGH,
            registers::ALARM_LOW,
            registers::ALARM_HIGH,
        ]);
        for _ in 0..self.random.below(4) {
            let place = self.random.below(4) as u16;
            let byte = self.random.word() as u8;
            self.write(word + place, byte);
        }
    }

    /// Ends the list: whole, with a refused call, damaged, or too long for its buffer.
    fn finish(mut self) -> Generated {
        let mut buffer = BUFFER;
        match self.random.below(12) {
            0..=4 => {}
            5 => buffer = self.answer_bytes,
            6..=7 => self.refused_call(),
            8..=9 => self.damage(),
            10 => buffer = self.random.below(self.answer_bytes as u64 + 1) as usize,
            _ if self.random.once_in(8) => {
                while self.answer_bytes <= BUFFER {
                    self.call(Call::Deadline);
                }
            }
            _ => {
                for _ in 0..1 + self.random.below(4) {
                    self.list.push(self.random.word() as u8);
                }
            }
        }
        Generated {
            list: self.list,
            buffer,
        }
    }

    /// A call with its own refusal, or a skip where the board refuses it, and perhaps a call after it.
    fn refused_call(&mut self) {
        let seconds = self.random.number();
        let nanoseconds = self.random.pick(&[NANOSECONDS_PER_SECOND, u32::MAX]);
        let address = self.random.pick(&[registers::SIZE, u16::MAX]);
        let byte = self.random.word() as u8;
        let mut call = self.random.pick(&[
            Call::HostTime { seconds, nanoseconds },
            Call::Read { address },
            Call::Write { address, byte },
            Call::Source {
                number: 16,
                level: byte,
            },
            Call::Source { number: 255, level: 1 },
            Call::Source { number: 3, level: byte },
            Call::Source {
                number: byte % 3,
                level: 2,
            },
            Call::Source { number: 15, level: 255 },
        ]);
        if self.board.refusal(Call::Skip).is_some() && self.random.once_in(2) {
            call = Call::Skip;
        }
        self.call(call);
        if self.random.once_in(2) {
            self.call(Call::Output);
        }
    }

    /// Cuts the list, flips bits, or spoils the tag or the length of a call.
    fn damage(&mut self) {
        if self.list.is_empty() {
            return;
        }
        let start = self.random.pick(&self.starts);
        let any = self.random.word() as u8;
        match self.random.below(5) {
            0 => self.list.truncate(self.random.below(self.list.len() as u64) as usize),
            1 => {
                for _ in 0..1 + self.random.below(3) {
                    let place = self.random.below(self.list.len() as u64) as usize;
                    self.list[place] ^= 1 << self.random.below(8);
                }
            }
            2 => self.list[start] = self.random.pick(&[0, 0x0B, 0xFF, any]),
            3 => self.list[start + 1] = any,
            _ => self.list[start + 2] = self.random.pick(&[0, 1, any]),
        }
    }
}
