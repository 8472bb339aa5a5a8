//! The board of document 01: the timing device, the controller wired to it by source 3, and the host time.

use std::cell::RefCell;

use calls::{Answer, Call, Outcome, Refusal, LINE_SOURCE};

use crate::bus::Device;
use crate::controller;
use crate::deadline;
use crate::fields::Fields;
use crate::host_time;
use crate::irqc::IrqController;
use crate::list;
use crate::matches;
use crate::registers::CHANNELS;
use crate::timing::{At1, At12, At48, Timing};

/// A board at the rate of a build of timing.rs. A board that is not sound is kept as its fields: every call refuses it,
/// and the Rust cannot hold all such fields, for instance a negative zero offset or a value in an empty latch.
pub enum BoardAt<T> {
    Sound(Devices<T>),
    Unsound(Box<Fields>),
}

/// A board without a given rate.
pub type Board = BoardAt<At48>;

/// The devices and the host time of a sound board.
pub struct Devices<T> {
    timing: T,
    // In a cell because reading the levels alters the controller for a moment.
    controller: RefCell<IrqController>,
    host_seconds: u64,
    host_nanoseconds: u32,
}

/// A call that is not refused, with what was worked out to accept it.
pub(crate) struct Accepted {
    call: Call,
    /// The cycles that a skip passes, 0 where it makes no advance; 0 for any other call.
    passed: u64,
}

/// What a direct call returns besides the board.
#[derive(Clone, Copy, Debug, PartialEq, Eq)]
pub struct Reply {
    pub refusal: Option<Refusal>,
    pub answer: Answer,
}

impl<T: Timing> BoardAt<T> {
    /// Document 01's fresh board, made of the Rust's own initial states.
    pub fn fresh() -> Self {
        Self::Sound(Devices {
            timing: T::fresh(),
            controller: RefCell::new(IrqController::new()),
            host_seconds: 0,
            host_nanoseconds: 0,
        })
    }

    /// The board with the given fields, which must be of this rate where they are sound.
    pub fn from_fields(fields: &Fields) -> Self {
        if fields.sound() {
            assert_eq!(fields.rate, T::RATE, "a sound board is made at its own rate");
            Self::Sound(Devices::from_fields(fields))
        } else {
            Self::Unsound(Box::new(*fields))
        }
    }

    /// Every field of the board.
    pub fn fields(&self) -> Fields {
        match self {
            Self::Sound(devices) => devices.fields(),
            Self::Unsound(fields) => **fields,
        }
    }

    /// Whether the board is sound by document 01, from the fields as they are now.
    pub fn sound(&self) -> bool {
        self.fields().sound()
    }

    /// A direct call. A refused one leaves the board unchanged and answers with zeros.
    pub fn call(&mut self, call: Call) -> Reply {
        let before = self.fields();
        let answer = match self {
            Self::Sound(devices) if before.sound() => {
                devices.accept(call).map(|accepted| devices.carry_out(accepted))
            }
            _ => Err(Refusal::UnsoundBoard),
        };
        let counted = |answer| matches::counted(answer, &before.channels, &self.fields().channels);
        Reply {
            refusal: answer.err(),
            answer: answer.map_or(call.zero_answer(), counted),
        }
    }

    /// The refusal that a direct call would give.
    pub fn refusal(&self, call: Call) -> Option<Refusal> {
        match self {
            Self::Sound(devices) if self.sound() => devices.accept(call).err(),
            _ => Some(Refusal::UnsoundBoard),
        }
    }
}

impl<T: Timing> Devices<T> {
    /// The line after an advance of a copy of the originals' state, at the board's host time.
    pub fn line_after(&self, cycles: u64) -> bool {
        host_time::set(self.host_seconds, self.host_nanoseconds);
        self.timing.line_after(cycles)
    }

    fn from_fields(fields: &Fields) -> Self {
        let mut irqc = IrqController::new();
        controller::set(&mut irqc, fields.controller_pending, fields.controller_levels);
        irqc.set_enable_mask(fields.controller_enable);
        Self {
            timing: T::from_fields(fields),
            controller: RefCell::new(irqc),
            host_seconds: fields.host_seconds,
            host_nanoseconds: fields.host_nanoseconds,
        }
    }

    fn fields(&self) -> Fields {
        let mut irqc = self.controller.borrow_mut();
        let mut fields = Fields {
            host_seconds: self.host_seconds,
            host_nanoseconds: self.host_nanoseconds,
            controller_pending: irqc.pending(),
            controller_enable: irqc.enable_mask(),
            controller_levels: controller::levels(&mut irqc),
            ..Fields::fresh_at(T::RATE)
        };
        self.timing.store(&mut fields);
        fields
    }

    /// The call accepted, or its own refusal: one that its value decides, or a skip's, which the board decides.
    pub(crate) fn accept(&self, call: Call) -> Result<Accepted, Refusal> {
        if let Some(refusal) = call.refusal() {
            return Err(refusal);
        }
        let passed = match call {
            Call::Skip => self.cycles_to_skip()?,
            _ => 0,
        };
        Ok(Accepted { call, passed })
    }

    /// The cycles that a skip passes: 0 with the line high or without a D, else D, which is never 0. Refused with 13
    /// where D is above 2^64 - 1.
    fn cycles_to_skip(&self) -> Result<u64, Refusal> {
        if self.timing.irq_asserted() {
            return Ok(0);
        }
        match self.timing.cycles_until_irq() {
            // The Rust's figure is the smaller of D and 2^64 - 1. Below that it is D, and D need not be worked out.
            Some(u64::MAX) if self.exact_deadline() > Some(u64::MAX.into()) => Err(Refusal::DeadlineTooLarge),
            cycles => Ok(cycles.unwrap_or(0)),
        }
    }

    /// Carries out an accepted call, and then sets source 3 to the line. The counts in an advance's answer stay 0: the
    /// Rust has none.
    pub(crate) fn carry_out(&mut self, accepted: Accepted) -> Answer {
        host_time::set(self.host_seconds, self.host_nanoseconds);
        let answer = self.perform(accepted);
        let line = self.timing.irq_asserted();
        self.controller.get_mut().set_source(LINE_SOURCE, line);
        answer
    }

    fn perform(&mut self, Accepted { call, passed }: Accepted) -> Answer {
        let irqc = self.controller.get_mut();
        match call {
            Call::HostTime { seconds, nanoseconds } => {
                self.host_seconds = seconds;
                self.host_nanoseconds = nanoseconds;
                Answer::Empty
            }
            Call::Read { address } => Answer::Byte(self.timing.read(address)),
            Call::Write { address, byte } => {
                self.timing.write(address, byte);
                Answer::Empty
            }
            Call::Advance { cycles } => {
                self.timing.advance(cycles);
                Answer::Advance {
                    line: self.timing.irq_asserted(),
                    matches: [0; CHANNELS],
                }
            }
            Call::Deadline => self.deadline(),
            Call::Skip => self.skip(passed),
            Call::Source { number, level } => {
                irqc.set_source(number, level == 1);
                Answer::Empty
            }
            Call::ControllerRead { address } => Answer::Byte(irqc.read(address)),
            Call::ControllerWrite { address, byte } => {
                irqc.write(address, byte);
                Answer::Empty
            }
            Call::Output => {
                let output = irqc.irq_output();
                Answer::Output {
                    valid: output.valid,
                    number: output.number,
                }
            }
        }
    }

    /// Document 01's D. The Rust has none, and it is seldom needed: inlined, it would slow a run's other calls.
    #[inline(never)]
    fn exact_deadline(&self) -> Option<u128> {
        let mut fields = Fields::fresh_at(T::RATE);
        self.timing.store(&mut fields);
        deadline::exact(&fields)
    }

    /// The exact deadline by document 01, the 64-bit deadline by the Rust.
    fn deadline(&self) -> Answer {
        let exact = self.exact_deadline();
        let capped = self.timing.cycles_until_irq();
        Answer::Deadline {
            present: exact.is_some(),
            exact: exact.unwrap_or(0),
            capped: capped.unwrap_or(0),
        }
    }

    /// Document 01's skip: one advance by these cycles, or none where they are 0.
    fn skip(&mut self, passed: u64) -> Answer {
        if passed > 0 {
            self.timing.advance(passed);
        }
        Answer::Skip {
            passed,
            line: self.timing.irq_asserted(),
        }
    }
}

/// A board of any of the three rates, for programs that choose the rate while they run. Measured runs do not use it.
pub enum AnyBoard {
    At1(BoardAt<At1>),
    At12(BoardAt<At12>),
    At48(BoardAt<At48>),
}

/// The value of an expression over the board at its rate.
macro_rules! at_its_rate {
    ($any:expr, $board:ident => $then:expr) => {
        match $any {
            Self::At1($board) => $then,
            Self::At12($board) => $then,
            Self::At48($board) => $then,
        }
    };
}

impl AnyBoard {
    /// Document 01's fresh board, without a given rate.
    pub fn fresh() -> Self {
        Self::At48(Board::fresh())
    }

    /// A fresh board at a rate. For a rate other than the three, refusal 15 and a fresh board without a given rate.
    pub fn fresh_at(rate: u32) -> (Self, Option<Refusal>) {
        match rate {
            At1::RATE => (Self::At1(BoardAt::fresh()), None),
            At12::RATE => (Self::At12(BoardAt::fresh()), None),
            At48::RATE => (Self::At48(BoardAt::fresh()), None),
            _ => (Self::fresh(), Some(Refusal::UnsupportedRate)),
        }
    }

    /// The board with the given fields. One at a rate other than the three is not sound.
    pub fn from_fields(fields: &Fields) -> Self {
        match fields.rate {
            At1::RATE => Self::At1(BoardAt::from_fields(fields)),
            At12::RATE => Self::At12(BoardAt::from_fields(fields)),
            _ => Self::At48(BoardAt::from_fields(fields)),
        }
    }

    /// Every field of the board.
    pub fn fields(&self) -> Fields {
        at_its_rate!(self, board => board.fields())
    }

    /// Whether the board is sound by document 01, from the fields as they are now.
    pub fn sound(&self) -> bool {
        self.fields().sound()
    }

    /// A direct call.
    pub fn call(&mut self, call: Call) -> Reply {
        at_its_rate!(self, board => board.call(call))
    }

    /// The refusal that a direct call would give.
    pub fn refusal(&self, call: Call) -> Option<Refusal> {
        at_its_rate!(self, board => board.refusal(call))
    }

    /// The line after an advance of a copy of the originals' state. Panics where the board is not sound.
    pub fn line_after(&self, cycles: u64) -> bool {
        at_its_rate!(self, board => match board {
            BoardAt::Sound(devices) => devices.line_after(cycles),
            BoardAt::Unsound(_) => panic!("the board is not sound"),
        })
    }

    /// Runs a list.
    pub fn run(&mut self, list: &[u8], answers: &mut [u8]) -> Outcome {
        at_its_rate!(self, board => list::run(board, list, answers))
    }
}
