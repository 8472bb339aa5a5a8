//! The ten calls and their answers: members, tags, lengths, big-endian form, and the refusals that a call's value alone
//! decides. Tags, lengths and the bytes of calls and answers come from one table, `FORMS`.

use crate::{Fault, Refusal, NANOSECONDS_PER_SECOND};

/// Reads and writes are refused from this address on.
const ADDRESS_LIMIT: u16 = 0x380;
/// The highest source of the controller.
const LAST_SOURCE: u8 = 15;
/// The controller's source that is set to the line.
pub const LINE_SOURCE: u8 = 3;

/// A call with its value.
#[derive(Clone, Copy, Debug, PartialEq, Eq)]
pub enum Call {
    /// Sets the host time, from which the clock runs in realtime; makes no alarm check.
    HostTime { seconds: u64, nanoseconds: u32 },
    /// Reads a register byte; answers [`Answer::Byte`].
    Read { address: u16 },
    /// Writes a register byte.
    Write { address: u16, byte: u8 },
    /// Advances the board; answers [`Answer::Advance`].
    Advance { cycles: u64 },
    /// Asks for the cycles until the next interrupt; answers [`Answer::Deadline`].
    Deadline,
    /// With the line low and a deadline, advances once by the deadline, which raises the line; refused with
    /// [`Refusal::DeadlineTooLarge`] where the deadline is above 2^64 - 1. With the line high or without a deadline it
    /// makes no advance. Answers [`Answer::Skip`].
    Skip,
    /// Sets the level, 0 or 1, of a source of the controller.
    Source { number: u8, level: u8 },
    /// Reads a register byte of the controller; answers [`Answer::Byte`].
    ControllerRead { address: u32 },
    /// Writes a register byte of the controller.
    ControllerWrite { address: u32, byte: u8 },
    /// Asks for the controller's output; answers [`Answer::Output`].
    Output,
}

/// The answer of an accepted call. A refused direct call answers with every member 0.
#[derive(Clone, Copy, Debug, PartialEq, Eq)]
pub enum Answer {
    /// Of a host time, a write, a source and a controller write.
    Empty,
    /// Of a read and a controller read.
    Byte(u8),
    /// Of an advance: whether the line is high, and how many compare points each channel met, overdue ones too, channel
    /// 0 first. Without a match the count is 0. A match counts 1; in mode 1 with a reload other than 0 it counts
    /// floor((counter - compare) / reload) + 1, with the old compare and the new counter, which can be 2^64.
    Advance { line: bool, matches: [u128; 4] },
    /// Whether there is a deadline; the deadline, D; the smaller of D and 2^64 - 1. Without a deadline all are 0.
    Deadline { present: bool, exact: u128, capped: u64 },
    /// The cycles that a skip passed, and whether the line is high. With the line low and a D before it, a skip passes
    /// D cycles and the line is high. With the line high or without a D, it passes 0 and the line stays.
    Skip { passed: u64, line: bool },
    /// Whether a source is presented, and which.
    Output { valid: bool, number: u8 },
}

/// The form of a call: its tag, the widths in bytes of its value's and its answer's members, and the lengths of both.
#[derive(Clone, Copy)]
struct Form {
    tag: u8,
    value: &'static [usize],
    answer: &'static [usize],
    value_length: usize,
    answer_length: usize,
}

/// Document 01's table of calls, with the counts that S-4 adds to an advance's answer, in the order of the tags.
const FORMS: [Form; 10] = [
    form(0x01, &[8, 4], &[]),               // host time: seconds, nanoseconds
    form(0x02, &[2], &[1]),                 // read: address; the byte
    form(0x03, &[2, 1], &[]),               // write: address, byte
    form(0x04, &[8], &[1, 16, 16, 16, 16]), // advance: cycles; the line, the channels' counts of matches
    form(0x05, &[], &[1, 16, 8]),           // deadline; whether there is one, D, the 64-bit deadline
    form(0x06, &[], &[8, 1]),               // skip; the cycles passed, the line
    form(0x07, &[1, 1], &[]),               // source: number, level
    form(0x08, &[4], &[1]),                 // controller read: address; the byte
    form(0x09, &[4, 1], &[]),               // controller write: address, byte
    form(0x0A, &[], &[1, 1]),               // output; whether it is valid, the number
];

const fn form(tag: u8, value: &'static [usize], answer: &'static [usize]) -> Form {
    Form {
        tag,
        value,
        answer,
        value_length: sum(value),
        answer_length: sum(answer),
    }
}

const fn sum(widths: &[usize]) -> usize {
    match widths {
        [] => 0,
        [first, rest @ ..] => *first + sum(rest),
    }
}

/// The widths of the answer to a call of a known tag.
const fn answer_widths(tag: u8) -> &'static [usize] {
    FORMS[tag as usize - 1].answer
}

/// The value of an expression over a tag's form, or none for an unknown tag. In the expression the form is a constant,
/// so a run has direct code for each call and reads no width from the table.
macro_rules! by_form {
    ($tag:expr, $form:ident => $then:expr) => {
        by_form!($tag, $form => $then; 0x01 0x02 0x03 0x04 0x05 0x06 0x07 0x08 0x09 0x0A)
    };
    ($tag:expr, $form:ident => $then:expr; $($known:literal)*) => {
        match $tag {
            $($known => {
                const $form: Form = FORMS[$known - 1];
                Some($then)
            })*
            _ => None,
        }
    };
}

/// The known tags, in order.
pub fn tags() -> impl Iterator<Item = u8> {
    FORMS.iter().map(|form| form.tag)
}

/// The length of a tag's value, or none for an unknown tag.
pub fn value_length(tag: u8) -> Option<usize> {
    by_form!(tag, FORM => FORM.value_length)
}

/// The length of the value of a tag's answer, or none for an unknown tag.
pub fn answer_length(tag: u8) -> Option<usize> {
    by_form!(tag, FORM => FORM.answer_length)
}

/// Bytes before a value: tag 1, length 2.
pub const HEADER_LENGTH: usize = 3;

/// The bytes of the widest member.
const WIDEST: usize = size_of::<u128>();

/// The most members that an answer has, and the bytes of the longest record: both are an advance's.
const ANSWER_MEMBERS: usize = answer_widths(0x04).len();
const LONGEST: usize = HEADER_LENGTH + sum(answer_widths(0x04));

/// The members with these widths, from the bytes of a value. Places without a member hold 0.
#[inline(always)]
fn read<const MEMBERS: usize>(widths: &[usize], value: &[u8]) -> [u128; MEMBERS] {
    let mut members = [0; MEMBERS];
    let mut from = 0;
    for (member, width) in members.iter_mut().zip(widths) {
        let mut bytes = [0; WIDEST];
        bytes[WIDEST - width..].copy_from_slice(&value[from..from + width]);
        *member = u128::from_be_bytes(bytes);
        from += width;
    }
    members
}

/// Writes a record over bytes of its length: the tag, the value's length and the members with these widths. The length
/// fits in one byte.
#[inline(always)]
fn write<const MEMBERS: usize>(tag: u8, widths: &[usize], members: [u128; MEMBERS], record: &mut [u8]) {
    debug_assert_eq!(record.len(), HEADER_LENGTH + sum(widths));
    let (header, value) = record.split_at_mut(HEADER_LENGTH);
    header.copy_from_slice(&[tag, 0, value.len() as u8]);
    let mut from = 0;
    for (member, width) in members.iter().zip(widths) {
        value[from..from + width].copy_from_slice(&member.to_be_bytes()[WIDEST - width..]);
        from += width;
    }
}

/// The first record of some bytes: its tag, the length that it gives, and the bytes after both; or refusal 2.
#[inline(always)]
fn header(bytes: &[u8]) -> Result<(u8, usize, &[u8]), Refusal> {
    let &[tag, high, low, ref rest @ ..] = bytes else {
        return Err(Refusal::TruncatedHeader);
    };
    Ok((tag, usize::from(u16::from_be_bytes([high, low])), rest))
}

/// The value at the start of `rest`, of the length that its tag requires; or refusal 4 or 5.
#[inline(always)]
fn value(rest: &[u8], said: usize, expected: usize) -> Result<&[u8], Refusal> {
    if said != expected {
        return Err(Refusal::WrongLength);
    }
    rest.get(..expected).ok_or(Refusal::TruncatedValue)
}

/// The list of some calls.
pub fn list_of(calls: &[Call]) -> Vec<u8> {
    let mut list = Vec::new();
    for call in calls {
        call.encode_into(&mut list);
    }
    list
}

impl Call {
    /// The first call of a list, and the number of its bytes; or the refusal, 2 to 5. An empty list gives 2, though a
    /// run does not refuse it.
    // A program may have one loop over calls for each rate. Without this attribute none of them would inline the
    // function.
    #[inline]
    pub fn decode(list: &[u8]) -> Result<(Self, usize), Refusal> {
        let (tag, said, rest) = header(list)?;
        let decoded = by_form!(tag, FORM => {
            let value = value(rest, said, FORM.value_length)?;
            (Self::of(FORM.tag, read(FORM.value, value)), HEADER_LENGTH + FORM.value_length)
        });
        decoded.ok_or(Refusal::UnknownTag)
    }

    /// The call of a known tag with these members.
    #[inline(always)]
    fn of(tag: u8, [first, second]: [u128; 2]) -> Self {
        match tag {
            0x01 => Self::HostTime {
                seconds: first as u64,
                nanoseconds: second as u32,
            },
            0x02 => Self::Read { address: first as u16 },
            0x03 => Self::Write {
                address: first as u16,
                byte: second as u8,
            },
            0x04 => Self::Advance { cycles: first as u64 },
            0x05 => Self::Deadline,
            0x06 => Self::Skip,
            0x07 => Self::Source {
                number: first as u8,
                level: second as u8,
            },
            0x08 => Self::ControllerRead { address: first as u32 },
            0x09 => Self::ControllerWrite {
                address: first as u32,
                byte: second as u8,
            },
            0x0A => Self::Output,
            _ => panic!("tag {tag:02x} is unknown"),
        }
    }

    /// The call's tag.
    pub fn tag(&self) -> u8 {
        match self {
            Self::HostTime { .. } => 0x01,
            Self::Read { .. } => 0x02,
            Self::Write { .. } => 0x03,
            Self::Advance { .. } => 0x04,
            Self::Deadline => 0x05,
            Self::Skip => 0x06,
            Self::Source { .. } => 0x07,
            Self::ControllerRead { .. } => 0x08,
            Self::ControllerWrite { .. } => 0x09,
            Self::Output => 0x0A,
        }
    }

    /// The members. Places without a member hold 0.
    fn members(&self) -> [u128; 2] {
        match *self {
            Self::HostTime { seconds, nanoseconds } => [seconds.into(), nanoseconds.into()],
            Self::Read { address } => [address.into(), 0],
            Self::Write { address, byte } => [address.into(), byte.into()],
            Self::Advance { cycles } => [cycles.into(), 0],
            Self::Deadline | Self::Skip | Self::Output => [0, 0],
            Self::Source { number, level } => [number.into(), level.into()],
            Self::ControllerRead { address } => [address.into(), 0],
            Self::ControllerWrite { address, byte } => [address.into(), byte.into()],
        }
    }

    /// The call's bytes in a list.
    pub fn encode(&self) -> Vec<u8> {
        let mut list = Vec::new();
        self.encode_into(&mut list);
        list
    }

    /// Appends the call to a list.
    pub fn encode_into(&self, list: &mut Vec<u8>) {
        let start = list.len();
        let encoded = by_form!(self.tag(), FORM => {
            list.resize(start + HEADER_LENGTH + FORM.value_length, 0);
            write(FORM.tag, FORM.value, self.members(), &mut list[start..]);
        });
        encoded.expect("the tag is known");
    }

    /// The call's own refusal where its value alone decides it: 6 to 10, in document 01's order. It does not find 1 and
    /// a skip's 13, which depend on the board, nor 2 to 5 and 11, which depend on the list and the buffer.
    #[must_use]
    pub fn refusal(&self) -> Option<Refusal> {
        match *self {
            Self::HostTime { nanoseconds, .. } if nanoseconds >= NANOSECONDS_PER_SECOND => {
                Some(Refusal::NanosecondsOutOfRange)
            }
            Self::Read { address } | Self::Write { address, .. } if address >= ADDRESS_LIMIT => {
                Some(Refusal::AddressOutOfRange)
            }
            Self::Source { number, .. } if number > LAST_SOURCE => Some(Refusal::SourceOutOfRange),
            Self::Source {
                number: LINE_SOURCE, ..
            } => Some(Refusal::ReservedSource),
            Self::Source { level, .. } if level > 1 => Some(Refusal::LevelOutOfRange),
            _ => None,
        }
    }

    /// The number of bytes that the call's answer takes in a buffer.
    pub fn answer_bytes(&self) -> usize {
        HEADER_LENGTH + answer_length(self.tag()).expect("the tag is known")
    }

    /// The call's answer with every member 0, which a refused direct call gives.
    pub fn zero_answer(&self) -> Answer {
        Answer::of(self.tag(), [0; ANSWER_MEMBERS])
    }
}

impl Answer {
    /// The answer of a known tag's call with these members.
    fn of(tag: u8, [first, second, third, fourth, fifth]: [u128; ANSWER_MEMBERS]) -> Self {
        match tag {
            0x01 | 0x03 | 0x07 | 0x09 => Self::Empty,
            0x02 | 0x08 => Self::Byte(first as u8),
            0x04 => Self::Advance {
                line: first != 0,
                matches: [second, third, fourth, fifth],
            },
            0x05 => Self::Deadline {
                present: first != 0,
                exact: second,
                capped: third as u64,
            },
            0x06 => Self::Skip {
                passed: first as u64,
                line: second != 0,
            },
            0x0A => Self::Output {
                valid: first != 0,
                number: second as u8,
            },
            _ => panic!("tag {tag:02x} is unknown"),
        }
    }

    /// The first answer of a buffer: its call's tag, the answer, and the number of its bytes.
    pub fn decode(buffer: &[u8]) -> Result<(u8, Self, usize), Fault> {
        let (tag, said, rest) = header(buffer).map_err(Fault::Form)?;
        let read = by_form!(tag, FORM => {
            let value = value(rest, said, FORM.answer_length).map_err(Fault::Form)?;
            (read(FORM.answer, value), HEADER_LENGTH + FORM.answer_length)
        });
        let (members, used) = read.ok_or(Fault::Form(Refusal::UnknownTag))?;
        let answer = Self::of(tag, members);
        // Any number other than 0 was read as a true flag, but only 1 is a flag's byte.
        let mut own = [0; LONGEST];
        answer.store(tag, &mut own[..used]);
        if own[..used] != buffer[..used] {
            return Err(Fault::InvalidFlag);
        }
        Ok((tag, answer, used))
    }

    /// The bytes of the answer to a call of a known tag.
    pub fn encode(&self, tag: u8) -> Vec<u8> {
        let mut record = vec![0; HEADER_LENGTH + answer_length(tag).expect("the tag is known")];
        self.store(tag, &mut record);
        record
    }

    /// Writes the answer to a call of a known tag over bytes of the record's length. The answer's kind decides its
    /// widths, so there is direct code where the kind is known.
    #[inline(always)]
    pub fn store(&self, tag: u8, record: &mut [u8]) {
        match *self {
            Self::Empty => write(tag, answer_widths(0x01), [], record),
            Self::Byte(byte) => write(tag, answer_widths(0x02), [byte.into()], record),
            Self::Advance {
                line,
                matches: [first, second, third, fourth],
            } => {
                let members = [line.into(), first, second, third, fourth];
                write(tag, answer_widths(0x04), members, record);
            }
            Self::Deadline { present, exact, capped } => {
                write(tag, answer_widths(0x05), [present.into(), exact, capped.into()], record);
            }
            Self::Skip { passed, line } => write(tag, answer_widths(0x06), [passed.into(), line.into()], record),
            Self::Output { valid, number } => {
                write(tag, answer_widths(0x0A), [valid.into(), number.into()], record);
            }
        }
    }
}
