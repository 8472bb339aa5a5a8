//! Parked boards: the image of a board in either form, the reading of one, the moves from form to form, and what the
//! library's functions on images do. Written from the requests S-1 and S-8 and from document 01's list of fields.

use calls::{Outcome, Refusal, DEFAULT_RATE, RATES};

use crate::board::AnyBoard;
use crate::fields::{Channel, Fields, Latch};

/// The form of an image.
#[derive(Clone, Copy, Debug, PartialEq, Eq)]
pub enum Form {
    /// S-1's, seven fields without a rate: its board is at 48,000,000.
    Old,
    /// S-8's: a field with the rate, and then the fields of the old form.
    New,
}

impl Form {
    /// Both forms.
    pub const ALL: [Self; 2] = [Self::Old, Self::New];

    /// The bytes of an image.
    pub const fn size(self) -> usize {
        match self {
            Self::Old => OLD_IMAGE_SIZE,
            Self::New => IMAGE_SIZE,
        }
    }
}

/// The tags of an image's fields.
const RATE: u8 = 0x24;
const CHANNEL: u8 = 0x20;
const CLOCK: u8 = 0x21;
const LATCHES: u8 = 0x22;
const CONTROLLER: u8 = 0x23;

/// The lengths of the fields' members: four bytes for the rate, the others summed from document 01's widths.
const RATE_LENGTH: u16 = 4;
const CHANNEL_LENGTH: u16 = 1 + 8 + 8 + 8 + 4 + 4 + 1 + 1;
const CLOCK_LENGTH: u16 = 1 + (1 + 8 + 4) + (1 + 8 + 4) + (1 + 8 + 1 + 1) + (8 + 1) + 4 + (8 + 1) + (8 + 4);
const LATCHES_LENGTH: u16 = 6 * (1 + 4);
const CONTROLLER_LENGTH: u16 = 2 + 2 + 2;

/// The bytes of an image of the old form.
pub const OLD_IMAGE_SIZE: usize =
    7 * 3 + (4 * CHANNEL_LENGTH + CLOCK_LENGTH + LATCHES_LENGTH + CONTROLLER_LENGTH) as usize;

/// The bytes of an image of the new form.
pub const IMAGE_SIZE: usize = 3 + RATE_LENGTH as usize + OLD_IMAGE_SIZE;

/// The image of a board in a form, sound or not. The old form is the same at every rate.
pub fn image_of(form: Form, fields: &Fields) -> Vec<u8> {
    let mut image = Vec::with_capacity(form.size());
    if form == Form::New {
        put_field(&mut image, RATE, &fields.rate.to_be_bytes());
    }
    for channel in &fields.channels {
        put_field(&mut image, CHANNEL, &channel_members(channel));
    }
    put_field(&mut image, CLOCK, &clock_members(fields));
    let latches = fields.count_latches.iter();
    let latches = latches.chain([&fields.clock_low_latch, &fields.clock_high_latch]);
    let latches: Vec<u8> = latches.flat_map(latch_members).collect();
    put_field(&mut image, LATCHES, &latches);
    let controller = [
        fields.controller_pending,
        fields.controller_enable,
        fields.controller_levels,
    ];
    put_field(&mut image, CONTROLLER, &controller.map(u16::to_be_bytes).concat());
    image
}

/// A field: tag 1, length 2, members.
fn put_field(image: &mut Vec<u8>, tag: u8, members: &[u8]) {
    image.push(tag);
    image.extend((members.len() as u16).to_be_bytes());
    image.extend(members);
}

fn channel_members(channel: &Channel) -> Vec<u8> {
    [
        &[channel.control][..],
        &channel.counter.to_be_bytes(),
        &channel.compare.to_be_bytes(),
        &channel.reload.to_be_bytes(),
        &channel.prescaler.to_be_bytes(),
        &channel.phase.to_be_bytes(),
        &[channel.pending.into(), channel.armed.into()],
    ]
    .concat()
}

/// Timer enable to host nanoseconds.
fn clock_members(fields: &Fields) -> Vec<u8> {
    [
        &[fields.timer_enable, fields.clock_control][..],
        &fields.seconds.to_be_bytes(),
        &fields.subsecond.to_be_bytes(),
        &[fields.offset_negative.into()],
        &fields.offset_seconds.to_be_bytes(),
        &fields.offset_nanoseconds.to_be_bytes(),
        &[fields.alarm_enable],
        &fields.alarm.to_be_bytes(),
        &[fields.alarm_pending.into(), fields.alarm_armed.into()],
        &fields.seconds_shadow.to_be_bytes(),
        &[fields.seconds_mask],
        &fields.poll.to_be_bytes(),
        &fields.alarm_shadow.to_be_bytes(),
        &[fields.alarm_mask],
        &fields.host_seconds.to_be_bytes(),
        &fields.host_nanoseconds.to_be_bytes(),
    ]
    .concat()
}

fn latch_members(latch: &Latch) -> Vec<u8> {
    [&[latch.held.into()][..], &latch.value.to_be_bytes()].concat()
}

/// The form of an image and its board; or 12, which comes first, or 1.
pub fn read_image(image: &[u8]) -> Result<(Form, Fields), Refusal> {
    let (form, fields) = formed(image).ok_or(Refusal::MalformedImage)?;
    if fields.sound() {
        Ok((form, fields))
    } else {
        Err(Refusal::UnsoundBoard)
    }
}

/// The form of an image and its fields, sound or not; none where it has neither form.
fn formed(image: &[u8]) -> Option<(Form, Fields)> {
    let new = new_form(Members(image)).map(|fields| (Form::New, fields));
    let old = old_form(Members(image)).map(|fields| (Form::Old, fields));
    new.or(old)
}

/// The new form: the rate, and then the fields of the old one.
fn new_form(mut image: Members) -> Option<Fields> {
    let mut field = image.field(RATE, RATE_LENGTH)?;
    let rate = field.four()?;
    field.end()?;
    let fields = old_form(image)?;
    Some(Fields { rate, ..fields })
}

/// The old form, whose board is at 48,000,000.
fn old_form(mut image: Members) -> Option<Fields> {
    let channels = [
        channel(&mut image)?,
        channel(&mut image)?,
        channel(&mut image)?,
        channel(&mut image)?,
    ];
    let mut clock = image.field(CLOCK, CLOCK_LENGTH)?;
    let mut fields = Fields {
        channels,
        timer_enable: clock.byte()?,
        clock_control: clock.byte()?,
        seconds: clock.eight()?,
        subsecond: clock.four()?,
        offset_negative: clock.flag()?,
        offset_seconds: clock.eight()?,
        offset_nanoseconds: clock.four()?,
        alarm_enable: clock.byte()?,
        alarm: clock.eight()?,
        alarm_pending: clock.flag()?,
        alarm_armed: clock.flag()?,
        seconds_shadow: clock.eight()?,
        seconds_mask: clock.byte()?,
        poll: clock.four()?,
        alarm_shadow: clock.eight()?,
        alarm_mask: clock.byte()?,
        host_seconds: clock.eight()?,
        host_nanoseconds: clock.four()?,
        ..Fields::fresh_at(DEFAULT_RATE)
    };
    clock.end()?;
    let mut latches = image.field(LATCHES, LATCHES_LENGTH)?;
    for latch in &mut fields.count_latches {
        *latch = latches.latch()?;
    }
    fields.clock_low_latch = latches.latch()?;
    fields.clock_high_latch = latches.latch()?;
    latches.end()?;
    let mut controller = image.field(CONTROLLER, CONTROLLER_LENGTH)?;
    fields.controller_pending = controller.two()?;
    fields.controller_enable = controller.two()?;
    fields.controller_levels = controller.two()?;
    controller.end()?;
    image.end()?;
    Some(fields)
}

fn channel(image: &mut Members) -> Option<Channel> {
    let mut field = image.field(CHANNEL, CHANNEL_LENGTH)?;
    let channel = Channel {
        control: field.byte()?,
        counter: field.eight()?,
        compare: field.eight()?,
        reload: field.eight()?,
        prescaler: field.four()?,
        phase: field.four()?,
        pending: field.flag()?,
        armed: field.flag()?,
    };
    field.end()?;
    Some(channel)
}

/// Bytes that are taken from the start, member by member; none where they are too few.
struct Members<'a>(&'a [u8]);

impl<'a> Members<'a> {
    fn take<const WIDTH: usize>(&mut self) -> Option<[u8; WIDTH]> {
        let (member, rest) = self.0.split_first_chunk()?;
        self.0 = rest;
        Some(*member)
    }

    fn byte(&mut self) -> Option<u8> {
        self.take().map(u8::from_be_bytes)
    }

    fn two(&mut self) -> Option<u16> {
        self.take().map(u16::from_be_bytes)
    }

    fn four(&mut self) -> Option<u32> {
        self.take().map(u32::from_be_bytes)
    }

    fn eight(&mut self) -> Option<u64> {
        self.take().map(u64::from_be_bytes)
    }

    /// A flag, which is 0 or 1.
    fn flag(&mut self) -> Option<bool> {
        match self.byte()? {
            0 => Some(false),
            1 => Some(true),
            _ => None,
        }
    }

    fn latch(&mut self) -> Option<Latch> {
        Some(Latch {
            held: self.flag()?,
            value: self.four()?,
        })
    }

    /// The members of the first field, which must have this tag and this length.
    fn field(&mut self, tag: u8, length: u16) -> Option<Members<'a>> {
        if self.byte()? != tag || self.two()? != length {
            return None;
        }
        let (members, rest) = self.0.split_at_checked(usize::from(length))?;
        self.0 = rest;
        Some(Members(members))
    }

    /// No bytes may be left.
    fn end(&self) -> Option<()> {
        self.0.is_empty().then_some(())
    }
}

/// Parks a fresh board without a given rate at the start of a buffer, in the new form.
pub fn park_fresh(buffer: &mut [u8]) -> Result<usize, Refusal> {
    park(Form::New, &Fields::fresh(), buffer)
}

/// Parks a fresh board at a rate at the start of a buffer, in the new form. A rate other than the three is refused with
/// 15, before all else.
pub fn park_fresh_at(rate: u32, buffer: &mut [u8]) -> Result<usize, Refusal> {
    if !RATES.contains(&rate) {
        return Err(Refusal::UnsupportedRate);
    }
    park(Form::New, &Fields::fresh_at(rate), buffer)
}

/// Parks a board in a form at the start of a buffer and gives the bytes written. Refused, it leaves the buffer: with 1;
/// else with 16, a rate other than 48,000,000 in the old form; else with 11, a short buffer.
pub fn park(form: Form, fields: &Fields, buffer: &mut [u8]) -> Result<usize, Refusal> {
    if !fields.sound() {
        return Err(Refusal::UnsoundBoard);
    }
    if form == Form::Old && fields.rate != DEFAULT_RATE {
        return Err(Refusal::RateNeedsNewForm);
    }
    let image = image_of(form, fields);
    let room = buffer.get_mut(..image.len()).ok_or(Refusal::BufferTooSmall)?;
    room.copy_from_slice(&image);
    Ok(image.len())
}

/// Moves an image to a form, at the start of a buffer, and gives the bytes written. Refused, it leaves the buffer: with
/// 12, also where the image has that form already; else as parking its board in that form is.
pub fn move_image(to: Form, image: &[u8], buffer: &mut [u8]) -> Result<usize, Refusal> {
    let (form, fields) = formed(image).ok_or(Refusal::MalformedImage)?;
    if form == to {
        return Err(Refusal::MalformedImage);
    }
    park(to, &fields, buffer)
}

/// Moves an image of the old form to the new one.
pub fn move_forward(image: &[u8], buffer: &mut [u8]) -> Result<usize, Refusal> {
    move_image(Form::New, image, buffer)
}

/// Moves an image of the new form to the old one.
pub fn move_back(image: &[u8], buffer: &mut [u8]) -> Result<usize, Refusal> {
    move_image(Form::Old, image, buffer)
}

/// The form of an image, or the refusal of reading it.
pub fn image_form(image: &[u8]) -> Result<Form, Refusal> {
    read_image(image).map(|(form, _)| form)
}

/// Runs a list over the board of an image and replaces the image by that of the board that the run leaves, in the same
/// form. A refused image changes nothing.
pub fn run_parked(image: &mut [u8], list: &[u8], answers: &mut [u8]) -> Outcome {
    let (form, fields) = match read_image(image) {
        Ok(read) => read,
        Err(refusal) => {
            return Outcome {
                refusal: Some(refusal),
                ..Outcome::default()
            }
        }
    };
    let mut board = AnyBoard::from_fields(&fields);
    let outcome = board.run(list, answers);
    image.copy_from_slice(&image_of(form, &board.fields()));
    outcome
}
