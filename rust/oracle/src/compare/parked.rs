//! Parked boards against the rules of `image`, in both forms and at each rate: lists over images, in one run, in two
//! and call by call; damaged images; moves from form to form; and buffers in which a fresh board is parked.

use calls::{list_of, Call, Outcome, Refusal, DEFAULT_RATE, RATES};

use super::{calls_of, calls_text, clock, hex, passes, shared, shortest, Count, OLD};
use crate::board::AnyBoard;
use crate::fields::Fields;
use crate::generate::{self, Random};
use crate::image::{self, image_form, image_of, Form, IMAGE_SIZE};
use crate::registers::{self, channel, of_channel, CHANNELS};

/// Writes an image of another image's board into a buffer, and gives the bytes written.
pub type Mover = fn(&[u8], &mut [u8]) -> Result<usize, Refusal>;

/// The operations on images of a board under comparison.
#[derive(Clone, Copy)]
pub struct Parking {
    /// Parks a fresh board without a given rate in a buffer and gives the bytes written.
    pub fresh: fn(&mut [u8]) -> Result<usize, Refusal>,
    /// The same at a rate.
    pub fresh_at: fn(u32, &mut [u8]) -> Result<usize, Refusal>,
    /// The form of an image, or the refusal of reading it.
    pub form: fn(&[u8]) -> Result<Form, Refusal>,
    /// Runs a list over the board of an image, into an answer buffer.
    pub run: fn(&mut [u8], &[u8], &mut [u8]) -> Outcome,
    /// Moves an image of the old form to the new one.
    pub forward: Mover,
    /// Moves an image of the new form to the old one.
    pub back: Mover,
}

impl Parking {
    /// The function that moves an image to a form.
    fn mover(&self, to: Form) -> Mover {
        match to {
            Form::Old => self.back,
            Form::New => self.forward,
        }
    }
}

/// The same by the rules, over the Rust.
pub const RULES: Parking = Parking {
    fresh: image::park_fresh,
    fresh_at: image::park_fresh_at,
    form: image::image_form,
    run: image::run_parked,
    forward: image::move_forward,
    back: image::move_back,
};

/// The forms and rates of images: the new form at each rate, and the old one, which is at 48,000,000.
pub fn forms() -> impl Iterator<Item = (Form, u32)> {
    RATES
        .map(|rate| (Form::New, rate))
        .into_iter()
        .chain([(Form::Old, DEFAULT_RATE)])
}

/// Room for the answer of any call, and more: an advance's has 68 bytes.
const CALL_BUFFER: usize = 128;

/// Room for the answers of the list that is run over images, which have 125 bytes, and more.
const LIST_BUFFER: usize = 192;

/// What a run gives: the outcome, the whole answer buffer, and the image after it.
#[derive(PartialEq)]
struct Shown {
    outcome: Outcome,
    answers: Vec<u8>,
    image: Vec<u8>,
}

impl Shown {
    /// Runs lists one after another, up to a refusal, over the board of an image, each into the remaining buffer. Their
    /// counts are added up.
    fn of(parking: &Parking, image: &[u8], lists: &[&[u8]], buffer: usize) -> Self {
        let mut shown = Self {
            outcome: Outcome::default(),
            answers: OLD[..buffer].to_vec(),
            image: image.to_vec(),
        };
        let total = &mut shown.outcome;
        for list in lists {
            let one = (parking.run)(&mut shown.image, list, &mut shown.answers[total.answer_bytes..]);
            *total = total.then(one);
            if one.refusal.is_some() {
                break;
            }
        }
        shown
    }

    /// Runs a list over a board of the Rust, which is not parked, and gives its image in a form.
    fn of_rust(board: &mut AnyBoard, form: Form, list: &[u8], buffer: usize) -> Self {
        let mut answers = OLD[..buffer].to_vec();
        let outcome = board.run(list, &mut answers);
        Self {
            outcome,
            answers,
            image: image_of(form, &board.fields()),
        }
    }

    /// One comparison, or what differs.
    fn compare(&self, other: &Self, way: &str) -> Result<Count, String> {
        if self == other {
            return Ok(Count {
                comparisons: 1,
                calls: other.outcome.calls as u64,
            });
        }
        let place = |a: &[u8], b: &[u8]| match a.iter().zip(b).position(|(a, b)| a != b) {
            Some(place) => format!("differ first at byte {place}: {:02x} and {:02x}", a[place], b[place]),
            None => "are equal".to_string(),
        };
        Err(format!(
            "{way}:\nrules: {:?}\nproved: {:?}\nthe answers {}\nthe images {}",
            self.outcome,
            other.outcome,
            place(&self.answers, &other.answers),
            place(&self.image, &other.image)
        ))
    }
}

/// The list of a seed over a fresh board at a rate, parked in a form; a random list over a random sound board; and
/// moves of that board's images.
pub fn seed(parking: &Parking, form: Form, rate: u32, seed: u64) -> Result<Count, String> {
    let generated = generate::list_at(rate, seed);
    let fresh = Fields::fresh_at(rate);
    let mut count = list_from(parking, form, &fresh, &generated.list, generated.buffer)?;
    let mut random = Random::at(rate, seed);
    let fields = random.sound_fields();
    let calls: Vec<Call> = (0..random.below(12)).map(|_| random.call()).collect();
    let room: usize = calls.iter().map(Call::answer_bytes).sum();
    let short = random.below(room as u64 + 1) as usize;
    let buffer = random.pick(&[room, room + CALL_BUFFER, short]);
    count.add(list_from(parking, form, &fields, &list_of(&calls), buffer)?);
    let image = image_of(form, &fields);
    for to in Form::ALL {
        let over = random.below(9) as usize;
        count.add(move_case(parking, to, &image, to.size() + over)?);
    }
    count.add(there_and_back(parking, form, &fields)?);
    Ok(count)
}

/// A list over a board that is parked in a form; where the rules say otherwise, the shortest list that shows it.
pub fn list_from(parking: &Parking, form: Form, start: &Fields, list: &[u8], buffer: usize) -> Result<Count, String> {
    let compared = |list: &[u8]| in_every_way(parking, form, start, list, buffer);
    compared(list).map_err(|_| {
        let list = shortest(list, |list| compared(list).is_err());
        let reason = compared(&list).expect_err("the shortest list shows a difference");
        format!(
            "over the image {}, with an answer buffer of {buffer} bytes, after\n{}{reason}",
            hex(&image_of(form, start)),
            calls_text(&list)
        )
    })
}

/// A list over a parked board: in one run; in two, with the board parked between them, at each place between the calls
/// that are done; and call by call. It is compared with the Rust's board, which goes on without being parked.
fn in_every_way(parking: &Parking, form: Form, start: &Fields, list: &[u8], buffer: usize) -> Result<Count, String> {
    let image = image_of(form, start);
    let rust = Shown::of_rust(&mut AnyBoard::from_fields(start), form, list, buffer);
    let mut count = rust.compare(&Shown::of(parking, &image, &[list], buffer), "in one run")?;

    let room = buffer.min(rust.outcome.answer_bytes + CALL_BUFFER);
    let rust = Shown::of_rust(&mut AnyBoard::from_fields(start), form, list, room);
    let parts = calls_of(list);
    let mut cut = 0;
    for done in 0..=rust.outcome.calls {
        let (first, second) = list.split_at(cut);
        let other = Shown::of(parking, &image, &[first, second], room);
        count.add(rust.compare(&other, &format!("parked after {done} calls"))?);
        cut += parts.get(done).map_or(0, Vec::len);
    }

    let mut board = AnyBoard::from_fields(start);
    let (mut parked, mut room) = (image, room);
    for (done, call) in parts.iter().enumerate() {
        let rust = Shown::of_rust(&mut board, form, call, room.min(CALL_BUFFER));
        let other = Shown::of(parking, &parked, &[call], room.min(CALL_BUFFER));
        count.add(rust.compare(&other, &format!("call by call, call {done}"))?);
        if other.outcome.refusal.is_some() {
            break;
        }
        room -= other.outcome.answer_bytes;
        parked = other.image;
    }
    Ok(count)
}

/// Images in a form of boards at a rate, damaged: each byte replaced by every other value; cut at every place; with an
/// extra byte; with fields left out, doubled and in another order; with the field of a rate at every place; and with
/// other rates. They are shared out over the machine's processors.
pub fn damaged(parking: &Parking, form: Form, rate: u32) -> Result<Count, String> {
    let list = short_list();
    let boards: Vec<(String, Vec<u8>)> = images(rate)
        .into_iter()
        .map(|(name, fields)| (name, image_of(form, &fields)))
        .collect();
    // Faults that are found quickly come first.
    let others = boards.iter().map(|board| (board, None));
    let replaced = boards
        .iter()
        .flat_map(|board| (0..form.size()).map(move |place| (board, Some(place))));
    shared(others.chain(replaced), |((name, image), place)| {
        let mut count = Count::default();
        let images = match place {
            None => other_images(image),
            Some(place) => replaced_at(image, place),
        };
        for (damage, image) in images {
            let compared = image_case(parking, &image, &list);
            count.add(compared.map_err(|reason| format!("the image of {name}, {damage}: {reason}"))?);
        }
        Ok(count)
    })
}

/// An image with the byte at a place replaced by every other byte.
fn replaced_at(image: &[u8], place: usize) -> Vec<(String, Vec<u8>)> {
    let bytes = (0..=255).filter(|byte| *byte != image[place]);
    bytes
        .map(|byte| {
            let mut replaced = image.to_vec();
            replaced[place] = byte;
            (format!("byte {place} replaced by {byte:02x}"), replaced)
        })
        .collect()
}

/// An image unchanged, and damaged in every other manner.
fn other_images(image: &[u8]) -> Vec<(String, Vec<u8>)> {
    let mut images = vec![("as it is".to_string(), image.to_vec())];
    let mut add = |damage: String, image: Vec<u8>| images.push((damage, image));
    for length in 0..image.len() {
        add(format!("cut after {length} bytes"), image[..length].to_vec());
    }
    for byte in 0..=255 {
        add(format!("byte {byte:02x} over"), [image, &[byte]].concat());
    }
    let fields = fields_of(image);
    for one in 0..fields.len() {
        let mut without = fields.clone();
        let field = without.remove(one);
        add(format!("without field {one}"), without.concat());
        let mut doubled = fields.clone();
        doubled.insert(one, field);
        add(format!("field {one} doubled"), doubled.concat());
        for other in 0..one {
            let mut swapped = fields.clone();
            swapped.swap(one, other);
            add(format!("fields {other} and {one} swapped"), swapped.concat());
        }
        // A member byte more or less, with the length to match.
        let longer = [&[field[0], 0, field[2] + 1][..], &field[3..], &[0]].concat();
        let shorter = [&[field[0], 0, field[2] - 1][..], &field[3..field.len() - 1]].concat();
        for (name, changed) in [("longer", longer), ("shorter", shorter)] {
            let mut other = fields.clone();
            other[one] = &changed;
            add(format!("field {one} a byte {name}"), other.concat());
        }
    }
    // A rate before each field and after the last: before the first, it makes a new form of an old one. And the rate
    // that an image has already, after each other field.
    let others: Vec<&[u8]> = fields.iter().copied().filter(|field| field[0] != RATE_TAG).collect();
    for rate in RATES {
        let field = rate_field(rate);
        for place in 0..=fields.len() {
            let mut with_rate = fields.clone();
            with_rate.insert(place, &field);
            add(format!("the rate {rate} before field {place}"), with_rate.concat());
        }
    }
    if fields[0][0] == RATE_TAG {
        for place in 1..=others.len() {
            let mut moved = others.clone();
            moved.insert(place, fields[0]);
            add(format!("the rate behind {place} fields"), moved.concat());
        }
    }
    for rate in rates_in_images() {
        let field = rate_field(rate);
        add(format!("with the rate {rate}"), [&field[..], &others.concat()].concat());
    }
    images
}

/// The tag of the field of a rate.
const RATE_TAG: u8 = 0x24;

/// The field of a rate, one of the three or not.
fn rate_field(rate: u32) -> Vec<u8> {
    [&[RATE_TAG, 0, 4][..], &rate.to_be_bytes()].concat()
}

/// The rates that are put into images: the three, at which not every board is sound, and others, which are refused with
/// 1.
pub fn rates_in_images() -> impl Iterator<Item = u32> {
    clock::other_rates().into_iter().chain(RATES)
}

/// The fields of an image that is not damaged.
fn fields_of(mut image: &[u8]) -> Vec<&[u8]> {
    let mut fields = Vec::new();
    while let [_, high, low, ..] = *image {
        let (field, rest) = image.split_at(3 + usize::from(u16::from_be_bytes([high, low])));
        fields.push(field);
        image = rest;
    }
    fields
}

/// The boards at a rate whose images are damaged and moved, by name: what prepared and generated lists leave, with
/// latches held, an alarm armed and pending bits; and two that are not sound, to show that 12 comes before 1.
pub fn images(rate: u32) -> Vec<(String, Fields)> {
    let after = |list: &[u8], buffer: usize| {
        let mut board = AnyBoard::from_fields(&Fields::fresh_at(rate));
        // A generated list may end in a call that is refused, which changes nothing.
        let _ = board.run(list, &mut vec![0; buffer]);
        board.fields()
    };
    let prepared = passes::prepared(rate);
    let prepared = prepared.iter().enumerate();
    let mut images: Vec<(String, Fields)> = prepared
        .map(|(number, list)| (format!("prepared board {number}"), after(list, passes::BUFFER)))
        .collect();
    let wanted: [fn(&Fields) -> bool; 3] = [
        |fields| fields.clock_low_latch.held && fields.count_latches.iter().any(|latch| latch.held),
        |fields| fields.alarm_armed && fields.offset_negative && fields.poll > 0,
        |fields| fields.alarm_pending && fields.channels[3].pending && fields.channels[3].armed,
    ];
    for wanted in wanted {
        let boards = (1..).map(|seed| {
            let generated = generate::list_at(rate, seed);
            (
                format!("the board of seed {seed}"),
                after(&generated.list, generated.buffer),
            )
        });
        let mut boards = boards.filter(|(_, fields)| wanted(fields));
        images.push(boards.next().expect("some seed leaves such a board"));
    }
    let mut enabled = images[1].1;
    enabled.timer_enable = 16;
    images.push(("an unsound board".to_string(), enabled));
    let mut latched = images[3].1;
    latched.clock_high_latch.value = 1;
    images.push(("a board with a value in an empty latch".to_string(), latched));
    images
}

/// A short list that shows much of a board: the deadline; a byte of each latch or, where it is empty, of its live
/// register; an advance; and the output.
fn short_list() -> Vec<u8> {
    let mut words: Vec<u16> = (0..CHANNELS)
        .map(|number| of_channel(number, channel::COUNT_HIGH))
        .collect();
    words.extend([registers::SECONDS_LOW, registers::SECONDS_HIGH]);
    let mut calls = vec![Call::Deadline];
    calls.extend(words.into_iter().map(|word| Call::Read { address: word + 2 }));
    calls.extend([Call::Advance { cycles: 7 }, Call::Output]);
    list_of(&calls)
}

/// An image, damaged or not: its form or its refusal; that an empty list leaves it unchanged, accepted or refused; a
/// list over it, which does not start where the image is refused; and its moves to both forms, into a buffer longer
/// than they need.
fn image_case(parking: &Parking, image: &[u8], list: &[u8]) -> Result<Count, String> {
    let expected = image_form(image);
    let form = (parking.form)(image);
    if form != expected {
        return Err(format!("the rules give {expected:?}, the proved board {form:?}"));
    }
    let mut count = Count {
        comparisons: 1,
        calls: 0,
    };
    let unchanged = Shown {
        outcome: Outcome {
            refusal: expected.err(),
            ..Outcome::default()
        },
        answers: OLD[..LIST_BUFFER].to_vec(),
        image: image.to_vec(),
    };
    let empty = Shown::of(parking, image, &[&[]], LIST_BUFFER);
    count.add(unchanged.compare(&empty, "an empty list")?);
    let [rules, other] = [&RULES, parking].map(|parking| Shown::of(parking, image, &[list], LIST_BUFFER));
    count.add(rules.compare(&other, "a short list")?);
    for to in Form::ALL {
        count.add(move_case(parking, to, image, IMAGE_SIZE + 2)?);
    }
    Ok(count)
}

/// An image, damaged or not, moved to a form, into a buffer of some length: the bytes written or the refusal, and the
/// whole buffer.
fn move_case(parking: &Parking, to: Form, image: &[u8], length: usize) -> Result<Count, String> {
    same(parking, length, |parking, buffer| (parking.mover(to))(image, buffer)).map_err(|reason| {
        format!(
            "the image {} moved to the form {to:?}, into {length} bytes: {reason}",
            hex(image)
        )
    })
}

/// A sound board's image, moved to the other form and back, is the same bytes. A board without an image in the old form
/// is left out.
fn there_and_back(parking: &Parking, form: Form, fields: &Fields) -> Result<Count, String> {
    if fields.rate != DEFAULT_RATE {
        return Ok(Count::default());
    }
    let other = match form {
        Form::Old => Form::New,
        Form::New => Form::Old,
    };
    let image = image_of(form, fields);
    let (mut there, mut back) = (vec![0; other.size()], vec![0; form.size()]);
    let moved = [
        (parking.mover(other))(&image, &mut there),
        (parking.mover(form))(&there, &mut back),
    ];
    if moved != [Ok(other.size()), Ok(form.size())] || back != image {
        return Err(format!(
            "the image {} moved there and back: {moved:?}, {}",
            hex(&image),
            hex(&back)
        ));
    }
    Ok(Count {
        comparisons: 1,
        calls: 0,
    })
}

/// Compares one writing into a buffer: the bytes written or the refusal, and the whole buffer.
fn same(
    parking: &Parking,
    length: usize,
    write: impl Fn(&Parking, &mut [u8]) -> Result<usize, Refusal>,
) -> Result<Count, String> {
    let [rules, other] = [&RULES, parking].map(|parking| {
        let mut buffer = OLD[..length].to_vec();
        (write(parking, &mut buffer), buffer)
    });
    if rules != other {
        return Err(format!(
            "the rules give {:?} and\n{}\nthe proved board {:?} and\n{}",
            rules.0,
            hex(&rules.1),
            other.0,
            hex(&other.1)
        ));
    }
    Ok(Count {
        comparisons: 1,
        calls: 0,
    })
}

/// The images of boards at a rate, sound and not, in both forms, moved to both, into buffers of every length up to two
/// bytes more than the longer form; and there and back. One further board is at a rate that no board has.
pub fn moves(parking: &Parking, rate: u32) -> Result<Count, String> {
    let mut count = Count::default();
    let mut boards: Vec<Fields> = images(rate).into_iter().map(|(_, fields)| fields).collect();
    boards.push(Fields {
        rate: rate + 1,
        ..boards[3]
    });
    for fields in boards {
        for form in Form::ALL {
            let image = image_of(form, &fields);
            for to in Form::ALL {
                for length in 0..=IMAGE_SIZE + 2 {
                    count.add(move_case(parking, to, &image, length)?);
                }
            }
            if fields.sound() {
                count.add(there_and_back(parking, form, &fields)?);
            }
        }
    }
    Ok(count)
}

/// Fresh boards without a given rate, at each rate and at rates that no board has, parked in buffers of every length up
/// to two bytes more than the image.
pub fn fresh(parking: &Parking) -> Result<Count, String> {
    let mut count = Count::default();
    for length in 0..=IMAGE_SIZE + 2 {
        let compared = same(parking, length, |parking, buffer| (parking.fresh)(buffer));
        let text = |reason| format!("a fresh board in a buffer of {length} bytes: {reason}");
        count.add(compared.map_err(text)?);
        for rate in rates_in_images() {
            let compared = same(parking, length, |parking, buffer| (parking.fresh_at)(rate, buffer));
            let text = |reason| format!("a fresh board of the rate {rate} in a buffer of {length} bytes: {reason}");
            count.add(compared.map_err(text)?);
        }
    }
    Ok(count)
}
