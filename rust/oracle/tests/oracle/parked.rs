//! The comparison of parked boards finds planted faults, and the images that it damages have every kind of member.

use calls::{list_of, Call, Outcome, Refusal};
use oracle::compare::parked::{
    damaged, forms, fresh, images, list_from, moves, rates_in_images, seed, Parking, RULES,
};
use oracle::fields::Fields;
use oracle::image::{
    image_form, image_of, move_back, move_forward, park, park_fresh, park_fresh_at, read_image, run_parked, Form,
    IMAGE_SIZE, OLD_IMAGE_SIZE,
};
use oracle::registers;
use oracle::writes::{byte, two_words};

use crate::support::{Board, F, RATES};

/// Where members stand in an image of the old form: timer enable, the offset's sign, poll, and the clock's two latches.
/// In the new form 7 bytes come before them, the last four of which are the rate.
const TIMER_ENABLE: usize = 155;
const OFFSET_SIGN: usize = 169;
const POLL: usize = 202;
const CLOCK_LOW_LATCH: usize = 250;
const CLOCK_HIGH_LATCH: usize = 255;
const RATE: std::ops::Range<usize> = 3..7;

/// Where the old form's fields begin in an image of some length; none where it has the length of neither form.
fn front(image: &[u8]) -> Option<usize> {
    match image.len() {
        OLD_IMAGE_SIZE => Some(0),
        IMAGE_SIZE => Some(IMAGE_SIZE - OLD_IMAGE_SIZE),
        _ => None,
    }
}

/// The first seeds' comparisons in both forms and at every rate, or the first difference.
fn seeds(parking: &Parking) -> Result<(), String> {
    forms().try_for_each(|(form, rate)| (1..=10).try_for_each(|number| seed(parking, form, rate, number).map(|_| ())))
}

/// The damaged images in both forms and at every rate, or the first difference.
fn all_damaged(parking: &Parking) -> Result<(), String> {
    forms().try_for_each(|(form, rate)| damaged(parking, form, rate).map(|_| ()))
}

/// The moves at every rate, or the first difference.
fn all_moves(parking: &Parking) -> Result<(), String> {
    RATES.into_iter().try_for_each(|rate| moves(parking, rate).map(|_| ()))
}

/// The rules, except that the two clock latches are swapped.
fn latches_swapped(image: &mut [u8], list: &[u8], answers: &mut [u8]) -> Outcome {
    let swap = |image: &mut [u8]| {
        if let Some(front) = front(image) {
            let [low, high] = [CLOCK_LOW_LATCH, CLOCK_HIGH_LATCH].map(|place| front + place);
            (0..5).for_each(|place| image.swap(low + place, high + place));
        }
    };
    swap(image);
    let outcome = run_parked(image, list, answers);
    swap(image);
    outcome
}

/// The rules, except that the board is not written back.
fn not_written(image: &mut [u8], list: &[u8], answers: &mut [u8]) -> Outcome {
    run_parked(&mut image.to_vec(), list, answers)
}

/// The rules, except that the poll is lost when an image is read. A fresh board has none to lose.
fn poll_lost(image: &mut [u8], list: &[u8], answers: &mut [u8]) -> Outcome {
    if let (Ok(_), Some(front)) = (image_form(image), front(image)) {
        image[front + POLL..][..4].fill(0);
    }
    run_parked(image, list, answers)
}

/// The rules, except that a fresh board replaces an image that is refused.
fn refused_replaced(image: &mut [u8], list: &[u8], answers: &mut [u8]) -> Outcome {
    let outcome = run_parked(image, list, answers);
    if image_form(image).is_err() && image.len() == IMAGE_SIZE {
        park_fresh(image).expect("there is room");
    }
    outcome
}

/// The rules, except that a short list is not run.
fn short_lists_left_out(image: &mut [u8], list: &[u8], answers: &mut [u8]) -> Outcome {
    if list.len() == 3 {
        return Outcome {
            list_bytes: 3,
            ..Outcome::default()
        };
    }
    run_parked(image, list, answers)
}

/// A run over the board of an image, read and written back by two functions, which are given the form and the fields;
/// the second also gets the bytes.
fn run_by(
    image: &mut [u8],
    (list, answers): (&[u8], &mut [u8]),
    read: impl Fn(Form, Fields) -> Result<Fields, Refusal>,
    write: impl Fn(Form, Fields, &mut [u8]),
) -> Outcome {
    let Ok((form, fields)) = read_image(image) else {
        return run_parked(image, list, answers);
    };
    match read(form, fields) {
        Ok(fields) => {
            let mut board = Board::from_fields(&fields);
            let outcome = board.run(list, answers);
            write(form, board.fields(), image);
            outcome
        }
        Err(refusal) => Outcome {
            refusal: Some(refusal),
            ..Outcome::default()
        },
    }
}

/// Writes the image of a board in a form over the start of some bytes, as far as they go.
fn put(form: Form, fields: Fields, bytes: &mut [u8]) {
    let image = image_of(form, &fields);
    let length = image.len().min(bytes.len());
    bytes[..length].copy_from_slice(&image[..length]);
}

/// A board at 48,000,000, or a refusal for one at another rate.
fn if_default(fields: Fields, refusal: Refusal) -> Result<Fields, Refusal> {
    if fields.rate == F {
        Ok(fields)
    } else {
        Err(refusal)
    }
}

/// A run over an image, in place of the rules.
type Run = fn(&mut [u8], &[u8], &mut [u8]) -> Outcome;

const RUN_FAULTS: [(&str, Run); 8] = [
    ("the old form written back for a new one", |image, list, answers| {
        run_by(
            image,
            (list, answers),
            |_, fields| Ok(fields),
            |_, fields, image| put(Form::Old, fields, image),
        )
    }),
    ("the new form written back for an old one", |image, list, answers| {
        run_by(
            image,
            (list, answers),
            |_, fields| Ok(fields),
            |_, fields, image| put(Form::New, fields, image),
        )
    }),
    ("48,000,000 whatever the rate", |image, list, answers| {
        run_by(
            image,
            (list, answers),
            |_, fields| Ok(Fields { rate: F, ..fields }),
            put,
        )
    }),
    (
        "48,000,000 whatever the rate, which is written back",
        |image, list, answers| {
            let rate = read_image(image).map_or(F, |(_, fields)| fields.rate);
            run_by(
                image,
                (list, answers),
                |_, fields| Ok(Fields { rate: F, ..fields }),
                |form, fields, image| put(form, Fields { rate, ..fields }, image),
            )
        },
    ),
    ("48,000,000 written back whatever the rate", |image, list, answers| {
        run_by(
            image,
            (list, answers),
            |_, fields| Ok(fields),
            |form, fields, image| put(form, Fields { rate: F, ..fields }, image),
        )
    }),
    ("1,000,000 of an old image", |image, list, answers| {
        run_by(
            image,
            (list, answers),
            |form, fields| {
                let slow = Fields {
                    rate: RATES[0],
                    ..fields
                };
                Ok(if form == Form::Old && slow.sound() {
                    slow
                } else {
                    fields
                })
            },
            put,
        )
    }),
    ("15 in parking", |image, list, answers| {
        run_by(
            image,
            (list, answers),
            |_, fields| if_default(fields, Refusal::UnsupportedRate),
            put,
        )
    }),
    ("16 in a run", |image, list, answers| {
        run_by(
            image,
            (list, answers),
            |_, fields| if_default(fields, Refusal::RateNeedsNewForm),
            put,
        )
    }),
];

/// The rules, except that 1 comes before 12.
fn unsound_first(image: &[u8]) -> Result<Form, Refusal> {
    match front(image) {
        Some(front) if image[front + TIMER_ENABLE] > 15 => Err(Refusal::UnsoundBoard),
        _ => image_form(image),
    }
}

/// The rules, except that a flag may be any number.
fn flag_of_2(image: &[u8]) -> Result<Form, Refusal> {
    let mut image = image.to_vec();
    if let Some(front) = front(&image) {
        let sign = &mut image[front + OFFSET_SIGN];
        *sign = (*sign).min(1);
    }
    image_form(&image)
}

/// The rules, except that an extra byte at the end is ignored.
fn byte_over(image: &[u8]) -> Result<Form, Refusal> {
    let size = match image.first() {
        Some(0x24) => IMAGE_SIZE,
        _ => OLD_IMAGE_SIZE,
    };
    image_form(image.get(..size).unwrap_or(image))
}

/// The form of an image, or its refusal, in place of the rules.
type Asked = fn(&[u8]) -> Result<Form, Refusal>;

/// The rules for an image of the new form, with its rate replaced where a condition holds of it.
fn with_rate(image: &[u8], rate: u32, holds: impl Fn(u32) -> bool) -> Result<Form, Refusal> {
    let mut image = image.to_vec();
    if image.len() == IMAGE_SIZE && holds(u32::from_be_bytes(image[RATE].try_into().expect("four bytes"))) {
        image[RATE].copy_from_slice(&rate.to_be_bytes());
    }
    image_form(&image)
}

const FORM_FAULTS: [(&str, Asked); 12] = [
    ("1 before 12", unsound_first),
    ("a flag of any number", flag_of_2),
    ("a byte over", byte_over),
    ("the old form not read", |image| match image_form(image)? {
        Form::Old => Err(Refusal::MalformedImage),
        form => Ok(form),
    }),
    ("the new form not read", |image| match image_form(image)? {
        Form::New => Err(Refusal::MalformedImage),
        form => Ok(form),
    }),
    ("the forms told the wrong way round", |image| {
        Ok(match image_form(image)? {
            Form::Old => Form::New,
            Form::New => Form::Old,
        })
    }),
    ("every rate accepted", |image| {
        with_rate(image, F, |rate| !RATES.contains(&rate))
    }),
    ("24,000,000 accepted", |image| {
        with_rate(image, F, |rate| rate == 24_000_000)
    }),
    ("a rate more accepted", |image| {
        with_rate(image, F, |rate| rate == F + 1)
    }),
    ("12,000,000 not read", |image| {
        with_rate(image, 0, |rate| rate == RATES[1])
    }),
    ("12 for a rate that no board has", |image| match image_form(image) {
        Err(Refusal::UnsoundBoard) if with_rate(image, F, |rate| !RATES.contains(&rate)).is_ok() => {
            Err(Refusal::MalformedImage)
        }
        other => other,
    }),
    ("48,000,000's limits at every rate", |image| {
        with_rate(image, F, |rate| RATES.contains(&rate))
    }),
];

/// The rules, except that a byte is written past the image.
fn past_the_image(buffer: &mut [u8]) -> Result<usize, Refusal> {
    let parked = park_fresh(buffer);
    if let (Ok(written), true) = (parked, buffer.len() > IMAGE_SIZE) {
        buffer[written] ^= 1;
    }
    parked
}

/// The rules, except that a short buffer is filled as far as it goes.
fn short_buffer_filled(buffer: &mut [u8]) -> Result<usize, Refusal> {
    let parked = park_fresh(buffer);
    if parked.is_err() {
        buffer.fill(0);
    }
    parked
}

/// The rules, except that the old form is written by default.
fn old_by_default(buffer: &mut [u8]) -> Result<usize, Refusal> {
    park(Form::Old, &Fields::fresh(), buffer)
}

/// The same, into a buffer that would have room for the new form.
fn old_where_the_new_has_room(buffer: &mut [u8]) -> Result<usize, Refusal> {
    park_fresh(&mut buffer.to_vec())?;
    old_by_default(buffer)
}

/// The parking of a fresh board at a rate, in place of the rules.
type FreshAt = fn(u32, &mut [u8]) -> Result<usize, Refusal>;

const FRESH_AT_FAULTS: [(&str, FreshAt); 8] = [
    ("the rate ignored", |rate, buffer| {
        park_fresh_at(rate, &mut buffer.to_vec())?;
        park_fresh(buffer)
    }),
    ("every rate accepted", |rate, buffer| {
        park_fresh_at(if RATES.contains(&rate) { rate } else { F }, buffer)
    }),
    ("15 in parking", |rate, buffer| {
        match park_fresh_at(rate, &mut buffer.to_vec()) {
            Ok(_) if rate != F => Err(Refusal::UnsupportedRate),
            _ => park_fresh_at(rate, buffer),
        }
    }),
    ("11 before 15", |rate, buffer| {
        park_fresh(&mut buffer.to_vec())?;
        park_fresh_at(rate, buffer)
    }),
    ("1 in the place of 15", |rate, buffer| {
        park(Form::New, &Fields::fresh_at(rate), buffer)
    }),
    ("a fresh board handed back with 15", |rate, buffer| {
        let parked = park_fresh_at(rate, buffer);
        if parked == Err(Refusal::UnsupportedRate) {
            let _ = park_fresh(buffer);
        }
        parked
    }),
    ("the old form at 48,000,000", |rate, buffer| match rate {
        F => old_by_default(buffer),
        _ => park_fresh_at(rate, buffer),
    }),
    ("16 at another rate", |rate, buffer| match rate {
        F => park_fresh_at(rate, buffer),
        _ => park_fresh_at(rate, buffer).map_err(|refusal| match refusal {
            Refusal::BufferTooSmall => Refusal::RateNeedsNewForm,
            other => other,
        }),
    }),
];

/// A move, in place of the rules.
type Move = fn(&[u8], &mut [u8]) -> Result<usize, Refusal>;

/// The form of an image, sound or not; none where it has neither.
fn formed(image: &[u8]) -> Option<Form> {
    match image_form(image) {
        Ok(form) => Some(form),
        Err(Refusal::UnsoundBoard) if image.len() == OLD_IMAGE_SIZE => Some(Form::Old),
        Err(Refusal::UnsoundBoard) => Some(Form::New),
        Err(_) => None,
    }
}

/// Copies an image to the start of a buffer, or gives 11.
fn copied(image: &[u8], moved: &mut [u8]) -> Result<usize, Refusal> {
    let room = moved.get_mut(..image.len()).ok_or(Refusal::BufferTooSmall)?;
    room.copy_from_slice(image);
    Ok(image.len())
}

const FORWARD_FAULTS: [(&str, Move); 9] = [
    ("an image of the new form accepted", |image, moved| {
        match image_form(image) {
            Ok(Form::New) => copied(image, moved),
            _ => move_forward(image, moved),
        }
    }),
    ("1 before 12 of an image of the new form", |image, moved| {
        match (formed(image), image_form(image)) {
            (Some(Form::New), Err(refusal)) => Err(refusal),
            _ => move_forward(image, moved),
        }
    }),
    ("another rate than 48,000,000", |image, moved| {
        let written = move_forward(image, moved)?;
        moved[RATE].copy_from_slice(&RATES[1].to_be_bytes());
        Ok(written)
    }),
    ("a byte past the image", |image, moved| {
        let written = move_forward(image, moved)?;
        if let Some(byte) = moved.get_mut(written) {
            *byte ^= 1;
        }
        Ok(written)
    }),
    ("a refused image written", |image, moved| {
        let written = move_forward(image, moved);
        if written == Err(Refusal::UnsoundBoard) {
            let _ = copied(&image_of(Form::New, &Fields::fresh()), moved);
        }
        written
    }),
    ("a short buffer filled", |image, moved| {
        let written = move_forward(image, moved);
        if written == Err(Refusal::BufferTooSmall) {
            moved.fill(0);
        }
        written
    }),
    ("11 before 1", |image, moved| {
        if formed(image) == Some(Form::Old) && moved.len() < IMAGE_SIZE {
            return Err(Refusal::BufferTooSmall);
        }
        move_forward(image, moved)
    }),
    ("11 before 12", |image, moved| {
        if moved.len() < IMAGE_SIZE {
            return Err(Refusal::BufferTooSmall);
        }
        move_forward(image, moved)
    }),
    ("11 with just enough room", |image, moved| {
        move_forward(image, &mut moved.to_vec())?;
        if moved.len() == IMAGE_SIZE {
            return Err(Refusal::BufferTooSmall);
        }
        move_forward(image, moved)
    }),
];

/// Whether an image has the new form, sound or not, and a rate other than 48,000,000.
fn other_rate(image: &[u8]) -> bool {
    formed(image) == Some(Form::New) && image[RATE] != F.to_be_bytes()
}

const BACK_FAULTS: [(&str, Move); 12] = [
    ("an image of the old form accepted", |image, moved| {
        match image_form(image) {
            Ok(Form::Old) => copied(image, moved),
            _ => move_back(image, moved),
        }
    }),
    ("1 before 12 of an image of the old form", |image, moved| {
        match (formed(image), image_form(image)) {
            (Some(Form::Old), Err(refusal)) => Err(refusal),
            _ => move_back(image, moved),
        }
    }),
    ("16 before 1", |image, moved| match other_rate(image) {
        true => Err(Refusal::RateNeedsNewForm),
        false => move_back(image, moved),
    }),
    ("11 before 16", |image, moved| match move_back(image, moved) {
        Err(Refusal::RateNeedsNewForm) if moved.len() < OLD_IMAGE_SIZE => Err(Refusal::BufferTooSmall),
        other => other,
    }),
    ("15 in the place of 16", |image, moved| {
        move_back(image, moved).map_err(|refusal| match refusal {
            Refusal::RateNeedsNewForm => Refusal::UnsupportedRate,
            other => other,
        })
    }),
    ("another rate moved back", |image, moved| {
        match move_back(image, moved) {
            Err(Refusal::RateNeedsNewForm) => copied(&image[7..], moved),
            other => other,
        }
    }),
    ("12,000,000 moved back", |image, moved| match move_back(image, moved) {
        Err(Refusal::RateNeedsNewForm) if image[RATE] == RATES[1].to_be_bytes() => copied(&image[7..], moved),
        other => other,
    }),
    ("a byte past the image", |image, moved| {
        let written = move_back(image, moved)?;
        if let Some(byte) = moved.get_mut(written) {
            *byte ^= 1;
        }
        Ok(written)
    }),
    ("a refused image written", |image, moved| {
        let written = move_back(image, moved);
        if written == Err(Refusal::RateNeedsNewForm) {
            let _ = copied(&image[7..], moved);
        }
        written
    }),
    ("a short buffer filled", |image, moved| {
        let written = move_back(image, moved);
        if written == Err(Refusal::BufferTooSmall) {
            moved.fill(0);
        }
        written
    }),
    ("276 bytes said", |image, moved| {
        move_back(image, moved).map(|_| IMAGE_SIZE)
    }),
    ("11 without room for the new form", |image, moved| {
        move_back(image, &mut moved.to_vec())?;
        if moved.len() < IMAGE_SIZE {
            return Err(Refusal::BufferTooSmall);
        }
        move_back(image, moved)
    }),
];

#[test]
fn the_rules_agree_with_themselves() {
    seeds(&RULES).unwrap();
    // Each of ten images; 255 values for each of its bytes; cuts, extra bytes, and fields left out, doubled, longer,
    // shorter and swapped; the three rates before each field and after the last, and the image's rate after each other
    // field; and other rates. Five comparisons each.
    let rates = rates_in_images().count();
    for (form, rate) in forms() {
        let size = form.size();
        let (fields, moved) = if form == Form::Old { (7, 0) } else { (8, 7) };
        let pairs = fields * (fields - 1) / 2;
        let each = 1 + size * 255 + size + 256 + 4 * fields + pairs + 3 * (fields + 1) + moved + rates;
        let count = damaged(&RULES, form, rate).unwrap();
        assert_eq!(count.comparisons, (images(rate).len() * each * 5) as u64);
    }
    // Eleven boards in two forms, moved to two; and at 48,000,000 eight there and back.
    for rate in RATES {
        let back = if rate == F { 8 * 2 } else { 0 };
        assert_eq!(
            moves(&RULES, rate).unwrap().comparisons,
            (11 * 2 * 2 * (IMAGE_SIZE + 3) + back) as u64
        );
    }
    assert_eq!(
        fresh(&RULES).unwrap().comparisons,
        ((IMAGE_SIZE + 3) * (1 + rates)) as u64
    );
}

#[test]
fn a_run_that_is_not_the_rules_is_found_by_the_seeds() {
    for run in [latches_swapped, not_written, short_lists_left_out] {
        let found = seeds(&Parking { run, ..RULES }).unwrap_err();
        assert!(found.contains("rules:"), "{found}");
    }
    for (name, run) in RUN_FAULTS {
        let parking = Parking { run, ..RULES };
        let found = seeds(&parking).expect_err(name);
        assert!(found.contains("rules:"), "{name}: {found}");
        // Two are faults of the old form alone.
        let found = match name.contains("an old") {
            true => damaged(&parking, Form::Old, F).map(|_| ()),
            false => all_damaged(&parking),
        };
        found.expect_err(name);
    }
}

#[test]
fn a_difference_is_shown_by_the_shortest_list() {
    let calls = |text: &str| text.lines().filter(|line| line.starts_with("  ")).count();
    let run = short_lists_left_out;
    let found = seeds(&Parking { run, ..RULES }).unwrap_err();
    assert_eq!(calls(&found), 1, "{found}");
}

#[test]
fn what_is_lost_in_parking_is_found_by_parking_on_the_way() {
    // An alarm on host time, armed; the first advance adds to the poll.
    let mut calls = vec![byte(registers::CLOCK_CONTROL + 3, 5)];
    calls.extend(two_words(registers::ALARM_LOW, registers::ALARM_HIGH, 3));
    calls.extend([Call::Output, Call::Advance { cycles: 10 }, Call::Deadline]);
    let parking = Parking {
        run: poll_lost,
        ..RULES
    };
    for (form, rate) in forms() {
        let found = list_from(&parking, form, &Fields::fresh_at(rate), &list_of(&calls), 100).unwrap_err();
        // The shortest list ends with the advance, and parking after it loses the poll.
        assert!(found.contains("\nparked after 10 calls:"), "{found}");
        let place = form.size() - OLD_IMAGE_SIZE + POLL + 3;
        assert!(
            found.contains(&format!("differ first at byte {place}: 0a and 00")),
            "{found}"
        );
    }
}

#[test]
fn a_reading_that_is_not_the_rules_is_found_in_damaged_images() {
    for (name, form) in FORM_FAULTS {
        all_damaged(&Parking { form, ..RULES }).expect_err(name);
    }
    for run in [latches_swapped, refused_replaced] {
        assert!(all_damaged(&Parking { run, ..RULES }).is_err());
    }
}

#[test]
fn faults_of_a_fresh_board_that_is_parked_are_found() {
    for parked in [
        past_the_image,
        short_buffer_filled,
        old_by_default,
        old_where_the_new_has_room,
    ] {
        let found = fresh(&Parking { fresh: parked, ..RULES }).unwrap_err();
        assert!(found.starts_with("a fresh board in a buffer"), "{found}");
    }
    for (name, fresh_at) in FRESH_AT_FAULTS {
        let found = fresh(&Parking { fresh_at, ..RULES }).expect_err(name);
        assert!(found.starts_with("a fresh board of the rate"), "{name}: {found}");
    }
}

/// A fault that shows only on an image that has the new form's length, is malformed and has another rate.
const BACK_FAULT_OF_FORM: (&str, Move) = ("16 before 12", |image, moved| {
    if image.len() == IMAGE_SIZE && formed(image).is_none() && image[RATE] != F.to_be_bytes() {
        return Err(Refusal::RateNeedsNewForm);
    }
    move_back(image, moved)
});

#[test]
fn faults_of_moves_are_found() {
    let forward = FORWARD_FAULTS.map(|(name, forward)| (name, Parking { forward, ..RULES }, "form New"));
    let back = BACK_FAULTS.map(|(name, back)| (name, Parking { back, ..RULES }, "form Old"));
    for (name, parking, form) in forward.into_iter().chain(back) {
        let found = all_moves(&parking).expect_err(name);
        assert!(
            found.contains(form) || found.contains("there and back"),
            "{name}: {found}"
        );
    }
}

#[test]
fn faults_of_moves_that_room_does_not_show_are_found_in_damaged_images_and_by_the_seeds() {
    let shown = |name: &str| !name.starts_with("11") && name != "a short buffer filled";
    let forward = FORWARD_FAULTS.map(|(name, forward)| (name, Parking { forward, ..RULES }));
    let back = BACK_FAULTS.into_iter().chain([BACK_FAULT_OF_FORM]);
    let back = back.map(|(name, back)| (name, Parking { back, ..RULES }));
    for (name, parking) in forward.into_iter().chain(back).filter(|(name, _)| shown(name)) {
        all_damaged(&parking).expect_err(name);
        // The boards of the seeds are sound.
        if !name.contains("before") && name != "a refused image written" {
            seeds(&parking).expect_err(name);
        }
    }
}

#[test]
fn the_damaged_images_hold_every_sort_of_member() {
    for (form, rate) in forms() {
        let images = images(rate);
        let boards: Vec<_> = images.iter().map(|(_, fields)| fields).collect();
        assert_eq!(*boards[0], Fields::fresh_at(rate));
        assert!(boards.iter().all(|fields| fields.rate == rate));
        let sound = boards.iter().filter(|fields| fields.sound()).count();
        assert_eq!((boards.len(), sound), (10, 8));
        for number in 0..4 {
            assert!(boards.iter().any(|fields| fields.count_latches[number].held));
            assert!(boards.iter().any(|fields| fields.channels[number].pending));
        }
        assert!(boards
            .iter()
            .any(|fields| fields.clock_low_latch.held && fields.clock_high_latch.held));
        assert!(boards.iter().any(|fields| fields.alarm_armed));
        assert!(boards.iter().any(|fields| fields.alarm_pending));
        assert!(boards.iter().any(|fields| fields.offset_negative));
        assert!(boards.iter().any(|fields| fields.controller_pending & 8 != 0));
        // Of each sound board's images with a byte replaced, some are accepted, some refused with 1, some with 12.
        for fields in boards.iter().filter(|fields| fields.sound()) {
            let image = image_of(form, fields);
            let mut seen = [0; 3];
            for place in 0..image.len() {
                let mut image = image.clone();
                image[place] ^= 0xFF;
                match read_image(&image) {
                    Ok(_) => seen[0] += 1,
                    Err(Refusal::UnsoundBoard) => seen[1] += 1,
                    Err(refusal) => {
                        assert_eq!(refusal, Refusal::MalformedImage);
                        seen[2] += 1;
                    }
                }
            }
            assert!(seen.iter().all(|count| *count > 10), "{seen:?}");
        }
    }
    // The rates that are put into images include these limits and the three.
    let rates: Vec<u32> = rates_in_images().collect();
    for rate in [0, 1, 999_999, 1_000_001, 24_000_000, 48_000_001, u32::MAX] {
        assert!(rates.contains(&rate), "{rate}");
    }
    assert!(RATES.iter().all(|rate| rates.contains(rate)));
}
