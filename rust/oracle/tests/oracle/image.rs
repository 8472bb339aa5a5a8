//! The image of a board, and what reading one refuses: the requests' sentences, on bytes written by hand.

use std::fs;
use std::path::Path;

use calls::{list_of, Call, Outcome, Refusal};
use oracle::fields::{Channel, Fields, Latch};
use oracle::image::{
    image_form, image_of, move_back, move_forward, move_image, park, park_fresh, park_fresh_at, read_image,
    run_parked, Form, IMAGE_SIZE, OLD_IMAGE_SIZE,
};

use crate::soundness::{CLAUSES, RATE_CLAUSES};
use crate::support::*;

/// Where the members of each field start in the old form: three bytes after the end of the field before. The new form
/// has 7 bytes more before them.
const MEMBERS: [usize; 7] = [3, 41, 79, 117, 155, 230, 263];

/// Where the flags stand in the old form: pending and armed of each channel, offset sign, alarm pending, alarm armed,
/// and the held flag of each latch.
const FLAGS: [usize; 17] = [
    36, 37, 74, 75, 112, 113, 150, 151, 169, 191, 192, 230, 235, 240, 245, 250, 255,
];

/// The field that the new form begins with, at each rate: tag, length, and the rate.
const RATE_FIELDS: [(u32, [u8; 7]); 3] = [
    (1_000_000, [0x24, 0x00, 0x04, 0x00, 0x0F, 0x42, 0x40]),
    (12_000_000, [0x24, 0x00, 0x04, 0x00, 0xB7, 0x1B, 0x00]),
    (48_000_000, [0x24, 0x00, 0x04, 0x02, 0xDC, 0x6C, 0x00]),
];

/// The fresh board's image in the old form: four channel fields, then timer enable to host nanoseconds with clock
/// control 1, the latches and the controller.
#[rustfmt::skip]
const FRESH: [u8; 269] = [
    0x20, 0x00, 0x23,
    0, 0, 0, 0, 0, 0, 0, 0, 0, 0, 0, 0, 0, 0, 0, 0, 0, 0, 0, 0, 0, 0, 0, 0, 0, 0, 0, 0, 0, 0, 0, 0, 0, 0, 0,
    0x20, 0x00, 0x23,
    0, 0, 0, 0, 0, 0, 0, 0, 0, 0, 0, 0, 0, 0, 0, 0, 0, 0, 0, 0, 0, 0, 0, 0, 0, 0, 0, 0, 0, 0, 0, 0, 0, 0, 0,
    0x20, 0x00, 0x23,
    0, 0, 0, 0, 0, 0, 0, 0, 0, 0, 0, 0, 0, 0, 0, 0, 0, 0, 0, 0, 0, 0, 0, 0, 0, 0, 0, 0, 0, 0, 0, 0, 0, 0, 0,
    0x20, 0x00, 0x23,
    0, 0, 0, 0, 0, 0, 0, 0, 0, 0, 0, 0, 0, 0, 0, 0, 0, 0, 0, 0, 0, 0, 0, 0, 0, 0, 0, 0, 0, 0, 0, 0, 0, 0, 0,
    0x21, 0x00, 0x48, 0, 1,
    0, 0, 0, 0, 0, 0, 0, 0, 0, 0, 0, 0, 0, 0, 0, 0, 0, 0, 0, 0, 0, 0, 0, 0, 0, 0, 0, 0, 0, 0, 0, 0, 0, 0, 0,
    0, 0, 0, 0, 0, 0, 0, 0, 0, 0, 0, 0, 0, 0, 0, 0, 0, 0, 0, 0, 0, 0, 0, 0, 0, 0, 0, 0, 0, 0, 0, 0, 0, 0, 0,
    0x22, 0x00, 0x1E, 0, 0, 0, 0, 0, 0, 0, 0, 0, 0, 0, 0, 0, 0, 0, 0, 0, 0, 0, 0, 0, 0, 0, 0, 0, 0, 0, 0, 0, 0,
    0x23, 0x00, 0x06, 0, 0, 0, 0, 0, 0,
];

/// A sound board whose members have bytes that show their places.
fn marked() -> Fields {
    let channel = |number: u8| Channel {
        control: number,
        counter: 0x1011_1213_1415_1617 + u64::from(number),
        compare: 0x2021_2223_2425_2627 + u64::from(number),
        reload: 0x3031_3233_3435_3637 + u64::from(number),
        prescaler: 0x4041_4243 + u32::from(number),
        phase: 0x3839_3A3B + u32::from(number),
        pending: number & 1 == 0,
        armed: number & 1 == 1,
    };
    let latch = |value| Latch { held: true, value };
    Fields {
        rate: F,
        channels: [channel(0), channel(1), channel(2), channel(3)],
        timer_enable: 5,
        clock_control: 6,
        seconds: 0x5051_5253_5455_5657,
        subsecond: 0x0202_0304,
        offset_negative: true,
        offset_seconds: 0x6061_6263_6465_6667,
        offset_nanoseconds: 0x0304_0506,
        alarm_enable: 1,
        alarm: 0x7071_7273_7475_7677,
        alarm_pending: false,
        alarm_armed: true,
        seconds_shadow: 0x8081_8283_8485_8687,
        seconds_mask: 0x88,
        poll: 0x0000_1011,
        alarm_shadow: 0x9091_9293_9495_9697,
        alarm_mask: 0x98,
        host_seconds: 0xA0A1_A2A3_A4A5_A6A7,
        host_nanoseconds: 0x0405_0607,
        count_latches: [latch(0xB0B1_B2B3), Latch::default(), latch(0xB4B5_B6B7), latch(0)],
        clock_low_latch: latch(0xC0C1_C2C3),
        clock_high_latch: latch(0xD0D1_D2D3),
        controller_pending: 0xE0E1,
        controller_enable: 0xE2E3,
        controller_levels: 0xE4E5,
    }
}

/// That board's image in the old form.
#[rustfmt::skip]
const MARKED: [u8; 269] = [
    0x20, 0x00, 0x23, 0x00, 0x10, 0x11, 0x12, 0x13, 0x14, 0x15, 0x16, 0x17,
    0x20, 0x21, 0x22, 0x23, 0x24, 0x25, 0x26, 0x27,
    0x30, 0x31, 0x32, 0x33, 0x34, 0x35, 0x36, 0x37, 0x40, 0x41, 0x42, 0x43, 0x38, 0x39, 0x3A, 0x3B, 0x01, 0x00,
    0x20, 0x00, 0x23, 0x01, 0x10, 0x11, 0x12, 0x13, 0x14, 0x15, 0x16, 0x18,
    0x20, 0x21, 0x22, 0x23, 0x24, 0x25, 0x26, 0x28,
    0x30, 0x31, 0x32, 0x33, 0x34, 0x35, 0x36, 0x38, 0x40, 0x41, 0x42, 0x44, 0x38, 0x39, 0x3A, 0x3C, 0x00, 0x01,
    0x20, 0x00, 0x23, 0x02, 0x10, 0x11, 0x12, 0x13, 0x14, 0x15, 0x16, 0x19,
    0x20, 0x21, 0x22, 0x23, 0x24, 0x25, 0x26, 0x29,
    0x30, 0x31, 0x32, 0x33, 0x34, 0x35, 0x36, 0x39, 0x40, 0x41, 0x42, 0x45, 0x38, 0x39, 0x3A, 0x3D, 0x01, 0x00,
    0x20, 0x00, 0x23, 0x03, 0x10, 0x11, 0x12, 0x13, 0x14, 0x15, 0x16, 0x1A,
    0x20, 0x21, 0x22, 0x23, 0x24, 0x25, 0x26, 0x2A,
    0x30, 0x31, 0x32, 0x33, 0x34, 0x35, 0x36, 0x3A, 0x40, 0x41, 0x42, 0x46, 0x38, 0x39, 0x3A, 0x3E, 0x00, 0x01,
    0x21, 0x00, 0x48, 0x05, 0x06, 0x50, 0x51, 0x52, 0x53, 0x54, 0x55, 0x56, 0x57, 0x02, 0x02, 0x03, 0x04,
    0x01, 0x60, 0x61, 0x62, 0x63, 0x64, 0x65, 0x66, 0x67, 0x03, 0x04, 0x05, 0x06,
    0x01, 0x70, 0x71, 0x72, 0x73, 0x74, 0x75, 0x76, 0x77, 0x00, 0x01,
    0x80, 0x81, 0x82, 0x83, 0x84, 0x85, 0x86, 0x87, 0x88, 0x00, 0x00, 0x10, 0x11,
    0x90, 0x91, 0x92, 0x93, 0x94, 0x95, 0x96, 0x97, 0x98,
    0xA0, 0xA1, 0xA2, 0xA3, 0xA4, 0xA5, 0xA6, 0xA7, 0x04, 0x05, 0x06, 0x07,
    0x22, 0x00, 0x1E, 0x01, 0xB0, 0xB1, 0xB2, 0xB3, 0x00, 0x00, 0x00, 0x00, 0x00, 0x01, 0xB4, 0xB5, 0xB6, 0xB7,
    0x01, 0x00, 0x00, 0x00, 0x00, 0x01, 0xC0, 0xC1, 0xC2, 0xC3, 0x01, 0xD0, 0xD1, 0xD2, 0xD3,
    0x23, 0x00, 0x06, 0xE0, 0xE1, 0xE2, 0xE3, 0xE4, 0xE5,
];

/// The same in the new form, at 48,000,000.
fn new_form(old: &[u8]) -> Vec<u8> {
    [&RATE_FIELDS[2].1[..], old].concat()
}

/// How many bytes come before the fields of the old form.
fn front(form: Form) -> usize {
    form.size() - OLD_IMAGE_SIZE
}

/// Where the members of each field start in a form.
fn members(form: Form) -> Vec<usize> {
    let old = MEMBERS.map(|start| start + front(form));
    let rate = (form == Form::New).then_some(3);
    rate.into_iter().chain(old).collect()
}

/// The image in a form of the fresh board after an edit.
fn edited(form: Form, edit: impl Fn(&mut Fields)) -> Vec<u8> {
    let mut fields = Fields::fresh();
    edit(&mut fields);
    image_of(form, &fields)
}

/// The refusal of reading an image.
fn image_refusal(image: &[u8]) -> Option<Refusal> {
    image_form(image).err()
}

#[test]
fn the_fresh_boards_image_byte_for_byte() {
    assert_eq!(image_of(Form::Old, &Fields::fresh()), FRESH);
    assert_eq!(read_image(&FRESH), Ok((Form::Old, Fields::fresh())));
    for (rate, field) in RATE_FIELDS {
        let image = [&field[..], &FRESH].concat();
        assert_eq!(image_of(Form::New, &Fields::fresh_at(rate)), image);
        assert_eq!(read_image(&image), Ok((Form::New, Fields::fresh_at(rate))));
        assert_eq!(image.len(), IMAGE_SIZE);
    }
    assert_eq!([IMAGE_SIZE, OLD_IMAGE_SIZE], [276, 269]);
    assert_eq!(Form::ALL.map(Form::size), [269, 276]);
}

#[test]
fn every_member_has_its_place() {
    assert!(marked().sound());
    assert_eq!(image_of(Form::Old, &marked()), MARKED);
    assert_eq!(read_image(&MARKED), Ok((Form::Old, marked())));
    let new = new_form(&MARKED);
    assert_eq!(image_of(Form::New, &marked()), new);
    assert_eq!(read_image(&new), Ok((Form::New, marked())));
}

#[test]
fn a_sound_boards_image_is_read_back() {
    for rate in RATES {
        for (_, fields) in sound_boards_at(rate, 10_000) {
            let image = image_of(Form::New, &fields);
            assert_eq!(image.len(), IMAGE_SIZE);
            assert_eq!(read_image(&image), Ok((Form::New, fields)));
        }
    }
    for (_, fields) in sound_boards(10_000) {
        let image = image_of(Form::Old, &fields);
        assert_eq!(image.len(), OLD_IMAGE_SIZE);
        assert_eq!(read_image(&image), Ok((Form::Old, fields)));
    }
}

#[test]
fn a_board_that_is_not_sound_is_refused_with_1_and_12_comes_first() {
    for form in Form::ALL {
        // The old form has no rate.
        let of_rate = RATE_CLAUSES.into_iter().filter(|_| form == Form::New);
        for (name, unsound, sound) in CLAUSES.into_iter().chain(of_rate) {
            let image = edited(form, sound);
            assert_eq!(image_form(&image), Ok(form), "{name}");
            let image = edited(form, unsound);
            assert_eq!(image_refusal(&image), Some(Refusal::UnsoundBoard), "{name}");
            let refused = |image: &[u8]| assert_eq!(image_refusal(image), Some(Refusal::MalformedImage), "{name}");
            refused(&image[..form.size() - 1]);
            refused(&[&image[..], &[0]].concat());
            // Tag, each byte of the length, and a flag.
            let headers = members(form);
            let headers = headers.iter().flat_map(|start| [start - 3, start - 2, start - 1]);
            for place in headers.chain(FLAGS.map(|place| place + front(form))) {
                let mut damaged = image.clone();
                damaged[place] ^= 2;
                refused(&damaged);
            }
        }
    }
}

#[test]
fn a_rate_that_no_board_has_is_refused_with_1() {
    for rate in [0, 1, 999_999, 1_000_001, 12_000_001, 24_000_000, 48_000_001, u32::MAX] {
        let mut image = new_form(&FRESH);
        image[3..7].copy_from_slice(&u32::to_be_bytes(rate));
        assert_eq!(read_image(&image), Err(Refusal::UnsoundBoard), "{rate}");
        // Neither move accepts it: forward, it has the new form already; back, it is not sound.
        let mut buffer = [7; IMAGE_SIZE];
        assert_eq!(move_forward(&image, &mut buffer), Err(Refusal::MalformedImage));
        assert_eq!(move_back(&image, &mut buffer), Err(Refusal::UnsoundBoard));
        assert_eq!(buffer, [7; IMAGE_SIZE]);
    }
    // A board's limits are those of its rate: this subsecond is sound at 48,000,000 alone.
    for (rate, field) in RATE_FIELDS {
        let fast = Fields {
            subsecond: 12_000_000,
            ..Fields::fresh()
        };
        let image = [&field[..], &image_of(Form::Old, &fast)].concat();
        let expected = (rate == F).then_some((Form::New, fast)).ok_or(Refusal::UnsoundBoard);
        assert_eq!(read_image(&image), expected, "{rate}");
    }
}

#[test]
fn tags_lengths_and_flags_are_the_form_and_nothing_else_is() {
    for (form, image) in [FRESH, MARKED].into_iter().flat_map(|image| {
        let new = new_form(&image);
        [(Form::Old, image.to_vec()), (Form::New, new)]
    }) {
        for place in 0..form.size() {
            let header = members(form).iter().any(|start| (start - 3..*start).contains(&place));
            let flag = FLAGS.map(|place| place + front(form)).contains(&place);
            for byte in (0..=255).filter(|byte| *byte != image[place]) {
                let mut damaged = image.clone();
                damaged[place] = byte;
                let malformed = header || flag && byte > 1;
                let refusal = image_refusal(&damaged);
                assert_eq!(
                    refusal == Some(Refusal::MalformedImage),
                    malformed,
                    "byte {place}: {byte}"
                );
            }
        }
    }
}

#[test]
fn fields_missing_cut_out_of_order_and_over_are_refused_with_12() {
    for form in Form::ALL {
        let image = image_of(form, &marked());
        let starts: Vec<usize> = members(form)
            .iter()
            .map(|start| start - 3)
            .chain([form.size()])
            .collect();
        let fields: Vec<&[u8]> = starts.windows(2).map(|ends| &image[ends[0]..ends[1]]).collect();
        let channels = fields.len() - 7..fields.len() - 3;
        let refused = |image: &[u8]| assert_eq!(image_refusal(image), Some(Refusal::MalformedImage));
        for length in 0..form.size() {
            refused(&image[..length]);
        }
        for one in 0..fields.len() {
            let mut without = fields.clone();
            without.remove(one);
            // Without its rate a new image is an old one.
            if form == Form::New && one == 0 {
                assert_eq!(read_image(&without.concat()), Ok((Form::Old, marked())));
            } else {
                refused(&without.concat());
            }
            let mut doubled = fields.clone();
            doubled.insert(one, fields[one]);
            refused(&doubled.concat());
            for other in 0..one {
                let mut swapped = fields.clone();
                swapped.swap(one, other);
                // Two channels change places: both are still channels, of another board.
                if channels.contains(&one) && channels.contains(&other) {
                    let mut board = marked();
                    board.channels.swap(one - channels.start, other - channels.start);
                    assert_eq!(read_image(&swapped.concat()), Ok((form, board)));
                } else {
                    refused(&swapped.concat());
                }
            }
            // A member byte more or less, with the length to match.
            let mut longer = fields[one].to_vec();
            longer.push(0);
            longer[2] += 1;
            let mut shorter = fields[one][..fields[one].len() - 1].to_vec();
            shorter[2] -= 1;
            for changed in [longer, shorter] {
                let mut image = fields.clone();
                image[one] = &changed;
                refused(&image.concat());
            }
            // A rate before each field. Before the first field of an old image it makes a new image; elsewhere it is
            // refused.
            let mut with_rate = fields.clone();
            with_rate.insert(one, &RATE_FIELDS[2].1);
            if form == Form::Old && one == 0 {
                assert_eq!(read_image(&with_rate.concat()), Ok((Form::New, marked())));
            } else {
                refused(&with_rate.concat());
            }
        }
        refused(&[&image[..], &RATE_FIELDS[2].1].concat());
    }
}

#[test]
fn a_fresh_board_is_parked_in_the_new_form_where_there_is_room() {
    type Parked<'a> = &'a dyn Fn(&mut [u8]) -> Result<usize, Refusal>;
    let none_said: Parked = &|buffer| park_fresh(buffer);
    let by_rate = RATE_FIELDS.map(|(rate, field)| (field, move |buffer: &mut [u8]| park_fresh_at(rate, buffer)));
    let by_rate = by_rate.iter().map(|(field, parked)| (*field, parked as Parked));
    for (field, parked) in by_rate.chain([(RATE_FIELDS[2].1, none_said)]) {
        let mut buffer = [0xEE; IMAGE_SIZE + 1];
        for length in [0, OLD_IMAGE_SIZE, IMAGE_SIZE - 1] {
            assert_eq!(parked(&mut buffer[..length]), Err(Refusal::BufferTooSmall));
            assert_eq!(buffer, [0xEE; IMAGE_SIZE + 1]);
        }
        assert_eq!(parked(&mut buffer), Ok(IMAGE_SIZE));
        assert_eq!(buffer[..], [&field[..], &FRESH, &[0xEE]].concat());
    }
    // Another rate is refused before a short buffer is.
    for rate in [0, 1, 999_999, 1_000_001, 24_000_000, 48_000_001, u32::MAX] {
        for length in [0, IMAGE_SIZE] {
            let mut buffer = [0xEE; IMAGE_SIZE];
            assert_eq!(
                park_fresh_at(rate, &mut buffer[..length]),
                Err(Refusal::UnsupportedRate)
            );
            assert_eq!(buffer, [0xEE; IMAGE_SIZE]);
        }
    }
}

#[test]
fn boards_of_all_rates_are_parked_in_the_new_form_and_only_one_in_the_old() {
    for rate in RATES {
        let sound = Fields {
            subsecond: rate - 1,
            poll: poll_at(rate) - 1,
            ..Fields::fresh_at(rate)
        };
        let unsound = Fields {
            timer_enable: 16,
            ..sound
        };
        for form in Form::ALL {
            // 1 comes first, then 16, then 11; each leaves the buffer. 15 is not among them.
            for length in [0, form.size() - 1, form.size(), form.size() + 1] {
                let mut buffer = vec![7; IMAGE_SIZE + 1];
                assert_eq!(park(form, &unsound, &mut buffer[..length]), Err(Refusal::UnsoundBoard));
                assert_eq!(buffer, [7; IMAGE_SIZE + 1]);
                let parked = park(form, &sound, &mut buffer[..length]);
                let expected = match form {
                    Form::Old if rate != F => Err(Refusal::RateNeedsNewForm),
                    _ if length < form.size() => Err(Refusal::BufferTooSmall),
                    _ => Ok(form.size()),
                };
                assert_eq!(parked, expected, "{form:?}, {rate} into {length}");
                let written = parked.unwrap_or(0);
                assert!(buffer[written..].iter().all(|byte| *byte == 7));
                if written > 0 {
                    assert_eq!(read_image(&buffer[..written]), Ok((form, sound)));
                }
            }
        }
    }
    // A board at a rate that no board has is not sound.
    let other = Fields::fresh_at(24_000_000);
    for form in Form::ALL {
        assert_eq!(park(form, &other, &mut [0; IMAGE_SIZE]), Err(Refusal::UnsoundBoard));
    }
    // The old form has no rate, so its board is one without a given rate.
    let old = image_of(Form::Old, &Fields::fresh_at(1_000_000));
    assert_eq!(read_image(&old), Ok((Form::Old, Fields::fresh())));
}

#[test]
fn images_are_moved_forward_and_back_to_the_same_bytes() {
    for old in [FRESH, MARKED] {
        let new = new_form(&old);
        let mut buffer = [7; IMAGE_SIZE + 1];
        assert_eq!(move_forward(&old, &mut buffer), Ok(IMAGE_SIZE));
        assert_eq!((&buffer[..IMAGE_SIZE], buffer[IMAGE_SIZE]), (&new[..], 7));
        let mut buffer = [7; IMAGE_SIZE];
        assert_eq!(move_back(&new, &mut buffer), Ok(OLD_IMAGE_SIZE));
        assert_eq!(buffer[..], [&old[..], &[7; 7]].concat());
    }
}

#[test]
fn moves_are_refused_in_order_and_leave_the_buffer() {
    let unsound = Fields {
        timer_enable: 16,
        ..marked()
    };
    let slow = Fields::fresh_at(1_000_000);
    let unsound_slow = Fields {
        poll: poll_at(1_000_000),
        ..slow
    };
    let new = |fields: &Fields| image_of(Form::New, fields);
    let old = |fields: &Fields| image_of(Form::Old, fields);
    let mut other_tag = new(&slow);
    other_tag[0] = 0x25;
    use Refusal::*;
    for (to, image, length, refusal) in [
        // In neither form; or in the target form already, sound or not, which comes before 1.
        (Form::New, old(&unsound)[1..].to_vec(), 0, MalformedImage),
        (Form::Old, new(&unsound)[..275].to_vec(), 0, MalformedImage),
        (Form::New, new(&marked()), 276, MalformedImage),
        (Form::New, new(&unsound), 0, MalformedImage),
        (Form::Old, old(&marked()), 276, MalformedImage),
        (Form::Old, old(&unsound), 0, MalformedImage),
        // Also where the rate is not 48,000,000.
        (Form::Old, new(&slow)[..275].to_vec(), 0, MalformedImage),
        (Form::Old, other_tag, 276, MalformedImage),
        // Then 1, then 16, then 11.
        (Form::New, old(&unsound), 275, UnsoundBoard),
        (Form::Old, new(&unsound), 268, UnsoundBoard),
        (Form::Old, new(&unsound_slow), 0, UnsoundBoard),
        (Form::Old, new(&slow), 276, RateNeedsNewForm),
        (Form::Old, new(&slow), 268, RateNeedsNewForm),
        (Form::New, old(&marked()), 275, BufferTooSmall),
        (Form::Old, new(&marked()), 268, BufferTooSmall),
    ] {
        let mut buffer = [7; IMAGE_SIZE];
        let moved = move_image(to, &image, &mut buffer[..length]);
        assert_eq!((moved, buffer), (Err(refusal), [7; IMAGE_SIZE]), "{to:?} {image:?}");
    }
}

#[test]
fn a_run_over_an_image_leaves_the_image_of_its_board_in_the_form_that_it_had() {
    let list = list_of(&CALLS);
    for (form, rate) in [
        (Form::Old, F),
        (Form::New, F),
        (Form::New, 1_000_000),
        (Form::New, 12_000_000),
    ] {
        let (mut board, _) = Board::fresh_at(rate);
        let mut answers = vec![0; 256];
        let outcome = board.run(&list, &mut answers);
        let fresh = image_of(form, &Fields::fresh_at(rate));
        let (mut image, mut buffer) = (fresh.clone(), vec![0; answers.len()]);
        assert_eq!(run_parked(&mut image, &list, &mut buffer), outcome);
        assert_eq!((outcome.calls, buffer), (CALLS.len(), answers));
        assert_eq!(read_image(&image), Ok((form, board.fields())));
        assert_ne!(image, fresh);
        // A refused image stays, and so does the buffer.
        let mut unsound = edited(form, |fields| (fields.rate, fields.poll) = (rate, poll_at(F)));
        let before = unsound.clone();
        let mut buffer = [0xEE; 8];
        let refused = Outcome {
            refusal: Some(Refusal::UnsoundBoard),
            ..Outcome::default()
        };
        assert_eq!(
            run_parked(&mut unsound, &list_of(&[Call::Output]), &mut buffer),
            refused
        );
        assert_eq!((unsound, buffer), (before, [0xEE; 8]));
    }
}

#[test]
fn the_images_that_the_library_of_s_1_wrote_have_their_deadlines() {
    let folder = Path::new(env!("CARGO_MANIFEST_DIR")).join("../pec/tests/images");
    let text = fs::read_to_string(folder.join("README.md")).expect("the record is there");
    let rows = text.lines().filter(|line| line.contains(".image |"));
    let mut seen = Vec::new();
    for row in rows {
        let cells: Vec<&str> = row.trim_matches('|').split('|').map(str::trim).collect();
        let [name, present, exact, capped] = cells[..] else {
            panic!("{row}")
        };
        let image = fs::read(folder.join(name)).unwrap_or_else(|error| panic!("{name}: {error}"));
        let (form, fields) = read_image(&image).expect("it is read for ever");
        assert_eq!((form, fields.rate), (Form::Old, F), "{name}");
        assert_eq!(image_of(Form::Old, &fields), image, "{name}");
        // The recorded deadline is the one that the rules give.
        let due = deadline(&mut Board::from_fields(&fields));
        assert_eq!(due.is_some(), present == "1", "{name}");
        assert_eq!(due.unwrap_or(0).to_string(), exact, "{name}");
        assert_eq!(due.unwrap_or(0).min(u64::MAX.into()).to_string(), capped, "{name}");
        let mut moved = [0; IMAGE_SIZE];
        assert_eq!(move_forward(&image, &mut moved), Ok(IMAGE_SIZE), "{name}");
        assert_eq!(read_image(&moved), Ok((Form::New, fields)), "{name}");
        seen.push(fields);
    }
    // The images cover every kind of member: latches held, pending, armed and rung alarms, a negative offset, poll, and
    // a deadline above 2^64 - 1.
    assert_eq!(seen.len(), 8);
    let some = |holds: &dyn Fn(&Fields) -> bool| assert!(seen.iter().any(holds));
    some(&|fields| fields.count_latches.iter().all(|latch| latch.held) && fields.clock_low_latch.held);
    some(&|fields| fields.alarm_armed && fields.channels[0].pending && fields.clock_high_latch.held);
    some(&|fields| fields.alarm_pending && fields.line());
    some(&|fields| fields.runs_from_host_time() && fields.offset_negative && fields.poll > 0);
    some(&|fields| (0..4).all(|number| fields.runs(number)));
    some(&|fields| deadline(&mut Board::from_fields(fields)) > Some(u64::MAX.into()));
}
