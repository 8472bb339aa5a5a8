//! The two forms of an image: boards of each rate in the new one, moves from form to form, and what is refused.

use pec::{
    image_form, image_refusal, list_of, move_back, move_forward, park_fresh_at, preview_parked, run_at, run_parked,
    Board, Call, Form, Outcome, Refusal, DEFAULT_RATE, IMAGE_SIZE, OLD_IMAGE_SIZE, RATES,
};

/// Where the rate and the timer enable stand in an image of the new form.
const RATE: usize = 3;
const TIMER_ENABLE: usize = 7 + 4 * 38 + 3;

/// The alarm at 2 seconds, enabled, and an advance of 7 cycles. The deadline is then 2 seconds of cycles less 7.
fn list() -> Vec<u8> {
    let alarm = (0x098..0x09C).chain(0x094..0x098).zip(2_u64.to_be_bytes());
    let mut calls: Vec<Call> = alarm.map(|(address, byte)| Call::Write { address, byte }).collect();
    calls.push(Call::Write {
        address: 0x09F,
        byte: 1,
    });
    calls.push(Call::Advance { cycles: 7 });
    list_of(&calls)
}

/// A board of a rate after that list.
fn board_at(rate: u32) -> Board {
    let mut board = Board::fresh_at(rate).expect("the rate is one of the three");
    assert_eq!(board.run(&list(), &mut [0; 128]).refusal, None);
    board
}

/// An image with a byte replaced.
fn replaced<const SIZE: usize>(mut image: [u8; SIZE], place: usize, byte: u8) -> [u8; SIZE] {
    image[place] = byte;
    image
}

#[test]
fn a_board_has_its_rate_and_keeps_it() {
    assert_eq!(Board::fresh_at(DEFAULT_RATE), Ok(Board::fresh()));
    for rate in RATES {
        let mut board = Board::fresh_at(rate).expect("the rate is one of the three");
        assert_eq!(board.rate(), rate);
        assert_eq!(board.image()[..7], [&[0x24, 0, 4][..], &rate.to_be_bytes()].concat());
        let (mut parked, mut fresh) = ([7; 128], [7; 128]);
        assert_eq!(board.run(&list(), &mut parked), run_at(rate, &list(), &mut fresh));
        assert_eq!((parked, board.rate()), (fresh, rate));
        assert_eq!(Board::from_image(board.image()), Ok(board.clone()));
        // The line rises with the last cycle of the two seconds.
        let due = 2 * u64::from(rate) - 7;
        let mut high = [7; 2];
        assert_eq!(board.preview(&[due, due - 1], &mut high), Ok(()));
        assert_eq!(high, [1, 0], "{rate}");
    }
    for rate in [0, 1, 999_999, 1_000_001, 24_000_000, 48_000_001, u32::MAX] {
        assert_eq!(Board::fresh_at(rate), Err(Refusal::UnsupportedRate));
    }
}

#[test]
fn a_fresh_board_of_a_rate_is_parked_at_the_start_of_a_buffer() {
    for rate in RATES {
        let mut buffer = [7; IMAGE_SIZE + 2];
        for length in [0, OLD_IMAGE_SIZE, IMAGE_SIZE - 1] {
            let parked = park_fresh_at(rate, &mut buffer[..length]);
            assert_eq!((parked, buffer), (Err(Refusal::BufferTooSmall), [7; IMAGE_SIZE + 2]));
        }
        assert_eq!(park_fresh_at(rate, &mut buffer), Ok(IMAGE_SIZE));
        let fresh = Board::fresh_at(rate).expect("the rate is one of the three");
        assert_eq!(
            (&buffer[..IMAGE_SIZE], &buffer[IMAGE_SIZE..]),
            (&fresh.image()[..], &[7; 2][..])
        );
    }
    // Another rate is refused before a short buffer is.
    for length in [0, IMAGE_SIZE] {
        let mut buffer = [7; IMAGE_SIZE];
        let parked = park_fresh_at(24_000_000, &mut buffer[..length]);
        assert_eq!((parked, buffer), (Err(Refusal::UnsupportedRate), [7; IMAGE_SIZE]));
    }
}

#[test]
fn there_and_back_gives_the_same_bytes() {
    let board = board_at(DEFAULT_RATE);
    let old = board.old_image().expect("the rate is that of the old form");
    assert_eq!(old, board.image()[7..]);
    assert_eq!(
        (image_form(board.image()), image_form(&old)),
        (Ok(Form::New), Ok(Form::Old))
    );
    // Only the image's own bytes are written.
    let mut buffer = [7; IMAGE_SIZE + 2];
    assert_eq!(move_forward(&old, &mut buffer), Ok(IMAGE_SIZE));
    assert_eq!(
        (&buffer[..IMAGE_SIZE], &buffer[IMAGE_SIZE..]),
        (&board.image()[..], &[7; 2][..])
    );
    let mut buffer = [7; OLD_IMAGE_SIZE + 2];
    assert_eq!(move_back(board.image(), &mut buffer), Ok(OLD_IMAGE_SIZE));
    assert_eq!(
        (&buffer[..OLD_IMAGE_SIZE], &buffer[OLD_IMAGE_SIZE..]),
        (&old[..], &[7; 2][..])
    );
    // A board read from an old image is the same board.
    let resumed = Board::from_image(&old).expect("an old image is read");
    assert_eq!((resumed.rate(), &resumed), (DEFAULT_RATE, &board));
}

#[test]
fn moves_are_refused_in_order_and_leave_the_buffer() {
    let board = board_at(DEFAULT_RATE);
    let (new, old) = (
        *board.image(),
        board.old_image().expect("the rate is that of the old form"),
    );
    let slow = *board_at(1_000_000).image();
    let unsound_new = replaced(new, TIMER_ENABLE, 16);
    let unsound_old = replaced(old, TIMER_ENABLE - 7, 16);
    let unsound_slow = replaced(slow, TIMER_ENABLE, 16);
    let malformed_slow = replaced(slow, 0, 0x25);
    let no_rate = replaced(new, RATE + 3, 1);
    let full = IMAGE_SIZE;
    for (image, length, forward, back) in [
        // Already in the target form, sound or not: this comes first.
        (&new[..], full, Some(Refusal::MalformedImage), None),
        (&new, OLD_IMAGE_SIZE, Some(Refusal::MalformedImage), None),
        (&old, full, None, Some(Refusal::MalformedImage)),
        (
            &unsound_new,
            full,
            Some(Refusal::MalformedImage),
            Some(Refusal::UnsoundBoard),
        ),
        (
            &unsound_old,
            full,
            Some(Refusal::UnsoundBoard),
            Some(Refusal::MalformedImage),
        ),
        // Malformed.
        (
            &new[1..],
            full,
            Some(Refusal::MalformedImage),
            Some(Refusal::MalformedImage),
        ),
        (
            &old[..9],
            0,
            Some(Refusal::MalformedImage),
            Some(Refusal::MalformedImage),
        ),
        (&[], 0, Some(Refusal::MalformedImage), Some(Refusal::MalformedImage)),
        // 12 comes before 16, 1 before 16, 16 before 11.
        (
            &malformed_slow,
            full,
            Some(Refusal::MalformedImage),
            Some(Refusal::MalformedImage),
        ),
        (
            &unsound_slow,
            full,
            Some(Refusal::MalformedImage),
            Some(Refusal::UnsoundBoard),
        ),
        (
            &no_rate,
            full,
            Some(Refusal::MalformedImage),
            Some(Refusal::UnsoundBoard),
        ),
        (
            &slow,
            full,
            Some(Refusal::MalformedImage),
            Some(Refusal::RateNeedsNewForm),
        ),
        (&slow, 0, Some(Refusal::MalformedImage), Some(Refusal::RateNeedsNewForm)),
        (
            &unsound_new,
            0,
            Some(Refusal::MalformedImage),
            Some(Refusal::UnsoundBoard),
        ),
        (
            &unsound_old,
            0,
            Some(Refusal::UnsoundBoard),
            Some(Refusal::MalformedImage),
        ),
        (
            &new,
            OLD_IMAGE_SIZE - 1,
            Some(Refusal::MalformedImage),
            Some(Refusal::BufferTooSmall),
        ),
        (
            &old,
            IMAGE_SIZE - 1,
            Some(Refusal::BufferTooSmall),
            Some(Refusal::MalformedImage),
        ),
    ] {
        for (moved, refusal) in [(move_forward as fn(&[u8], &mut [u8]) -> _, forward), (move_back, back)] {
            let mut buffer = [7; IMAGE_SIZE];
            let result = moved(image, &mut buffer[..length]);
            assert_eq!(result.err(), refusal, "{image:?} into {length}");
            if refusal.is_some() {
                assert_eq!(buffer, [7; IMAGE_SIZE]);
            }
        }
    }
    assert_eq!(board_at(12_000_000).old_image(), Err(Refusal::RateNeedsNewForm));
}

#[test]
fn a_run_and_a_preview_take_either_form_and_a_run_gives_it_back() {
    let mut new = *Board::fresh().image();
    let mut old = Board::fresh().old_image().expect("the rate is that of the old form");
    let (mut answers, mut old_answers) = ([7; 128], [7; 128]);
    let outcome = run_parked(&mut new, &list(), &mut answers);
    assert_eq!((outcome.calls, outcome.refusal), (10, None));
    assert_eq!(run_parked(&mut old, &list(), &mut old_answers), outcome);
    assert_eq!(answers, old_answers);
    assert_eq!((image_form(&new), image_form(&old)), (Ok(Form::New), Ok(Form::Old)));
    assert_eq!(old, new[7..]);
    for image in [&new[..], &old] {
        let mut high = [7; 3];
        assert_eq!(preview_parked(image, &[95_999_993, 95_999_992], &mut high), Ok(()));
        assert_eq!(high, [1, 0, 7]);
    }
}

#[test]
fn a_rate_that_no_board_has_is_not_sound() {
    let fresh = *Board::fresh().image();
    for rate in [0, 1, 999_999, 1_000_001, 24_000_000, 48_000_001, u32::MAX] {
        let mut image = fresh;
        image[RATE..RATE + 4].copy_from_slice(&u32::to_be_bytes(rate));
        assert_eq!(image_refusal(&image), Some(Refusal::UnsoundBoard));
        assert_eq!(Board::from_image(&image), Err(Refusal::UnsoundBoard));
        let refused = Outcome {
            refusal: Some(Refusal::UnsoundBoard),
            ..Outcome::default()
        };
        let before = image;
        assert_eq!(
            (run_parked(&mut image, &list(), &mut [0; 128]), image),
            (refused, before)
        );
        // A wrong form comes before the rate.
        assert_eq!(image_refusal(&image[..IMAGE_SIZE - 1]), Some(Refusal::MalformedImage));
    }
}
