//! The functions of the crate pass slices, results, repeats and images as documented.

use std::time::{Duration, Instant};

use pec::{
    answers, image_form, image_refusal, list_of, park_fresh, preview_parked, run, run_parked, run_repeated, Answer,
    Board, Call, Controller, Outcome, Refusal, IMAGE_SIZE,
};

const OUTPUT: [u8; 3] = [0x0A, 0, 0];

/// The record of an advance: tag, length, the line and four counts of 16 bytes. Here only channel 0's is other than 0,
/// and it fits in one byte.
fn advance_record(line: u8, count: u8) -> [u8; 68] {
    let mut record = [0; 68];
    record[..4].copy_from_slice(&[4, 0, 65, line]);
    record[19] = count;
    record
}

#[test]
fn an_empty_list_changes_nothing() {
    let mut answers = [7; 4];
    assert_eq!(run(&[], &mut answers), Outcome::default());
    assert_eq!(answers, [7; 4]);
    assert_eq!(run(&[], &mut []), Outcome::default());
}

#[test]
fn a_short_buffer_refuses_the_answer_and_stays() {
    let mut answers = [7; 5];
    let outcome = run(&OUTPUT, &mut answers[..4]);
    assert_eq!((outcome.calls, outcome.refusal), (0, Some(Refusal::BufferTooSmall)));
    assert_eq!(answers, [7; 5]);
    let outcome = run(&OUTPUT, &mut answers);
    assert_eq!((outcome.calls, outcome.answer_bytes, outcome.refusal), (1, 5, None));
    assert_eq!(answers, [0x0A, 0, 2, 0, 0]);
}

#[test]
fn repeats_go_on_from_the_board_that_is_left() {
    // One-shot channel 0 with compare 3 counts cycles; its counter's lowest byte is at address 0x28B.
    let configure = [(0x293, 3), (0x283, 12), (0x007, 1)].map(|(address, byte)| Call::Write { address, byte });
    let configure = list_of(&configure);
    let step = list_of(&[Call::Advance { cycles: 1 }, Call::Read { address: 0x28B }]);
    let mut answers = [0; 72];
    // The third cycle meets the compare; after it the channel is off.
    for (times, line, counter, count) in [(1, 0, 1, 0), (2, 0, 2, 0), (3, 1, 3, 1), (4, 1, 3, 0)] {
        let outcome = run_repeated(&configure, &step, times, &mut answers);
        assert_eq!((outcome.calls, outcome.refusal), (2, None));
        assert_eq!(answers[..68], advance_record(line, count), "{times}");
        assert_eq!(answers[68..], [2, 0, 1, counter], "{times}");
    }
    // With 0 times the results are the first list's.
    assert_eq!(run_repeated(&configure, &step, 0, &mut answers).calls, 3);
    // A first list that is refused still leaves its board.
    let cut = [&configure[..], &[9]].concat();
    assert_eq!(run_repeated(&cut, &step, 3, &mut answers).refusal, None);
    assert_eq!(answers[..68], advance_record(1, 1));
}

#[test]
fn an_advance_tells_the_points_that_each_channel_met() {
    // From 0: periodic with points 10, 14 and so on; periodic with every number; one-shot at 5; periodic with 1, 3 and
    // so on. A channel has 0x40 addresses, and its compare, reload and control end at 0x293, 0x29B and 0x283.
    let mut start = Vec::new();
    for (channel, compare, reload, control) in [(0, 10, 4, 5), (1, 0, 1, 5), (2, 5, 0, 4), (3, 1, 2, 5)] {
        for (address, byte) in [(0x293, compare), (0x29B, reload), (0x283, control)] {
            let address = address + 0x40 * channel;
            start.push(Call::Write { address, byte });
        }
    }
    start.push(Call::Write {
        address: 0x007,
        byte: 15,
    });
    let advance = |calls: &[Call]| {
        let mut buffer = [0; 256];
        let outcome = run(&list_of(&[&start, calls].concat()), &mut buffer);
        assert_eq!(outcome.refusal, None);
        let last = answers(&buffer[..outcome.answer_bytes]).last();
        match last.expect("there are answers").expect("they are whole") {
            (0x04, Answer::Advance { line: false, matches }) => matches,
            other => panic!("{other:?}"),
        }
    };
    let by = |cycles| Call::Advance { cycles };
    assert_eq!(advance(&[by(0)]), [0, 0, 0, 0]);
    assert_eq!(advance(&[by(19)]), [3, 20, 1, 10]);
    // Points are not met twice. The next ones are 22; 20 to 22; none; 21.
    assert_eq!(advance(&[by(19), by(3)]), [1, 3, 0, 1]);
    // Up to 2^64 - 1: 10 to 2^64 - 2 in steps of 4; every number from 0 on; every odd one.
    assert_eq!(advance(&[by(u64::MAX)]), [(1 << 62) - 2, 1 << 64, 1, 1 << 63]);
}

/// The place of the timer enable in an image: after the rate's 7 bytes, four channels of 38 bytes, a tag and a length.
const TIMER_ENABLE: usize = 7 + 4 * 38 + 3;

#[test]
fn a_board_goes_on_where_a_run_left_it() {
    // One-shot channel 0 with compare 3, and then three cycles, the last of which raises the line.
    let mut calls = [(0x293, 3), (0x283, 12), (0x007, 1)]
        .map(|(address, byte)| Call::Write { address, byte })
        .to_vec();
    calls.extend([Call::Advance { cycles: 1 }; 3]);
    let list = list_of(&calls);
    let mut whole = [7; 256];
    let outcome = run(&list, &mut whole);
    // Three answers of 3 bytes and three of 68.
    assert_eq!((outcome.calls, outcome.answer_bytes), (6, 213));
    assert_eq!(whole[145..213], advance_record(1, 1));
    // One call at a time, each on a board read from the image.
    let mut board = Board::default();
    assert_eq!(board, Board::fresh());
    let mut answers = [7; 256];
    let mut total = Outcome::default();
    for call in &calls {
        board = Board::from_image(board.image()).expect("a board's own image is accepted");
        let before = board.clone();
        let one = board.run(&call.encode(), &mut answers[total.answer_bytes..]);
        assert_ne!(board, before, "{call:?}");
        assert_eq!(one.refusal, None);
        total = total.then(one);
    }
    assert_eq!((total, answers), (outcome, whole));
    // A refused call stops a run, and the board stays.
    let before = board.clone();
    let refused = board.run(&[5, 0], &mut answers);
    assert_eq!((refused.calls, refused.refusal), (0, Some(Refusal::TruncatedHeader)));
    assert_eq!(board, before);
}

#[test]
fn a_skip_that_is_too_large_is_refused_and_changes_nothing() {
    // Channel 0 free-running with its interrupt enabled, started from 0 by control's bit 4: due after 2^64 cycles. Two
    // writes (6 bytes each, answers of 3) and a source (5 bytes, an answer of 3).
    let mut start = [(0x283, 0x1E), (0x007, 1)]
        .map(|(address, byte)| Call::Write { address, byte })
        .to_vec();
    start.push(Call::Source { number: 5, level: 1 });
    let mut started = Board::fresh();
    assert_eq!(started.run(&list_of(&start), &mut [0; 9]).refusal, None);
    assert_ne!(started, Board::fresh());
    let too_large = Outcome {
        calls: 3,
        list_bytes: 17,
        answer_bytes: 9,
        refusal: Some(Refusal::DeadlineTooLarge),
    };
    // The calls before the skip stand, and the one after it is not done; 13 comes before 11.
    let list = list_of(&[&start[..], &[Call::Skip, Call::Output]].concat());
    for length in [9, 20, 21, 40] {
        let mut board = Board::fresh();
        let mut answers = [7; 40];
        assert_eq!(board.run(&list, &mut answers[..length]), too_large);
        assert_eq!(board.image(), started.image());
        assert_eq!(answers[..9], [3, 0, 0, 3, 0, 0, 7, 0, 0]);
        assert_eq!(answers[9..], [7; 31]);
        assert_eq!(run(&list, &mut answers[..length]), too_large);
    }
    // Alone, it leaves every byte of the image and of the buffer.
    let refused = Outcome {
        refusal: Some(Refusal::DeadlineTooLarge),
        ..Outcome::default()
    };
    let skip = Call::Skip.encode();
    for length in [0, 12] {
        let (mut image, mut answers) = (*started.image(), [7; 12]);
        assert_eq!(run_parked(&mut image, &skip, &mut answers[..length]), refused);
        assert_eq!((&image, answers), (started.image(), [7; 12]));
    }
    // A board that is not sound is refused for that, and not for its deadline.
    let mut unsound = *started.image();
    unsound[TIMER_ENABLE] = 17;
    let outcome = run_parked(&mut unsound, &skip, &mut []);
    assert_eq!(outcome.refusal, Some(Refusal::UnsoundBoard));
    // One cycle nearer, the skip passes 2^64 - 1 cycles and raises the line; without room for its answer it is refused
    // with 11.
    let mut board = started.clone();
    let mut answers = [7; 68];
    assert_eq!(
        board.run(&Call::Advance { cycles: 1 }.encode(), &mut answers).refusal,
        None
    );
    let nearer = board.clone();
    let outcome = board.run(&skip, &mut answers[..11]);
    assert_eq!((outcome.refusal, &board), (Some(Refusal::BufferTooSmall), &nearer));
    assert_eq!(board.run(&skip, &mut answers).refusal, None);
    assert_eq!(answers[..12], [6, 0, 9, 255, 255, 255, 255, 255, 255, 255, 255, 1]);
    // With the line high it passes 0, and changes nothing.
    let high = board.clone();
    assert_eq!(board.run(&skip, &mut answers).refusal, None);
    assert_eq!(
        (&answers[..12], &board),
        (&[6, 0, 9, 0, 0, 0, 0, 0, 0, 0, 0, 1][..], &high)
    );
}

/// A board with one-shot channel 0, compare 10 and prescaler 2: due after 30 cycles.
fn due_after_30() -> Board {
    let start =
        [(0x293, 10), (0x2A3, 2), (0x283, 12), (0x007, 1)].map(|(address, byte)| Call::Write { address, byte });
    let mut board = Board::fresh();
    assert_eq!(board.run(&list_of(&start), &mut [0; 12]).refusal, None);
    board
}

#[test]
fn a_preview_is_what_an_advance_of_a_copy_answers() {
    let mut high_line = due_after_30();
    let mut answers = [0; 68];
    let advance = |board: &mut Board, cycles, answers: &mut [u8]| {
        assert_eq!(board.run(&list_of(&[Call::Advance { cycles }]), answers).refusal, None);
    };
    advance(&mut high_line, 30, &mut answers);
    // In any order, with repeats, and into a buffer with one byte more.
    let totals = [30, 29, 0, 31, u64::MAX, 29, 30, 1];
    for (board, expected) in [
        (due_after_30(), [1, 0, 0, 1, 1, 0, 1, 0]),
        (high_line, [1; 8]),
        (Board::fresh(), [0; 8]),
    ] {
        let before = board.clone();
        let mut high = [7; 9];
        assert_eq!(board.preview(&totals, &mut high), Ok(()));
        assert_eq!((&high[..8], high[8], &board), (&expected[..], 7, &before));
        for (cycles, byte) in totals.into_iter().zip(high) {
            let mut copy = board.clone();
            advance(&mut copy, cycles, &mut answers);
            assert_eq!(answers[3], byte, "{cycles}");
        }
    }
}

/// The shortest time of some repeats.
fn least(repeats: u32, mut done: impl FnMut()) -> Duration {
    let times = (0..repeats).map(|_| {
        let start = Instant::now();
        done();
        start.elapsed()
    });
    times.min().expect("there are repeats")
}

#[test]
fn one_deadline_serves_the_whole_slice() {
    // The bytes do not show how often the deadline is worked out, but the time does. A preview of one total reads the
    // image and works out the deadline; each further total of a slice costs one comparison. So the slice takes about
    // 1/135 of the time of its totals one by one. With a deadline for each total it would take a seventh.
    let board = due_after_30();
    let totals: Vec<u64> = (0..4_096).map(|total| total % 60).collect();
    let (mut high, mut apart) = (vec![7; totals.len()], vec![7; totals.len()]);
    let slice = least(100, || assert_eq!(board.preview(&totals, &mut high), Ok(())));
    let one_by_one = least(10, || {
        for (total, byte) in totals.chunks(1).zip(apart.chunks_mut(1)) {
            assert_eq!(board.preview(total, byte), Ok(()));
        }
    });
    assert_eq!(high, apart);
    assert!(30 * slice < one_by_one, "{slice:?} {one_by_one:?}");
}

#[test]
fn previews_are_refused_in_order_and_write_nothing() {
    let board = due_after_30();
    let mut realtime = board.clone();
    let write = Call::Write {
        address: 0x083,
        byte: 5,
    };
    assert_eq!(realtime.run(&list_of(&[write]), &mut [0; 3]).refusal, None);
    let mut unsound = *realtime.image();
    unsound[TIMER_ENABLE] = 16;
    for (image, room, refusal) in [
        (&board.image()[..], 1, Refusal::BufferTooSmall),
        (realtime.image(), 2, Refusal::ClockInRealtime),
        (realtime.image(), 1, Refusal::ClockInRealtime),
        (&unsound, 1, Refusal::UnsoundBoard),
        (&unsound[1..], 1, Refusal::MalformedImage),
    ] {
        let mut high = [7; 2];
        let refused = preview_parked(image, &[30, 29], &mut high[..room]);
        assert_eq!((refused, high), (Err(refusal), [7; 2]));
    }
    assert_eq!(realtime.preview(&[30], &mut [7; 2]), Err(Refusal::ClockInRealtime));
    // Without totals a preview needs no room, and writes nothing.
    let mut high = [7; 2];
    assert_eq!(board.preview(&[], &mut high), Ok(()));
    assert_eq!(board.preview(&[], &mut []), Ok(()));
    assert_eq!(realtime.preview(&[], &mut []), Err(Refusal::ClockInRealtime));
    assert_eq!(high, [7; 2]);
}

#[test]
fn a_board_is_shown_as_its_image() {
    let text = format!("{:?}", Board::fresh());
    // The rate, 48,000,000, and the first channel.
    assert!(text.starts_with("Board(24000402dc6c002000230000"), "{text}");
    assert_eq!(text.len(), "Board()".len() + 2 * IMAGE_SIZE);
}

#[test]
fn images_that_are_refused_stay() {
    let fresh = *Board::fresh().image();
    let mut unsound = fresh;
    unsound[TIMER_ENABLE] = 16;
    let mut both = unsound;
    both[0] = 0;
    for (image, refusal) in [
        (&unsound[..], Refusal::UnsoundBoard),
        (&both, Refusal::MalformedImage),
        (&fresh[..IMAGE_SIZE - 1], Refusal::MalformedImage),
        (&[&fresh[..], &[0]].concat(), Refusal::MalformedImage),
        (&[], Refusal::MalformedImage),
    ] {
        assert_eq!(image_refusal(image), Some(refusal));
        assert_eq!(image_form(image), Err(refusal));
        assert_eq!(Board::from_image(image), Err(refusal));
        let mut lent = image.to_vec();
        let mut answers = [7; 8];
        let outcome = run_parked(&mut lent, &OUTPUT, &mut answers);
        let refused = Outcome {
            refusal: Some(refusal),
            ..Outcome::default()
        };
        assert_eq!((outcome, &lent[..], answers), (refused, image, [7; 8]));
    }
    assert_eq!(image_refusal(&fresh), None);
}

#[test]
fn a_fresh_board_is_parked_at_the_start_of_a_buffer() {
    let mut buffer = [7; IMAGE_SIZE + 1];
    assert_eq!(park_fresh(&mut buffer[..IMAGE_SIZE - 1]), Err(Refusal::BufferTooSmall));
    assert_eq!(park_fresh(&mut []), Err(Refusal::BufferTooSmall));
    assert_eq!(buffer, [7; IMAGE_SIZE + 1]);
    assert_eq!(park_fresh(&mut buffer), Ok(IMAGE_SIZE));
    assert_eq!(
        (&buffer[..IMAGE_SIZE], buffer[IMAGE_SIZE]),
        (&Board::fresh().image()[..], 7)
    );
}

#[test]
fn the_controller_keeps_its_words() {
    let mut controller = Controller::from_words(0x1234, 0x5678, 0x9ABC);
    let words = |controller: &Controller| (controller.pending(), controller.enable_mask(), controller.levels());
    assert_eq!(words(&controller), (0x1234, 0x5678, 0x9ABC));
    controller.set_source(0, true);
    assert_eq!(words(&controller), (0x1235, 0x5678, 0x9ABD));
    controller.write(4, 0xFF);
    assert_eq!(words(&controller), (0x1235, 0xFF78, 0x9ABD));
    controller.reset();
    assert_eq!(controller, Controller::default());
    assert_eq!(controller.size(), 16);
}
