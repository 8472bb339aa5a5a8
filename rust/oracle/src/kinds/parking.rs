//! The measured work on parked boards, and beside it the same call inside a long list. All of it is the proved board's:
//! the Rust has no images.

use std::hint::black_box;

use calls::{list_of, Call};
use pec::{
    image_refusal, move_back, move_forward, park_fresh, run_parked, run_repeated, Board, IMAGE_SIZE, OLD_IMAGE_SIZE,
};

use super::{running, Group, Operation, BUFFER, CALLS};

pub const GROUP: Group = Group {
    name: "parking",
    title: "Parked boards, the proved board alone",
    ratio: "ratio to an advance in a list",
    operations: &[
        Operation {
            name: "write an image",
            repeat: write_images,
        },
        Operation {
            name: "read an image",
            repeat: read_images,
        },
        Operation {
            name: "read an old image",
            repeat: read_old_images,
        },
        Operation {
            name: "move an image forward",
            repeat: move_forward_images,
        },
        Operation {
            name: "move an image back",
            repeat: move_back_images,
        },
        Operation {
            name: "an advance over a parked board",
            repeat: advance_parked,
        },
        Operation {
            name: "the same advance in a long list",
            repeat: advance_in_lists,
        },
    ],
};

/// The advance that is measured, over some periods of the periodic channels.
const ADVANCE: Call = Call::Advance { cycles: 2_500 };

/// A board with four running channels and an alarm.
pub(super) fn board() -> Board {
    let mut board = Board::fresh();
    let outcome = board.run(&list_of(&running(0)), &mut vec![0; BUFFER]);
    assert_eq!(outcome.refusal, None);
    board
}

/// Writes the fresh board's image.
fn write_images(times: u64) {
    let mut image = [0; IMAGE_SIZE];
    for _ in 0..times {
        assert_eq!(park_fresh(black_box(&mut image)), Ok(IMAGE_SIZE));
    }
}

/// Reads the image of a board with every channel running.
fn read_images(times: u64) {
    let image = *board().image();
    for _ in 0..times {
        assert_eq!(image_refusal(black_box(&image)), None);
    }
}

/// The same board's image in the old form.
fn old_image() -> [u8; OLD_IMAGE_SIZE] {
    board().old_image().expect("the board has the rate of the old form")
}

fn read_old_images(times: u64) {
    let image = old_image();
    for _ in 0..times {
        assert_eq!(image_refusal(black_box(&image)), None);
    }
}

/// Moves that board's image to the new form: reads it, and writes it.
fn move_forward_images(times: u64) {
    let (image, mut moved) = (old_image(), [0; IMAGE_SIZE]);
    for _ in 0..times {
        assert_eq!(move_forward(black_box(&image), black_box(&mut moved)), Ok(IMAGE_SIZE));
    }
}

/// The same to the old form.
fn move_back_images(times: u64) {
    let (image, mut moved) = (*board().image(), [0; OLD_IMAGE_SIZE]);
    for _ in 0..times {
        assert_eq!(move_back(black_box(&image), black_box(&mut moved)), Ok(OLD_IMAGE_SIZE));
    }
}

/// Runs a list of one advance over a parked board: reads its image, and writes it.
fn advance_parked(times: u64) {
    let mut image = *board().image();
    let list = ADVANCE.encode();
    let mut answers = vec![0; ADVANCE.answer_bytes()];
    for _ in 0..times {
        let outcome = run_parked(black_box(&mut image), &list, &mut answers);
        assert_eq!((outcome.calls, outcome.refusal), (1, None));
    }
}

/// The same in lists of many advances, over the same board.
fn advance_in_lists(times: u64) {
    let list = list_of(&[ADVANCE; CALLS]);
    let mut answers = vec![0; BUFFER];
    let lists = times / CALLS as u64;
    let outcome = run_repeated(&list_of(&running(0)), &list, lists, &mut answers);
    assert_eq!((outcome.calls, outcome.refusal), (CALLS, None));
}
