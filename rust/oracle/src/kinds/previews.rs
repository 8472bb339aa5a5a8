//! The measured previews, 1,000 totals from one look, and beside them an advance of a copy of the board for each total:
//! of the proved board by its image, and of the Rust by its state.

use std::hint::black_box;

use calls::{Call, HEADER_LENGTH};
use pec::{preview_parked, run_parked, IMAGE_SIZE};

use super::parking::board;
use super::{Group, Operation};
use crate::board::{Board, Devices};
use crate::generate::Random;
use crate::image::read_image;
use crate::timing::At48;

pub const GROUP: Group = Group {
    name: "previews",
    title: "Previews; an operation is that of one total, but for the look without totals",
    ratio: "ratio to an advance of a copy of the Rust's board",
    operations: &[
        Operation {
            name: "a total, 1,000 of them on one look",
            repeat: preview_totals,
        },
        Operation {
            name: "a look without totals",
            repeat: look,
        },
        Operation {
            name: "an advance of a copy of the proved board",
            repeat: advance_proved_copies,
        },
        Operation {
            name: "an advance of a copy of the Rust's board",
            repeat: advance_rust_copies,
        },
    ],
};

/// The totals of one look.
const TOTALS: usize = 1_000;

/// The same totals each time, within some periods of the board's channels.
fn totals() -> Vec<u64> {
    let mut random = Random::new(1);
    (0..TOTALS).map(|_| random.below(5_000)).collect()
}

/// The Rust's board, made from the image of the proved one.
fn rust_board(image: &[u8]) -> Devices<At48> {
    let (_, fields) = read_image(image).expect("a board's own image is accepted");
    match Board::from_fields(&fields) {
        Board::Sound(devices) => devices,
        Board::Unsound(_) => unreachable!("an accepted image is of a sound board"),
    }
}

/// The line after an advance of a copy of a parked board. The list is a buffer for the call.
fn proved_line_after(image: &[u8; IMAGE_SIZE], cycles: u64, list: &mut Vec<u8>) -> bool {
    list.clear();
    Call::Advance { cycles }.encode_into(list);
    let (mut copy, mut answer) = (*image, [0; 68]);
    let outcome = run_parked(&mut copy, list, &mut answer);
    assert_eq!((outcome.calls, outcome.refusal), (1, None));
    answer[HEADER_LENGTH] == 1
}

/// Whether the previews of the totals are what the advances of copies show, some low and some high.
pub fn agree() -> bool {
    let image = *board().image();
    let (rust, totals) = (rust_board(&image), totals());
    let (mut high, mut list) = ([7; TOTALS], Vec::new());
    let previewed = preview_parked(&image, &totals, &mut high);
    let copies = totals.iter().zip(high).all(|(total, high)| {
        [proved_line_after(&image, *total, &mut list), rust.line_after(*total)] == [high == 1; 2]
    });
    previewed.is_ok() && copies && high.contains(&0) && high.contains(&1)
}

/// Previews a number of totals, 1,000 from each look.
fn preview_totals(times: u64) {
    let (image, totals) = (*board().image(), totals());
    let mut high = [0; TOTALS];
    for _ in 0..times / TOTALS as u64 {
        assert_eq!(preview_parked(black_box(&image), black_box(&totals), &mut high), Ok(()));
        black_box(&high);
    }
}

/// Previews no totals: reading the image and finding the deadline are all the work.
fn look(times: u64) {
    let image = *board().image();
    for _ in 0..times {
        assert_eq!(preview_parked(black_box(&image), &[], &mut []), Ok(()));
    }
}

fn advance_proved_copies(times: u64) {
    let (image, totals) = (*board().image(), totals());
    let mut list = Vec::new();
    for total in totals.iter().cycle().take(times as usize) {
        black_box(proved_line_after(black_box(&image), *total, &mut list));
    }
}

fn advance_rust_copies(times: u64) {
    let (board, totals) = (rust_board(board().image()), totals());
    for total in totals.iter().cycle().take(times as usize) {
        black_box(black_box(&board).line_after(*total));
    }
}
