//! The example prints what document 01's rules give: a tick every 3 cycles and a match every 10 ticks, so an interrupt
//! every 30 cycles. Friday ends 13 cycles after the first one, and 17 are left on Monday. A million cycles from the
//! third one on are 33,333 periods and 10 cycles.

use std::fs;
use std::path::{Path, PathBuf};
use std::process::{Command, Output};

use pec::{image_form, list_of, Board, Call, Form};

fn example(arguments: &[&str]) -> Output {
    Command::new(env!("CARGO"))
        .args(["run", "--offline", "--quiet", "--example", "deadline", "--"])
        .args(arguments)
        .current_dir(env!("CARGO_MANIFEST_DIR"))
        .output()
        .expect("cargo runs")
}

/// An empty folder for one test.
fn folder(name: &str) -> PathBuf {
    let folder = PathBuf::from(env!("CARGO_TARGET_TMPDIR")).join(name);
    if folder.exists() {
        fs::remove_dir_all(&folder).expect("the folder of an earlier test goes");
    }
    fs::create_dir(&folder).expect("the folder can be made");
    folder
}

#[test]
fn the_example_prints_both_days_and_leaves_fridays_board() {
    let folder = folder("example");
    let image = folder.join("board");
    // An older image, and what a crash left while parking, are replaced.
    fs::write(&image, b"old").expect("the file can be written");
    fs::write(folder.join("board.new"), [7; 1_000]).expect("the file can be written");
    let output = example(&[image.to_str().expect("the path is text")]);
    let text = String::from_utf8(output.stdout).expect("the example prints text");
    // Answers of 3 bytes for eight writes, 28 for two deadlines, 12 for three skips and 68 for two advances.
    let expected = "Friday\ndeadline: 30\ninterrupt after 30 cycles, line 1\n\
                    advanced, line 0, 0 matches of channel 0\n\
                    Monday\ndeadline: 17\ninterrupt after 17 cycles, line 1\ninterrupt after 30 cycles, line 1\n\
                    advanced, line 1, 33333 matches of channel 0\n\
                    one record of 252 bytes\n";
    assert_eq!(text, expected);
    assert!(output.status.success());
    let files = fs::read_dir(&folder).expect("the folder is there");
    assert_eq!(files.count(), 1, "nothing stands beside the image");
    let mut board = Board::from_image(&fs::read(&image).expect("the image is there")).expect("it is an image");
    let mut answer = [0; 28];
    assert_eq!(board.run(&list_of(&[Call::Deadline]), &mut answer).refusal, None);
    // The record's header, present, D in 16 bytes and the 64-bit deadline.
    assert_eq!((answer[3], answer[19], answer[27]), (1, 17, 17));
}

#[test]
fn the_example_takes_up_an_image_of_either_form() {
    let folder = folder("example-earlier");
    let board = folder.join("board");
    let path = |path: &Path| path.to_str().expect("the path is text").to_string();
    let friday = Path::new(env!("CARGO_MANIFEST_DIR")).join("tests/images/friday.image");
    // Friday's image, parked by the library of S-1; and then the image that the example made of it, which has the rate.
    let parked = folder.join("parked");
    for (earlier, form) in [(&friday, "old"), (&parked, "new")] {
        let output = example(&[&path(&board), &path(earlier)]);
        let text = String::from_utf8(output.stdout).expect("the example prints text");
        let expected = format!(
            "Friday\nan image of the {form} form, 48000000 cycles a second\n\
             Monday\ndeadline: 17\ninterrupt after 17 cycles, line 1\ninterrupt after 30 cycles, line 1\n\
             advanced, line 1, 33333 matches of channel 0\n\
             one record of 126 bytes\n"
        );
        assert_eq!(text, expected);
        assert!(output.status.success());
        fs::rename(&board, &parked).expect("the image is there");
        let image = fs::read(&parked).expect("the image is there");
        assert_eq!(image_form(&image), Ok(Form::New));
        assert_eq!(image[7..], fs::read(&friday).expect("it is there"));
    }
}

#[test]
fn the_example_tells_what_it_cannot_read() {
    let folder = folder("example-unread");
    let board = folder.join("board");
    let images = Path::new(env!("CARGO_MANIFEST_DIR")).join("tests/images");
    let old = fs::read(images.join("friday.image")).expect("it is there");
    // Cut, and not sound: timer enable is 16.
    fs::write(folder.join("cut"), &old[1..]).expect("the file can be written");
    let mut unsound = old.clone();
    unsound[4 * 38 + 3] = 16;
    fs::write(folder.join("unsound"), &unsound).expect("the file can be written");
    for (name, reason) in [
        ("missing", "No such file"),
        ("cut", "the image is malformed"),
        ("unsound", "the board is not sound"),
    ] {
        let earlier = folder.join(name);
        let earlier = earlier.to_str().expect("the path is text");
        let output = example(&[board.to_str().expect("the path is text"), earlier]);
        let text = String::from_utf8(output.stderr).expect("the example prints text");
        assert_eq!(output.status.code(), Some(1), "{text}");
        assert!(text.starts_with(&format!("deadline: {earlier}: {reason}")), "{text}");
        assert!(!board.exists(), "{name}");
    }
    // Monday's skip over a board whose deadline is too large.
    let far = images.join("far.image");
    let output = example(&[&board, &far].map(|path| path.to_str().expect("the path is text")));
    let text = String::from_utf8(output.stderr).expect("the example prints text");
    assert_eq!(output.status.code(), Some(1), "{text}");
    assert!(
        text.starts_with("deadline: Skip was refused: the deadline is above 2^64 - 1"),
        "{text}"
    );
}

#[test]
fn the_example_tells_what_it_cannot_write() {
    let folder = folder("example-refused");
    let missing = folder.join("missing").join("board");
    let missing = missing.to_str().expect("the path is text");
    for (arguments, message) in [
        (&[missing][..], format!("deadline: {missing}: ")),
        (&[], "usage: deadline IMAGE".to_string()),
        (&[missing, missing], format!("deadline: {missing}: ")),
        (
            &[missing, missing, missing],
            "usage: deadline IMAGE [FRIDAY]".to_string(),
        ),
    ] {
        let output = example(arguments);
        let text = String::from_utf8(output.stderr).expect("the example prints text");
        assert_eq!(output.status.code(), Some(1), "{text}");
        assert!(text.starts_with(&message), "{text}");
    }
    // A directory in the image's place stays, and so does what is in it; nothing is left beside it.
    let taken = folder.join("taken");
    fs::create_dir(&taken).expect("the folder can be made");
    fs::write(taken.join("file"), b"kept").expect("the file can be written");
    let name = taken.to_str().expect("the path is text");
    let output = example(&[name]);
    let text = String::from_utf8(output.stderr).expect("the example prints text");
    assert_eq!(output.status.code(), Some(1), "{text}");
    assert!(text.starts_with(&format!("deadline: {name}: ")), "{text}");
    assert_eq!(fs::read(taken.join("file")).expect("it is there"), b"kept");
    let files = fs::read_dir(&folder).expect("the folder is there");
    assert_eq!(files.count(), 1, "nothing stands beside it");
}
