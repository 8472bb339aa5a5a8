//! The images in `tests/images`, which the library of S-1 wrote in the old form: they are unchanged, are read, answer
//! the recorded deadlines, and are moved to the new form and back.

use std::fs;
use std::path::{Path, PathBuf};
use std::process::Command;

use pec::{
    answers, image_form, image_refusal, list_of, move_back, move_forward, run_parked, Answer, Board, Call, Form,
    DEFAULT_RATE, IMAGE_SIZE, OLD_IMAGE_SIZE,
};

/// The digest of `SHA256SUMS`.
const DIGESTS: &str = "025af03d3db7b364ffdbe1db6217390bf1a0f63f39ed05e7c9d64228f3744af4";

fn folder() -> PathBuf {
    Path::new(env!("CARGO_MANIFEST_DIR")).join("tests/images")
}

/// The images by name, with the deadlines of README.md: present, exact and capped.
fn images() -> Vec<(String, Vec<u8>, Answer)> {
    let text = fs::read_to_string(folder().join("README.md")).expect("the record is there");
    let rows = text
        .lines()
        .filter(|line| line.starts_with("| ") && line.contains(".image |"));
    rows.map(|row| {
        let cells: Vec<&str> = row.trim_matches('|').split('|').map(str::trim).collect();
        let [name, present, exact, capped] = cells[..] else {
            panic!("{row}")
        };
        let deadline = Answer::Deadline {
            present: present == "1",
            exact: exact.parse().expect("decimal"),
            capped: capped.parse().expect("decimal"),
        };
        let image = fs::read(folder().join(name)).unwrap_or_else(|error| panic!("{name}: {error}"));
        (name.to_string(), image, deadline)
    })
    .collect()
}

#[test]
fn the_images_are_as_the_library_of_s_1_wrote_them() {
    let files = fs::read_dir(folder()).expect("the folder is there");
    let names = files.map(|file| file.expect("it can be read").file_name());
    let count = names.filter(|name| name.to_string_lossy().ends_with(".image")).count();
    assert_eq!((count, images().len()), (8, 8));
    let output = Command::new("sha256sum")
        .args(["--strict", "-c", "SHA256SUMS"])
        .env("LC_ALL", "C")
        .current_dir(folder())
        .output()
        .expect("sha256sum runs");
    let text = String::from_utf8(output.stdout).expect("sha256sum prints text");
    assert!(output.status.success(), "{text}");
    // A missing line would leave its file unchecked.
    assert_eq!(text.lines().filter(|line| line.ends_with(".image: OK")).count(), count);
    // The list of digests is unchanged too.
    let output = Command::new("sha256sum")
        .arg("SHA256SUMS")
        .current_dir(folder())
        .output()
        .expect("sha256sum runs");
    let text = String::from_utf8(output.stdout).expect("sha256sum prints text");
    assert_eq!(text.split_whitespace().next(), Some(DIGESTS));
}

#[test]
fn each_is_read_as_the_old_form_and_answers_its_deadline() {
    for (name, image, deadline) in images() {
        assert_eq!(image.len(), OLD_IMAGE_SIZE, "{name}");
        assert_eq!(
            (image_refusal(&image), image_form(&image)),
            (None, Ok(Form::Old)),
            "{name}"
        );
        let mut asked = image.clone();
        let mut buffer = [0; 28];
        let outcome = run_parked(&mut asked, &list_of(&[Call::Deadline]), &mut buffer);
        assert_eq!((outcome.calls, outcome.refusal), (1, None), "{name}");
        assert_eq!(answers(&buffer).next(), Some(Ok((0x05, deadline))), "{name}");
        // The question changes nothing.
        assert_eq!(asked, image, "{name}");
    }
}

#[test]
fn each_goes_forward_and_back_to_the_same_bytes() {
    for (name, image, deadline) in images() {
        let (mut new, mut back) = ([7; IMAGE_SIZE], [7; OLD_IMAGE_SIZE]);
        assert_eq!(move_forward(&image, &mut new), Ok(IMAGE_SIZE), "{name}");
        assert_eq!(image_form(&new), Ok(Form::New), "{name}");
        assert_eq!(move_back(&new, &mut back), Ok(OLD_IMAGE_SIZE), "{name}");
        assert_eq!(back[..], image, "{name}");

        let mut board = Board::from_image(&image).expect("an old image is read");
        assert_eq!((board.rate(), board.image()), (DEFAULT_RATE, &new), "{name}");
        assert_eq!(board.old_image(), Ok(back), "{name}");
        let mut buffer = [0; 28];
        assert_eq!(board.run(&list_of(&[Call::Deadline]), &mut buffer).refusal, None);
        assert_eq!(answers(&buffer).next(), Some(Ok((0x05, deadline))), "{name}");
    }
}
