//! The built program, which must behave as `listrun`.

use std::io::Write;
use std::process::{Command, Output, Stdio};

use calls::{list_of, Call};
use oracle::generate;

/// Runs the program on the input and gives what it prints.
fn oracle(arguments: &[&str], input: &[u8]) -> Output {
    let mut child = Command::new(env!("CARGO_BIN_EXE_oracle"))
        .args(arguments)
        .stdin(Stdio::piped())
        .stdout(Stdio::piped())
        .stderr(Stdio::piped())
        .spawn()
        .unwrap();
    child.stdin.take().unwrap().write_all(input).unwrap();
    child.wait_with_output().unwrap()
}

pub fn printed(input: &[u8]) -> String {
    let output = oracle(&[], input);
    assert!(output.status.success());
    String::from_utf8(output.stdout).unwrap()
}

#[test]
fn example_of_document_01() {
    let input = [
        0x02, 0x00, 0x02, 0x00, 0x83, 0x04, 0x00, 0x08, 0, 0, 0, 0, 0, 0, 0, 1, 0x0A, 0x00, 0x00, 0xFF,
    ];
    // S-4: "document 01's listing gains 128 zeros on its second line".
    let zeros = "0".repeat(128);
    assert_eq!(printed(&input), format!("02 01\n04 00{zeros}\n0a 0000\nend 3 2 19\n"));
}

#[test]
fn empty_answers_and_wide_ones_are_printed() {
    let list = list_of(&[
        Call::HostTime {
            seconds: 1,
            nanoseconds: 2,
        },
        Call::Deadline,
        Call::Skip,
        Call::Read { address: 0x380 },
    ]);
    // Bytes used: 15 + 3 + 3.
    let zeros = "0".repeat(50);
    assert_eq!(
        printed(&list),
        format!("01 -\n05 {zeros}\n06 000000000000000000\nend 3 6 21\n")
    );
}

#[test]
fn empty_list() {
    assert_eq!(printed(&[]), "end 0 0 0\n");
}

#[test]
fn longest_list_and_one_byte_more() {
    // 6,553 calls of five bytes and three bytes of an unknown tag: 6,553 * 5 + 3 = 32,768.
    let sources = list_of(&[Call::Source { number: 0, level: 0 }]).repeat(6_553);
    let mut list = [&sources[..], &[0, 0, 0]].concat();
    assert_eq!(list.len(), 32_768);
    let text = printed(&list);
    assert_eq!(text, format!("{}end 6553 3 32765\n", "07 -\n".repeat(6_553)));
    list.push(0);
    assert_eq!(printed(&list), "too long\n");
}

#[test]
fn answers_past_the_buffer_are_refused() {
    // A deadline's record has 28 bytes; 1,170 of them fill 32,760 bytes and the next does not fit.
    let text = printed(&list_of(&[Call::Deadline]).repeat(1_171));
    assert_eq!(text.lines().count(), 1_171);
    assert!(text.ends_with("\nend 1170 11 3510\n"));
}

#[test]
fn generated_lists_are_printed_by_seed() {
    for seed in [0, 7, u64::MAX] {
        let output = oracle(&["generate", &seed.to_string()], &[]);
        assert!(output.status.success());
        assert_eq!(output.stdout, generate::list(seed).list);
    }
    for arguments in [&["generate"][..], &["generate", "x"], &["other"]] {
        assert!(!oracle(arguments, &[]).status.success());
    }
}
