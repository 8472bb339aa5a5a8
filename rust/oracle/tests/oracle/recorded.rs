//! The recording that crates/replay replays: the committed files, what they cover, and the counts that the program
//! must print.

use std::collections::BTreeSet;
use std::fs;
use std::path::{Path, PathBuf};

use calls::{answers, Answer};
use oracle::record::{recordings, Coverage};

fn replay() -> PathBuf {
    Path::new(env!("CARGO_MANIFEST_DIR")).join("../../crates/replay")
}

#[test]
fn committed_files_are_what_the_recorder_makes() {
    let recordings = recordings();
    for recording in &recordings {
        let committed = fs::read(replay().join("data").join(recording.name)).unwrap();
        assert!(committed == recording.encode(), "{} is another file", recording.name);
    }
    let names: Vec<&str> = recordings.iter().map(|recording| recording.name).collect();
    let files: BTreeSet<String> = fs::read_dir(replay().join("data"))
        .unwrap()
        .map(|entry| entry.unwrap().file_name().into_string().unwrap())
        .collect();
    assert_eq!(files, names.iter().map(|name| name.to_string()).collect());
    let arguments = fs::read_to_string(replay().join("args")).unwrap();
    assert_eq!(arguments.lines().collect::<Vec<_>>(), names);
}

#[test]
fn recording_covers_tags_registers_and_refusals() {
    let coverage = Coverage::of(&recordings());
    assert!(coverage.calls >= 20_000, "{} calls", coverage.calls);
    assert_eq!(coverage.tags, (0x01..=0x0A).collect());
    assert_eq!(coverage.read, (0x000..0x380).collect());
    assert_eq!(coverage.written, (0x000..0x380).collect());
    // 12 is a refusal of images only.
    assert_eq!(coverage.refusals, (0..=11).chain([13]).collect());
}

#[test]
fn refused_skips_are_recorded_into_full_buffers_and_with_room() {
    let recordings = recordings();
    // Seven forms of four channels and one of the alarm; every length from none to one byte past 12 + 5.
    for (name, expected) in [("refusals", 29), ("short-buffers", 19)] {
        let recording = recordings.iter().find(|recording| recording.name == name).unwrap();
        let refused = recording
            .records
            .iter()
            .filter(|record| record.outcome.refusal_number() == 13);
        let rooms: Vec<usize> = refused
            .map(|record| record.start.buffer - record.outcome.answer_bytes)
            .collect();
        assert_eq!(rooms.len(), expected, "{name}");
        // A skip's record has 12 bytes.
        let full = rooms.iter().filter(|&&room| room < 12).count();
        assert!(full > 5 && rooms.len() - full > 5, "{name}: {rooms:?}");
    }
}

#[test]
fn counts_of_matches_are_recorded() {
    // 0, 1, up to 2^32 and more, of each channel.
    let mut seen = [[0; 4]; 4];
    let mut advances = Vec::new();
    for record in recordings().iter().flat_map(|recording| &recording.records) {
        for record in answers(&record.answers) {
            if let (_, Answer::Advance { matches, .. }) = record.unwrap() {
                advances.push(matches);
            }
        }
    }
    for (number, seen) in seen.iter_mut().enumerate() {
        for count in advances.iter().map(|matches| matches[number]) {
            seen[[1, 2, (1 << 32) + 1].iter().filter(|limit| count >= **limit).count()] += 1;
        }
    }
    assert!(seen.iter().flatten().all(|&count| count > 10), "{seen:?}");
    // The last advance of the short buffers: every number, every second one, a one-shot, and none.
    assert!(advances.contains(&[1 << 64, 1 << 63, 1, 0]));
}

#[test]
fn stored_output_has_the_recorded_counts() {
    let shares = |coverage: &Coverage| {
        let (calls, lists) = (coverage.calls, coverage.records);
        format!("{calls} of {calls} calls agree, in lists: {lists}\n")
    };
    let recordings = recordings();
    let mut text: String = recordings
        .iter()
        .map(|recording| format!("{}: {}", recording.name, shares(&Coverage::of([recording]))))
        .collect();
    text.push_str(&format!("all agree: {}", shares(&Coverage::of(&recordings))));
    assert_eq!(fs::read_to_string(replay().join("stdout")).unwrap(), text);
}
