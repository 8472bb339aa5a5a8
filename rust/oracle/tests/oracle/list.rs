//! The call list: decoding, the order of the refusals, the answer buffer.

use calls::{answer_length, list_of, tags, value_length, Call, Outcome, Refusal, HEADER_LENGTH};
use oracle::fields::Fields;

use crate::support::*;

/// Document 01's table: tag, length of the value, length of the answer; S-4 adds four counts of 16 bytes to that of 04.
const LENGTHS: [(u8, usize, usize); 10] = [
    (0x01, 12, 0),
    (0x02, 2, 1),
    (0x03, 3, 0),
    (0x04, 8, 65),
    (0x05, 0, 25),
    (0x06, 0, 9),
    (0x07, 2, 0),
    (0x08, 4, 1),
    (0x09, 5, 0),
    (0x0A, 0, 2),
];

fn refusal(list: &[u8]) -> u8 {
    let (outcome, answers, board) = run_fresh(list);
    assert_eq!((outcome.calls, outcome.list_bytes, answers.len()), (0, 0, 0));
    assert_eq!(board.fields(), Fields::fresh());
    outcome.refusal_number()
}

#[test]
fn tags_and_lengths_are_document_01s() {
    assert!(tags().eq(LENGTHS.map(|lengths| lengths.0)));
    for tag in 0..=255 {
        let known = LENGTHS.iter().find(|lengths| lengths.0 == tag);
        assert_eq!(value_length(tag), known.map(|lengths| lengths.1));
        assert_eq!(answer_length(tag), known.map(|lengths| lengths.2));
        for length in 0..=300_u16 {
            let mut list = vec![0; HEADER_LENGTH + usize::from(length)];
            list[0] = tag;
            list[1..3].copy_from_slice(&length.to_be_bytes());
            let Some(&(_, value, answer)) = known else {
                assert_eq!(refusal(&list), 3);
                continue;
            };
            if usize::from(length) != value {
                assert_eq!(refusal(&list), 4);
                continue;
            }
            let (outcome, answers, _) = run_fresh(&list);
            let expected = Outcome {
                calls: 1,
                list_bytes: list.len(),
                answer_bytes: HEADER_LENGTH + answer,
                refusal: None,
            };
            assert_eq!(outcome, expected);
            assert_eq!(answers[..3], [tag, 0, answer as u8]);
        }
    }
}

#[test]
fn refusals_of_a_call_in_order() {
    // One or two bytes left, of a known tag or not.
    for list in [&[0x05][..], &[0x05, 0], &[0xFF], &[0xFF, 0xFF]] {
        assert_eq!(refusal(list), 2);
    }
    // An unknown tag before its length and its value.
    for list in [[0x00, 0, 0], [0x0B, 0, 9], [0xFF, 0xFF, 0xFF]] {
        assert_eq!(refusal(&list), 3);
    }
    // A wrong length before a cut value.
    for list in [
        &[0x04, 0, 7][..],
        &[0x04, 0, 9],
        &[0x04, 1, 8],
        &[0x05, 0, 1],
        &[0x03, 0, 2, 0, 0],
    ] {
        assert_eq!(refusal(list), 4);
    }
    // A cut value before the call's own.
    for list in [
        &[0x04, 0, 8][..],
        &[0x04, 0, 8, 0, 0, 0, 0, 0, 0, 0],
        &[0x03, 0, 3, 0xFF, 0xFF],
    ] {
        assert_eq!(refusal(list), 5);
    }
}

#[test]
fn refusals_of_the_calls_own() {
    let cases = [
        (Call::Read { address: 0x380 }, 6),
        (
            Call::Write {
                address: 0x380,
                byte: 0,
            },
            6,
        ),
        (Call::Read { address: 0xFFFF }, 6),
        (Call::Read { address: 0x37F }, 0),
        (
            Call::Write {
                address: 0x37F,
                byte: 0,
            },
            0,
        ),
        (
            Call::HostTime {
                seconds: 0,
                nanoseconds: SECOND as u32,
            },
            7,
        ),
        (
            Call::HostTime {
                seconds: u64::MAX,
                nanoseconds: SECOND as u32 - 1,
            },
            0,
        ),
        (Call::Source { number: 16, level: 2 }, 8),
        (Call::Source { number: 255, level: 0 }, 8),
        (Call::Source { number: 3, level: 2 }, 9),
        (Call::Source { number: 3, level: 0 }, 9),
        (Call::Source { number: 15, level: 2 }, 10),
        (Call::Source { number: 0, level: 255 }, 10),
        (Call::Source { number: 15, level: 1 }, 0),
        (Call::ControllerRead { address: u32::MAX }, 0),
    ];
    for (call, expected) in cases {
        let mut board = Board::fresh();
        let reply = board.call(call);
        assert_eq!(number(&reply), expected, "{call:?}");
        assert_eq!(reply.answer, call.zero_answer());
        if expected != 0 {
            assert_eq!(board.fields(), Fields::fresh());
            // The call's own refusal comes before 11.
            let outcome = run(&mut board, &call.encode(), &mut []);
            assert_eq!(outcome.refusal_number(), expected);
        }
    }
}

#[test]
fn an_answer_longer_than_the_rest_is_refused_with_11() {
    let first = Call::Write { address: 0x83, byte: 7 };
    for call in CALLS {
        let list = list_of(&[first, call]);
        let whole = first.answer_bytes() + call.answer_bytes();
        for length in 0..whole + 2 {
            let mut board = Board::fresh();
            let mut buffer = vec![0xEE; length];
            let outcome = run(&mut board, &list, &mut buffer);
            let done = usize::from(length >= 3) + usize::from(length >= whole);
            let expected = Outcome {
                calls: done,
                list_bytes: [0, 6, list.len()][done],
                answer_bytes: [0, 3, whole][done],
                refusal: if done == 2 { None } else { Some(Refusal::BufferTooSmall) },
            };
            assert_eq!(outcome, expected, "{call:?} into {length}");
            // The board is that of the calls done, and the other bytes of the buffer stay.
            let mut direct = Board::fresh();
            for &call in &[first, call][..done] {
                accepted(&mut direct, call);
            }
            assert_eq!(board.fields(), direct.fields());
            assert!(buffer[outcome.answer_bytes..].iter().all(|&byte| byte == 0xEE));
        }
    }
}

#[test]
fn a_list_cut_anywhere_does_its_whole_calls() {
    let calls = [
        Call::Advance { cycles: 5 },
        Call::Output,
        Call::Write { address: 7, byte: 1 },
        Call::Skip,
    ];
    let list = list_of(&calls);
    let ends = [0, 11, 14, 20, 23];
    for length in 0..=list.len() {
        let (outcome, _, _) = run_fresh(&list[..length]);
        let calls = ends.iter().filter(|&&end| end > 0 && end <= length).count();
        let rest = length - ends[calls];
        let refusal = match rest {
            0 => 0,
            1 | 2 => 2,
            _ => 5,
        };
        assert_eq!(
            (outcome.calls, outcome.list_bytes, outcome.refusal_number()),
            (calls, ends[calls], refusal)
        );
    }
}
