//! The bytes of every call and answer, and bytes that are neither.

use calls::{
    answers, list_of, tags, Answer, Call, DamagedAnswers, Fault, Outcome, Refusal, HEADER_LENGTH, LINE_SOURCE,
    NANOSECONDS_PER_SECOND,
};

/// A call of each tag, its bytes, its answer with members that show their places, and that answer's bytes.
fn examples() -> Vec<(Call, Vec<u8>, Answer, Vec<u8>)> {
    let deadline = Answer::Deadline {
        present: true,
        exact: 0x0203_0405_0607_0809_0A0B_0C0D_0E0F_1011,
        capped: 0x1213_1415_1617_1819,
    };
    let skip = Answer::Skip {
        passed: 0x0203_0405_0607_0809,
        line: true,
    };
    let mut deadline_bytes = vec![5, 0, 25];
    deadline_bytes.extend(1..=25);
    // The largest count, 2^64, and three that fit in the lower eight bytes.
    let advance = Answer::Advance {
        line: true,
        matches: [
            1 << 64,
            0x0203_0405_0607_0809,
            0x0A0B_0C0D_0E0F_1011,
            0x1213_1415_1617_1819,
        ],
    };
    let advance_bytes = [
        &[4, 0, 65, 1][..],
        &[0, 0, 0, 0, 0, 0, 0, 1, 0, 0, 0, 0, 0, 0, 0, 0],
        &[0, 0, 0, 0, 0, 0, 0, 0, 2, 3, 4, 5, 6, 7, 8, 9],
        &[0, 0, 0, 0, 0, 0, 0, 0, 10, 11, 12, 13, 14, 15, 16, 17],
        &[0, 0, 0, 0, 0, 0, 0, 0, 18, 19, 20, 21, 22, 23, 24, 25],
    ]
    .concat();
    vec![
        (
            Call::HostTime {
                seconds: 0x0102_0304_0506_0708,
                nanoseconds: 0x090A_0B0C,
            },
            vec![1, 0, 12, 1, 2, 3, 4, 5, 6, 7, 8, 9, 10, 11, 12],
            Answer::Empty,
            vec![1, 0, 0],
        ),
        (
            Call::Read { address: 0x0102 },
            vec![2, 0, 2, 1, 2],
            Answer::Byte(2),
            vec![2, 0, 1, 2],
        ),
        (
            Call::Write {
                address: 0x0102,
                byte: 3,
            },
            vec![3, 0, 3, 1, 2, 3],
            Answer::Empty,
            vec![3, 0, 0],
        ),
        (
            Call::Advance {
                cycles: 0x0102_0304_0506_0708,
            },
            vec![4, 0, 8, 1, 2, 3, 4, 5, 6, 7, 8],
            advance,
            advance_bytes,
        ),
        (Call::Deadline, vec![5, 0, 0], deadline, deadline_bytes),
        (
            Call::Skip,
            vec![6, 0, 0],
            skip,
            vec![6, 0, 9, 2, 3, 4, 5, 6, 7, 8, 9, 1],
        ),
        (
            Call::Source { number: 1, level: 2 },
            vec![7, 0, 2, 1, 2],
            Answer::Empty,
            vec![7, 0, 0],
        ),
        (
            Call::ControllerRead { address: 0x0102_0304 },
            vec![8, 0, 4, 1, 2, 3, 4],
            Answer::Byte(2),
            vec![8, 0, 1, 2],
        ),
        (
            Call::ControllerWrite {
                address: 0x0102_0304,
                byte: 5,
            },
            vec![9, 0, 5, 1, 2, 3, 4, 5],
            Answer::Empty,
            vec![9, 0, 0],
        ),
        (
            Call::Output,
            vec![10, 0, 0],
            Answer::Output { valid: true, number: 2 },
            vec![10, 0, 2, 1, 2],
        ),
    ]
}

/// What `answers` gives for a buffer.
fn decoded(buffer: &[u8]) -> Result<Vec<(u8, Answer)>, DamagedAnswers> {
    answers(buffer).collect()
}

#[test]
fn calls_and_answers_are_big_endian_and_come_back_whole() {
    let examples = examples();
    assert!(tags().eq(examples.iter().map(|(call, ..)| call.tag())));
    for (call, bytes, answer, record) in &examples {
        assert_eq!(call.encode(), *bytes);
        assert_eq!(Call::decode(bytes), Ok((*call, bytes.len())));
        let tag = call.tag();
        assert_eq!(call.answer_bytes(), record.len());
        assert_eq!(answer.encode(tag), *record);
        assert_eq!(Answer::decode(record), Ok((tag, *answer, record.len())));
        // Every byte of the record is written.
        let mut stored = vec![0xEE; record.len()];
        answer.store(tag, &mut stored);
        assert_eq!(stored, *record);
        // The zero answer has the same form.
        let mut zeros = record.clone();
        zeros[HEADER_LENGTH..].fill(0);
        assert_eq!(call.zero_answer().encode(tag), zeros);
        assert_eq!(Answer::decode(&zeros), Ok((tag, call.zero_answer(), zeros.len())));
    }
    let calls: Vec<Call> = examples.iter().map(|(call, ..)| *call).collect();
    let list: Vec<u8> = examples.iter().flat_map(|(_, bytes, ..)| bytes.clone()).collect();
    assert_eq!(list_of(&calls), list);
    let buffer: Vec<u8> = examples.iter().flat_map(|(.., record)| record.clone()).collect();
    let expected = examples.iter().map(|(call, _, answer, _)| (call.tag(), *answer));
    assert_eq!(decoded(&buffer), Ok(expected.collect()));
    assert_eq!(decoded(&[]), Ok(vec![]));
}

#[test]
fn a_call_is_put_at_the_end_of_a_list() {
    let mut list = vec![0xFF];
    Call::Source { number: 1, level: 2 }.encode_into(&mut list);
    assert_eq!(list, [0xFF, 7, 0, 2, 1, 2]);
}

#[test]
fn what_is_no_call_is_refused_in_order() {
    for (list, refusal) in [
        (&[0x05][..], Refusal::TruncatedHeader),
        (&[0xFF, 0xFF], Refusal::TruncatedHeader),
        (&[0x00, 0, 0], Refusal::UnknownTag),
        (&[0x0B, 0, 9], Refusal::UnknownTag),
        (&[0x04, 0, 7], Refusal::WrongLength),
        (&[0x04, 1, 8], Refusal::WrongLength),
        (&[0x04, 0, 8], Refusal::TruncatedValue),
        (&[0x03, 0, 3, 0xFF, 0xFF], Refusal::TruncatedValue),
    ] {
        assert_eq!(Call::decode(list), Err(refusal), "{list:?}");
    }
}

#[test]
fn refusals_that_a_calls_value_decides_are_document_01s() {
    let host_time = |nanoseconds| Call::HostTime {
        seconds: 0,
        nanoseconds,
    };
    let source = |number, level| Call::Source { number, level };
    for (call, refusal) in [
        (host_time(NANOSECONDS_PER_SECOND - 1), None),
        (host_time(NANOSECONDS_PER_SECOND), Some(Refusal::NanosecondsOutOfRange)),
        (Call::Read { address: 0x37F }, None),
        (Call::Read { address: 0x380 }, Some(Refusal::AddressOutOfRange)),
        (
            Call::Write {
                address: 0x380,
                byte: 0,
            },
            Some(Refusal::AddressOutOfRange),
        ),
        (source(15, 1), None),
        (source(16, 2), Some(Refusal::SourceOutOfRange)),
        (source(LINE_SOURCE, 2), Some(Refusal::ReservedSource)),
        (source(15, 2), Some(Refusal::LevelOutOfRange)),
        (Call::ControllerRead { address: u32::MAX }, None),
        // Whether a skip is refused depends on the board.
        (Call::Skip, None),
    ] {
        assert_eq!(call.refusal(), refusal, "{call:?}");
    }
}

#[test]
fn a_damaged_buffer_gives_its_whole_answers_and_then_an_error() {
    let whole = [0x02, 0, 1, 7];
    for (end, fault, words) in [
        (
            &[0x04][..],
            Fault::Form(Refusal::TruncatedHeader),
            "one or two bytes are left, fewer than a tag and a length",
        ),
        (&[0x0B, 0, 0], Fault::Form(Refusal::UnknownTag), "the tag is unknown"),
        (
            // An advance's line without its counts.
            &[0x04, 0, 1, 0],
            Fault::Form(Refusal::WrongLength),
            "the length is not that of the tag",
        ),
        (&[0x02, 0, 1], Fault::Form(Refusal::TruncatedValue), "the value is cut"),
        (
            &[&[0x04, 0, 65][..], &[0; 64]].concat(),
            Fault::Form(Refusal::TruncatedValue),
            "the value is cut",
        ),
        (
            &[&[0x04, 0, 65, 2][..], &[0; 64]].concat(),
            Fault::InvalidFlag,
            "a flag is neither 0 nor 1",
        ),
    ] {
        let buffer = [&whole[..], end].concat();
        let mut records = answers(&buffer);
        assert_eq!(records.next(), Some(Ok((0x02, Answer::Byte(7)))));
        let error = DamagedAnswers { at: 4, fault };
        assert_eq!(error.to_string(), format!("no answer at byte 4: {words}"));
        assert_eq!(records.next(), Some(Err(error)));
        assert_eq!(records.next(), None);
        assert_eq!(decoded(&buffer), Err(error));
    }
}

#[test]
fn a_flag_of_any_answer_is_0_or_1() {
    // The places of the flags in the records of advance, deadline, skip and output.
    for (call, place) in [
        (Call::Advance { cycles: 0 }, 3),
        (Call::Deadline, 3),
        (Call::Skip, 11),
        (Call::Output, 3),
    ] {
        let mut record = call.zero_answer().encode(call.tag());
        for byte in 0..=255 {
            record[place] = byte;
            assert_eq!(Answer::decode(&record).is_ok(), byte <= 1, "{call:?}");
        }
    }
}

#[test]
fn document_01s_example_is_read() {
    let list = [2, 0, 2, 0, 0x83, 4, 0, 8, 0, 0, 0, 0, 0, 0, 0, 1, 0x0A, 0, 0, 0xFF];
    let calls = [Call::Read { address: 0x83 }, Call::Advance { cycles: 1 }, Call::Output];
    assert_eq!(list_of(&calls), list[..19]);
    let mut used = 0;
    for call in calls {
        let (first, bytes) = Call::decode(&list[used..]).expect("the call is whole");
        assert_eq!(first, call);
        used += bytes;
    }
    assert_eq!(Call::decode(&list[used..]), Err(Refusal::TruncatedHeader));
    let expected = [
        (0x02, Answer::Byte(1)),
        (
            0x04,
            Answer::Advance {
                line: false,
                matches: [0; 4],
            },
        ),
        (
            0x0A,
            Answer::Output {
                valid: false,
                number: 0,
            },
        ),
    ];
    // An advance's answer is its line and four counts of 16 bytes.
    let buffer = [&[2, 0, 1, 1, 4, 0, 65, 0][..], &[0; 64], &[0x0A, 0, 2, 0, 0]].concat();
    assert_eq!(decoded(&buffer), Ok(expected.to_vec()));
}

#[test]
fn refusals_have_their_numbers_and_words() {
    let words = [
        "the board is not sound",
        "one or two bytes are left, fewer than a tag and a length",
        "the tag is unknown",
        "the length is not that of the tag",
        "the value is cut",
        "the address is 0x380 or above",
        "the nanoseconds are 1,000,000,000 or more",
        "the source number is above 15",
        "source 3 is set from the line only",
        "the level is above 1",
        "the buffer has no room for the answer, the image or the previews",
        "the image is malformed, or for a move already in the target form",
        "the deadline is above 2^64 - 1, too large for one skip",
        "the clock is enabled in realtime",
        "the rate is not 1,000,000, 12,000,000 or 48,000,000",
        "the old form has no rate, and the board is not at 48,000,000",
    ];
    assert_eq!(words.len(), Refusal::ALL.len());
    for (number, words) in (1..).zip(words) {
        let refusal = Refusal::from_number(number).expect("the number is a refusal's");
        assert_eq!((refusal.number(), refusal.to_string()), (number, words.to_string()));
        let outcome = Outcome {
            refusal: Some(refusal),
            ..Outcome::default()
        };
        assert_eq!(outcome.refusal_number(), number);
    }
    assert!((17..=255)
        .chain([0])
        .all(|number| Refusal::from_number(number).is_none()));
    assert_eq!(Outcome::default().refusal_number(), 0);
}

#[test]
fn outcomes_of_parts_are_added_up() {
    let first = Outcome {
        calls: 2,
        list_bytes: 14,
        answer_bytes: 73,
        refusal: None,
    };
    let rest = Outcome {
        calls: 1,
        list_bytes: 5,
        answer_bytes: 4,
        refusal: Some(Refusal::TruncatedHeader),
    };
    let whole = Outcome {
        calls: 3,
        list_bytes: 19,
        answer_bytes: 77,
        refusal: Some(Refusal::TruncatedHeader),
    };
    assert_eq!(first.then(rest), whole);
    assert_eq!(first.then(Outcome::default()), first);
}
