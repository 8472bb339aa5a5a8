//! The measured lists do what they are made for, and the answers of two builds are compared as far as both go.

use calls::{list_of, Answer, Call, DEFAULT_RATE};
use oracle::board::{AnyBoard, Board};
use oracle::kinds::{named, BUFFER};
use oracle::list::run;
use oracle::measure::{agree, rate_asked};

#[test]
fn the_burst_meets_points_to_its_end() {
    let [kind] = &named(DEFAULT_RATE, Some("prescaler-0-burst"))[..] else {
        panic!("there is one kind of that name")
    };
    let mut board = Board::fresh();
    let mut answers = vec![0; BUFFER];
    let mut channel_after = |calls| {
        let outcome = run(&mut board, &list_of(calls), &mut answers);
        assert_eq!(outcome.refusal, None);
        let fields = board.fields();
        assert_eq!(
            [0, 1, 2, 3].map(|number| fields.runs(number)),
            [true, false, false, false]
        );
        fields.channels[0]
    };
    let mut before = channel_after(&kind.first);
    // Each pair of calls passes 1 + 2^40 cycles. After each run of the list the next number is the compare point.
    let cycles = kind.list.len() as u64 / 2 * (1 + (1 << 40));
    for _ in 0..3 {
        let after = channel_after(&kind.list);
        assert_eq!(after.counter, before.counter + cycles);
        assert_eq!((after.compare, after.mode(), after.reload), (after.counter + 1, 1, 1));
        assert_eq!((after.prescaler, after.phase), (0, 0));
        before = after;
    }
    // The same holds for all repeats of a benchmark.
    assert!(cycles.checked_mul(kind.times).is_some_and(|all| all < 1 << 61));
}

#[test]
fn ten_years_are_minutes_at_every_rate() {
    for (rate, minute) in [
        (1_000_000, 60_000_000),
        (12_000_000, 720_000_000),
        (48_000_000, 2_880_000_000),
    ] {
        let [kind] = &named(rate, Some("ten-years"))[..] else {
            panic!("there is one kind of that name")
        };
        let (mut board, _) = AnyBoard::fresh_at(rate);
        assert_eq!(board.run(&list_of(&kind.first), &mut [0; 256]).refusal, None);
        // Skips and acknowledgements in turn, as many as make ten years of 365 days.
        for call in &kind.list[..6] {
            let reply = board.call(*call);
            assert_eq!(reply.refusal, None);
            if *call == Call::Skip {
                let passed = Answer::Skip {
                    passed: minute,
                    line: true,
                };
                assert_eq!(reply.answer, passed, "{rate}");
            }
        }
        assert_eq!(kind.list.len() as u64 / 2 * kind.times, 10 * 365 * 24 * 60);
    }
}

#[test]
fn a_rate_is_asked_for_before_the_other_arguments() {
    assert_eq!(rate_asked(&[]), Ok((48_000_000, &[][..])));
    assert_eq!(rate_asked(&["skip"]), Ok((48_000_000, &["skip"][..])));
    for (text, rate) in [
        ("1000000", 1_000_000),
        ("12000000", 12_000_000),
        ("48000000", 48_000_000),
    ] {
        assert_eq!(rate_asked(&["--rate", text, "skip"]), Ok((rate, &["skip"][..])));
    }
    for text in ["24000000", "0", "x", "-1", "12000000000"] {
        assert!(rate_asked(&["--rate", text]).is_err(), "{text}");
    }
}

#[test]
fn answers_are_compared_as_far_as_both_go() {
    // The line after an advance, alone and with a count; and an answer without members.
    let short = [4, 0, 1, 1, 3, 0, 0];
    let long = [4, 0, 3, 1, 0, 7, 3, 0, 0];
    assert!(agree(&short, &short) && agree(&short, &long) && agree(&long, &short));
    for (place, byte) in [(0, 5), (3, 0), (4, 2)] {
        let mut other = short;
        other[place] = byte;
        assert!(!agree(&other, &long), "byte {place}");
    }
    // One answer less, and a cut one.
    assert!(!agree(&short[..4], &long) && !agree(&short[..6], &long) && !agree(&short, &long[..5]));
}
