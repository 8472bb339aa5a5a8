//! Boards of the three rates, and the rates that are refused.

use pec::{
    answers, list_of, run, run_at, run_repeated, run_repeated_at, Answer, Call, Outcome, Refusal, DEFAULT_RATE, RATES,
};

/// Sets the alarm, whose bytes are at addresses 0x098 to 0x09B and 0x094 to 0x097, and enables its interrupt.
fn alarm(seconds: u64) -> Vec<Call> {
    let bytes = (0x098..0x09C).chain(0x094..0x098).zip(seconds.to_be_bytes());
    let mut calls: Vec<Call> = bytes.map(|(address, byte)| Call::Write { address, byte }).collect();
    calls.push(Call::Write {
        address: 0x09F,
        byte: 1,
    });
    calls
}

/// The last answer of calls on a fresh board of a rate.
fn last_at(rate: u32, calls: &[Call]) -> Answer {
    let mut buffer = [0; 1024];
    let outcome = run_at(rate, &list_of(calls), &mut buffer);
    assert_eq!((outcome.calls, outcome.refusal), (calls.len(), None));
    let last = answers(&buffer[..outcome.answer_bytes]).last();
    last.expect("there are answers").expect("they are whole").1
}

fn line(answer: Answer) -> bool {
    match answer {
        Answer::Advance { line, .. } => line,
        other => panic!("{other:?}"),
    }
}

#[test]
fn an_alarm_is_due_after_its_seconds_of_cycles() {
    for (rate, due) in [
        (1_000_000, 2_000_000),
        (12_000_000, 24_000_000),
        (48_000_000, 96_000_000),
    ] {
        let after = |calls: &[Call]| last_at(rate, &[&alarm(2)[..], calls].concat());
        let deadline = Answer::Deadline {
            present: true,
            exact: due.into(),
            capped: due,
        };
        assert_eq!(after(&[Call::Deadline]), deadline);
        assert!(!line(after(&[Call::Advance { cycles: due - 1 }])));
        assert!(line(after(&[Call::Advance { cycles: due }])));
        let skip = Answer::Skip {
            passed: due,
            line: true,
        };
        assert_eq!(after(&[Call::Skip]), skip);
    }
}

#[test]
fn an_alarm_on_host_time_is_polled_a_thousand_times_a_second() {
    for (rate, poll) in [(1_000_000, 1_000), (12_000_000, 12_000), (48_000_000, 48_000)] {
        // The clock in realtime, the alarm at 9 seconds, and then host time 9 seconds, which makes no check.
        let mut calls = vec![Call::Write {
            address: 0x083,
            byte: 5,
        }];
        calls.extend(alarm(9));
        calls.push(Call::HostTime {
            seconds: 9,
            nanoseconds: 0,
        });
        for (cycles, high) in [(poll - 1, false), (poll, true)] {
            let last = Call::Advance { cycles };
            assert_eq!(
                line(last_at(rate, &[&calls[..], &[last]].concat())),
                high,
                "{cycles} at {rate}"
            );
        }
    }
}

#[test]
fn a_board_of_which_no_rate_is_said_has_the_default_rate() {
    assert_eq!((RATES, DEFAULT_RATE), ([1_000_000, 12_000_000, 48_000_000], 48_000_000));
    let first = list_of(&alarm(2));
    let list = list_of(&[Call::Advance { cycles: 1 }, Call::Deadline]);
    for times in 0..3 {
        let (mut without, mut with) = ([7; 128], [7; 128]);
        let outcome = run_repeated(&first, &list, times, &mut without);
        assert_eq!(run_repeated_at(DEFAULT_RATE, &first, &list, times, &mut with), outcome);
        assert_eq!(with, without);
    }
    let (mut without, mut with) = ([7; 128], [7; 128]);
    let outcome = run(&list, &mut without);
    assert_eq!(run_at(DEFAULT_RATE, &list, &mut with), outcome);
    assert_eq!(with, without);
}

#[test]
fn a_repeated_list_goes_on_at_the_rate() {
    // Half a second each time: the lowest byte of the seconds, at address 0x08B, goes up every second time.
    for rate in RATES {
        let half = Call::Advance {
            cycles: u64::from(rate) / 2,
        };
        let list = list_of(&[half, Call::Read { address: 0x08B }]);
        for times in 0..6 {
            let mut buffer = [7; 72];
            let outcome = run_repeated_at(rate, &[], &list, times, &mut buffer);
            assert_eq!(outcome.refusal, None);
            let seconds = if times == 0 { 7 } else { times as u8 / 2 };
            assert_eq!(buffer[71], seconds, "{times} at {rate}");
        }
    }
}

#[test]
fn another_rate_is_refused_before_all_else() {
    let refused = Outcome {
        refusal: Some(Refusal::UnsupportedRate),
        ..Outcome::default()
    };
    let output = list_of(&[Call::Output]);
    for rate in [
        0,
        1,
        999_999,
        1_000_001,
        11_999_999,
        12_000_001,
        24_000_000,
        47_999_999,
        48_000_001,
        u32::MAX,
    ] {
        // An empty list, a cut one, one with an unknown tag, and an accepted one; with room and without.
        for list in [&[][..], &[5, 0], &[0xFF, 0, 0], &output] {
            for room in [0, 8] {
                let mut buffer = [7; 8];
                assert_eq!(run_at(rate, list, &mut buffer[..room]), refused, "{rate}");
                for times in [0, 2] {
                    let outcome = run_repeated_at(rate, list, &output, times, &mut buffer[..room]);
                    assert_eq!(outcome, refused, "{rate}");
                    let outcome = run_repeated_at(rate, &output, list, times, &mut buffer[..room]);
                    assert_eq!(outcome, refused, "{rate}");
                }
                assert_eq!(buffer, [7; 8]);
            }
        }
    }
}
