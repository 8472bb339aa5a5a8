//! Previews of many totals: rows worked out by hand from S-6's sentences, what the compared boards and totals reach,
//! and the faults that the comparison finds.

use calls::Refusal;
use oracle::board::BoardAt;
use oracle::compare::parked::forms;
use oracle::compare::previews::{boards, clocks, images, limits, seed, totals, Previewer};
use oracle::deadline;
use oracle::fields::Fields;
use oracle::generate::Random;
use oracle::image::{image_of, read_image, Form};
use oracle::preview::preview_parked;
use oracle::timing::At48;

use crate::support::*;

/// The seeds that the tests go over.
const SEEDS: u64 = 40;

/// The line that one advance answers on a separate board with these fields.
fn line_after(fields: &Fields, cycles: u64) -> bool {
    advance(&mut Board::from_fields(fields), cycles)
}

/// Setting A: its deadline is 30.
fn setting_a() -> Fields {
    let mut fields = running(0);
    (fields.channels[0].compare, fields.channels[0].prescaler) = (10, 2);
    fields
}

#[test]
fn previews_are_those_worked_out_by_hand() {
    let mut setting_d = running(2);
    setting_d.channels[0].armed = true;
    let mut setting_f = Fields::fresh();
    (setting_f.alarm, setting_f.alarm_armed, setting_f.alarm_enable) = (2, true, 1);
    let mut nearer = Board::from_fields(&setting_d);
    advance(&mut nearer, 1);
    let mut reached = Board::from_fields(&setting_a());
    advance(&mut reached, 30);
    let top = u64::MAX;
    for (fields, totals, high) in [
        (setting_a(), vec![30, 29, 0, 31, top, 29, 30], vec![1, 0, 0, 1, 1, 0, 1]),
        (setting_f, vec![95_999_999, 96_000_000], vec![0, 1]),
        // Due after 2^64 cycles, and after 2^64 - 1.
        (setting_d, vec![top, 0], vec![0, 0]),
        (nearer.fields(), vec![top, top - 1], vec![1, 0]),
        // No deadline; the line high.
        (Fields::fresh(), vec![0, 1, top], vec![0, 0, 0]),
        (reached.fields(), vec![0, 1, top], vec![1, 1, 1]),
        (setting_a(), vec![], vec![]),
    ] {
        let mut buffer = vec![7; high.len() + 2];
        assert_eq!(
            preview_parked(&image_of(Form::New, &fields), &totals, &mut buffer),
            Ok(())
        );
        assert_eq!(buffer, [high, vec![7, 7]].concat(), "{totals:?}");
    }
}

#[test]
fn previews_are_refused_in_order_and_write_nothing() {
    let controlled = |clock_control| Fields {
        clock_control,
        ..setting_a()
    };
    let mut unsound = controlled(5);
    unsound.channels[0].control = 16;
    for form in Form::ALL {
        let images = [controlled(1), controlled(5), unsound].map(|fields| image_of(form, &fields));
        let [plain, realtime, unsound] = &images;
        let cut = &unsound[1..];
        for (image, room, refusal) in [
            (&plain[..], 1, Refusal::BufferTooSmall),
            (realtime, 2, Refusal::ClockInRealtime),
            (realtime, 1, Refusal::ClockInRealtime),
            (unsound, 1, Refusal::UnsoundBoard),
            (cut, 1, Refusal::MalformedImage),
        ] {
            let mut buffer = [7; 2];
            let refused = preview_parked(image, &[30, 29], &mut buffer[..room]);
            assert_eq!((refused, buffer), (Err(refusal), [7; 2]));
        }
        // Also for no totals.
        let refused = preview_parked(realtime, &[], &mut []);
        assert_eq!(refused, Err(Refusal::ClockInRealtime));
        // A clock with realtime but not enabled, or enabled but without realtime, is not refused.
        for clock_control in [0, 1, 2, 3, 4, 6] {
            let mut buffer = [7; 2];
            let image = image_of(form, &controlled(clock_control));
            let previewed = preview_parked(&image, &[30, 29], &mut buffer);
            assert_eq!((previewed, buffer), (Ok(()), [1, 0]), "{clock_control}");
        }
    }
}

#[test]
fn previews_go_by_the_rate_of_the_image() {
    for rate in RATES {
        let mut fields = Fields::fresh_at(rate);
        (fields.alarm, fields.alarm_armed, fields.alarm_enable) = (2, true, 1);
        let due = 2 * u64::from(rate);
        let mut buffer = [7; 2];
        assert_eq!(
            preview_parked(&image_of(Form::New, &fields), &[due, due - 1], &mut buffer),
            Ok(())
        );
        assert_eq!(buffer, [1, 0], "{rate}");
        // The old form has no rate.
        let previewed = preview_parked(&image_of(Form::Old, &fields), &[96_000_000, 95_999_999], &mut buffer);
        assert_eq!((previewed, buffer), (Ok(()), [1, 0]));
    }
}

#[test]
fn the_boards_and_totals_of_the_seeds_reach_every_case() {
    // Boards: refused with 14; the line high; no deadline; one above 2^64 - 1; one that a total reaches.
    let mut seen = [0; 5];
    let mut repeats = 0;
    for number in 1..=SEEDS {
        let mut random = Random::new(number);
        for fields in RATES.map(|rate| boards(rate, number)).concat() {
            let mut totals = totals(&fields, &mut random);
            let due = deadline::exact(&fields);
            let kind = match due {
                _ if fields.runs_from_host_time() => 0,
                _ if fields.line() => 1,
                None => 2,
                Some(due) if due > u128::from(u64::MAX) => 3,
                Some(due) => {
                    let due = due as u64;
                    assert!(totals.contains(&due) && totals.contains(&(due - 1)), "{due}");
                    assert_eq!([due - 1, due].map(|total| line_after(&fields, total)), [false, true]);
                    4
                }
            };
            seen[kind] += 1;
            assert!([0, 1, u64::MAX].iter().all(|total| totals.contains(total)));
            let length = totals.len();
            totals.sort_unstable();
            totals.dedup();
            repeats += usize::from(totals.len() < length);
        }
    }
    assert!(seen.iter().all(|count| *count > 5) && seen[4] > 50, "{seen:?}");
    assert!(repeats > 50, "{repeats}");
}

/// A preview that is not by the rules: of an image, totals and a buffer.
type Fault = fn(&[u8], &[u64], &mut [u8]) -> Result<(), Refusal>;

/// The rules, and then, where they accept, a change: of the board, the totals and the whole buffer.
fn accepted_but(
    (image, totals, high): (&[u8], &[u64], &mut [u8]),
    change: impl FnOnce(&Fields, &[u64], &mut [u8]),
) -> Result<(), Refusal> {
    preview_parked(image, totals, high)?;
    let (_, fields) = read_image(image).expect("it was accepted");
    change(&fields, totals, high);
    Ok(())
}

/// The rules, except that each byte is a function of the board and the total.
fn each(
    (image, totals, high): (&[u8], &[u64], &mut [u8]),
    byte: impl Fn(&Fields, u64) -> bool,
) -> Result<(), Refusal> {
    accepted_but((image, totals, high), |fields, totals, high| {
        for (place, total) in totals.iter().enumerate() {
            high[place] = byte(fields, *total).into();
        }
    })
}

/// The Rust's 64-bit deadline, the smaller of D and 2^64 - 1.
fn capped(fields: &Fields) -> Option<u64> {
    deadline::exact(fields).map(|due| due.try_into().unwrap_or(u64::MAX))
}

const FAULTS: [(&str, Fault); 23] = [
    ("more than the deadline", |image, totals, high| {
        each((image, totals, high), |fields, total| {
            fields.line() || deadline::exact(fields).is_some_and(|due| due < total.into())
        })
    }),
    ("a cycle early", |image, totals, high| {
        each((image, totals, high), |fields, total| {
            fields.line() || deadline::exact(fields).is_some_and(|due| due <= u128::from(total) + 1)
        })
    }),
    ("the 64-bit deadline in the place of D", |image, totals, high| {
        each((image, totals, high), |fields, total| {
            fields.line() || capped(fields).is_some_and(|due| due <= total)
        })
    }),
    ("2^64 - 1 where there is no deadline", |image, totals, high| {
        each((image, totals, high), |fields, total| {
            line_after(fields, total) || deadline::exact(fields).is_none() && total == u64::MAX
        })
    }),
    ("a high line not looked at", |image, totals, high| {
        each((image, totals, high), |fields, total| {
            deadline::exact(fields).is_some_and(|due| due <= total.into())
        })
    }),
    ("a high line low at 0", |image, totals, high| {
        each((image, totals, high), |fields, total| {
            total > 0 && line_after(fields, total)
        })
    }),
    ("the line now", |image, totals, high| {
        each((image, totals, high), |fields, _| fields.line())
    }),
    ("32 bits of a total", |image, totals, high| {
        each((image, totals, high), |fields, total| {
            line_after(fields, u64::from(total as u32))
        })
    }),
    ("totals added up", |image, totals, high| {
        accepted_but((image, totals, high), |fields, totals, high| {
            let mut board = Board::from_fields(fields);
            for (byte, total) in high.iter_mut().zip(totals) {
                *byte = advance(&mut board, *total).into();
            }
        })
    }),
    ("in the order of the totals' size", |image, totals, high| {
        let mut sorted = totals.to_vec();
        sorted.sort_unstable();
        preview_parked(image, &sorted, high)
    }),
    ("repeats left out", |image, totals, high| {
        let mut once = Vec::new();
        for total in totals {
            if !once.contains(total) {
                once.push(*total);
            }
        }
        preview_parked(image, totals, &mut high.to_vec())?;
        preview_parked(image, &once, high)
    }),
    ("one byte past the totals", |image, totals, high| {
        accepted_but((image, totals, high), |_, totals, high| {
            if let Some(byte) = high.get_mut(totals.len()) {
                *byte = 0;
            }
        })
    }),
    ("255 for a high line", |image, totals, high| {
        accepted_but((image, totals, high), |_, totals, high| {
            high[..totals.len()].iter_mut().for_each(|byte| *byte *= 255);
        })
    }),
    ("14 left out", |image, totals, high| {
        match preview_parked(image, totals, &mut high.to_vec()) {
            Err(Refusal::ClockInRealtime) if totals.len() <= high.len() => {
                let (_, fields) = read_image(image)?;
                for (byte, total) in high.iter_mut().zip(totals) {
                    *byte = line_after(&fields, *total).into();
                }
                Ok(())
            }
            _ => preview_parked(image, totals, high),
        }
    }),
    ("14 without enable", |image, totals, high| {
        if read_image(image).is_ok_and(|(_, fields)| fields.realtime()) {
            return Err(Refusal::ClockInRealtime);
        }
        preview_parked(image, totals, high)
    }),
    ("11 before 14", |image, totals, high| {
        if read_image(image).is_ok() && high.len() < totals.len() {
            return Err(Refusal::BufferTooSmall);
        }
        preview_parked(image, totals, high)
    }),
    ("11 before 12 and 1", |image, totals, high| {
        if read_image(image).is_err() && high.len() < totals.len() {
            return Err(Refusal::BufferTooSmall);
        }
        preview_parked(image, totals, high)
    }),
    ("11 with just enough room", |image, totals, high| {
        preview_parked(image, totals, &mut high.to_vec())?;
        if high.len() == totals.len() {
            return Err(Refusal::BufferTooSmall);
        }
        preview_parked(image, totals, high)
    }),
    ("a short buffer filled", |image, totals, high| {
        let room = totals.len().min(high.len());
        let previewed = preview_parked(image, totals, &mut high.to_vec());
        if previewed != Err(Refusal::ClockInRealtime) {
            let _ = preview_parked(image, &totals[..room], high);
        }
        previewed.and_then(|()| preview_parked(image, totals, high))
    }),
    ("48,000,000 whatever the rate", |image, totals, high| {
        each((image, totals, high), |fields, total| {
            line_after(&Fields { rate: F, ..*fields }, total)
        })
    }),
    ("1,000,000 of an old image", |image, totals, high| {
        each((image, totals, high), |fields, total| {
            let slow = Fields {
                rate: 1_000_000,
                ..*fields
            };
            let taken = image.len() == Form::Old.size() && slow.sound();
            line_after(if taken { &slow } else { fields }, total)
        })
    }),
    ("the old form refused", |image, totals, high| match read_image(image) {
        Ok((Form::Old, _)) => Err(Refusal::MalformedImage),
        _ => preview_parked(image, totals, high),
    }),
    ("zeros where the clock is in realtime", |image, totals, high| {
        let previewed = preview_parked(image, totals, high);
        if previewed == Err(Refusal::ClockInRealtime) {
            high.fill(0);
        }
        previewed
    }),
];

/// Everything that is compared, or the first difference.
fn everything(preview: &Previewer) -> Result<u64, String> {
    let mut comparisons = limits(preview)?.comparisons;
    for (form, rate) in forms() {
        for number in 1..=SEEDS {
            comparisons += seed(preview, form, rate, number)?.comparisons;
        }
        comparisons += clocks(preview, form, rate)?.comparisons;
        comparisons += images(preview, form, rate)?.comparisons;
    }
    Ok(comparisons)
}

#[test]
fn the_rules_of_previews_agree_with_themselves() {
    assert!(everything(&preview_parked).unwrap() > 40_000);
}

#[test]
fn faults_of_previews_are_found() {
    for (name, fault) in FAULTS {
        let text = everything(&fault).expect_err(name);
        assert!(text.starts_with("previews of ["), "{name}: {text}");
    }
}

#[test]
fn an_advance_of_a_copy_shows_what_an_advance_answers_and_leaves_the_board() {
    // On host time too, where an alarm may be due.
    let mut seen = [0; 2];
    for (mut random, fields) in sound_boards(2_000) {
        let BoardAt::<At48>::Sound(board) = BoardAt::from_fields(&fields) else {
            panic!("the fields are sound");
        };
        let totals = totals(&fields, &mut random);
        let shown: Vec<bool> = totals.iter().map(|total| board.line_after(*total)).collect();
        let answered: Vec<bool> = totals.iter().map(|total| line_after(&fields, *total)).collect();
        assert_eq!(shown, answered, "{fields:?}");
        shown.iter().for_each(|high| seen[usize::from(*high)] += 1);
        assert_eq!(BoardAt::Sound(board).fields(), fields);
    }
    assert!(seen.iter().all(|count| *count > 1_000), "{seen:?}");
}
