//! Demand 3: the exact deadline over lists of advances and host times.

use calls::Call;
use oracle::fields::Fields;
use oracle::generate::Random;

use crate::rules::set_source_3;
use crate::support::*;

/// An advance, often to about the remaining deadline, or a host time, at times a refused one.
fn some_call(random: &mut Random, rest: Option<u128>) -> Call {
    if random.once_in(4) {
        return Call::HostTime {
            seconds: random.number(),
            nanoseconds: random.pick(&[0, SECOND as u32 - 1, SECOND as u32]),
        };
    }
    let any = random.number();
    let rest = rest.map_or(any, |rest| u64::try_from(rest).unwrap_or(u64::MAX));
    Call::Advance {
        cycles: random.pick(&[
            rest,
            rest.saturating_sub(1),
            rest.saturating_add(1),
            rest / 2,
            any,
            1,
            0,
        ]),
    }
}

fn pending(fields: &Fields) -> bool {
    fields.controller_pending >> 3 & 1 == 1
}

#[test]
fn the_line_is_high_exactly_from_the_deadline_on() {
    RATES.into_iter().for_each(the_line_at);
}

/// The same for boards at a rate.
fn the_line_at(rate: u32) {
    let (mut rises, mut late_rises, mut without, mut refused, mut disabled_realtime) = (0, 0, 0, 0, 0);
    let mut by_alarm = 0;
    for (mut random, mut fields) in sound_boards_at(rate, 40_000) {
        if random.once_in(2) {
            // More boards with only one deadline, often above 2^64.
            for channel in &mut fields.channels[1..] {
                channel.control &= !8;
            }
            fields.channels[0].prescaler &= 3;
            fields.channels[0].phase &= fields.channels[0].prescaler;
            set_source_3(&mut fields);
        }
        assert!(fields.sound());
        if fields.line() || fields.runs_from_host_time() {
            continue;
        }
        disabled_realtime += usize::from(fields.realtime());
        let mut board = Board::from_fields(&fields);
        let deadline = deadline(&mut board);
        without += usize::from(deadline.is_none());
        let mut total = 0_u128;
        let check = |board: &Board, total: u128| {
            let reached = deadline.is_some_and(|deadline| total >= deadline);
            let now = board.fields();
            assert_eq!(now.line(), reached, "{fields:?} after {total} of {deadline:?}");
            assert_eq!(pending(&now), pending(&fields) || reached);
            reached
        };
        // Each prefix is a list too, the empty one first.
        let mut reached = check(&board, total);
        for _ in 0..12 {
            let call = some_call(&mut random, deadline.map(|deadline| deadline.saturating_sub(total)));
            let reply = board.call(call);
            match call {
                Call::Advance { cycles } if reply.refusal.is_none() => total += u128::from(cycles),
                _ => refused += usize::from(number(&reply) == 7),
            }
            reached = check(&board, total);
        }
        rises += usize::from(reached);
        by_alarm += usize::from(board.fields().alarm_pending && reached);
        late_rises += usize::from(reached && deadline > Some(u128::from(u64::MAX)));
    }
    for count in [rises, late_rises, without, refused, disabled_realtime, by_alarm] {
        assert!(
            count > 100,
            "{rises} {late_rises} {without} {refused} {disabled_realtime} {by_alarm}"
        );
    }
}

#[test]
fn the_64_bit_deadline_is_the_smaller_of_the_exact_one_and_the_top() {
    for rate in RATES {
        let (mut above, mut below, mut none) = (0, 0, 0);
        for (_, fields) in sound_boards_at(rate, 40_000) {
            // `deadline` compares the two figures.
            match deadline(&mut Board::from_fields(&fields)) {
                Some(exact) if exact > u128::from(u64::MAX) => above += 1,
                Some(_) => below += 1,
                None => none += 1,
            }
        }
        assert!(above > 500 && below > 500 && none > 500, "{above} {below} {none}");
    }
}
