//! Generated lists over a fixed range of seeds: what they reach, that each call follows document 01's rules, and that a
//! run equals its direct calls.

use std::collections::BTreeMap;

use calls::{Answer, Call, Outcome, Refusal};
use oracle::fields::Fields;
use oracle::generate;
use oracle::registers::{self, channel, of_channel};

use crate::rules::direct;
use crate::support::*;

const SEEDS: u64 = 6_000;

/// How often each event was seen.
#[derive(Default)]
struct Counts(BTreeMap<String, usize>);

impl Counts {
    fn note(&mut self, event: impl Into<String>, seen: bool) {
        *self.0.entry(event.into()).or_default() += usize::from(seen);
    }

    /// Notes what an accepted call did.
    fn accepted(&mut self, call: Call, answer: Answer, before: &Fields, after: &Fields) {
        self.note(format!("tag {:02x}", call.tag()), true);
        self.note("line high", after.line());
        self.note("offset negative", after.offset_ns() < 0);
        self.note("offset positive", after.offset_ns() > 0);
        match call {
            Call::Advance { cycles } => self.advanced(cycles, before, after),
            Call::Read { address } => self.read(address, before, after),
            Call::Write { address, byte } => self.written(address, byte, before, after),
            _ => {}
        }
        match answer {
            Answer::Advance { matches, .. } => {
                for (number, count) in matches.into_iter().enumerate() {
                    self.note(format!("channel {number} meets 1 point"), count == 1);
                    self.note(format!("channel {number} meets more points"), count > 1);
                    self.note(format!("channel {number} meets more than 2^32"), count > 1 << 32);
                    self.note("a channel meets 2^64 points", count == 1 << 64);
                    self.note("an overdue channel meets points", count > 0 && overdue(before, number));
                }
                let several = matches.iter().filter(|count| **count > 1).count() > 1;
                self.note("two channels meet more points", several);
            }
            Answer::Deadline { present, exact, .. } => {
                self.note("D none", !present);
                self.note("D above 2^64 - 1", exact > u128::from(u64::MAX));
                self.note("D below 2^64", present && exact <= u128::from(u64::MAX));
            }
            Answer::Skip { passed, line } => {
                self.note("skip to a high line", passed > 0 && line);
                self.note("skip of exactly 2^64 - 1 cycles", passed == u64::MAX);
                self.note("skip of a high line", passed == 0 && line);
                self.note("skip without deadline", passed == 0 && !line);
            }
            Answer::Output { valid, number } => {
                self.note("output of source 3", valid && number == 3);
                self.note("output of another source", valid && number != 3);
                self.note("no output", !valid);
            }
            _ => {}
        }
    }

    fn advanced(&mut self, cycles: u64, before: &Fields, after: &Fields) {
        for number in 0..4 {
            let (old, new) = (before.channels[number], after.channels[number]);
            let matches = !old.pending && new.pending && new.interrupt_enabled();
            for mode in 0..3 {
                self.note(
                    format!("channel {number} matches in mode {mode}"),
                    matches && old.mode() == mode,
                );
            }
            self.note(
                format!("channel {number} runs in mode 3"),
                before.runs(number) && old.mode() == 3,
            );
            let periodic = matches && old.mode() == 1;
            self.note(
                "periodic channel switched off with reload 0",
                periodic && old.reload == 0 && !new.enabled(),
            );
            self.note(
                "periodic channel switched off at the top",
                periodic && old.reload != 0 && !new.enabled(),
            );
            self.note("periodic channel goes on", periodic && new.compare != old.compare);
            self.note(
                "free-running counter wraps",
                old.mode() == 2 && new.counter < old.counter,
            );
            self.note(
                "prescaler of 2^32 - 1",
                before.runs(number) && old.prescaler == u32::MAX && cycles > 0,
            );
        }
        let alarm = !before.alarm_pending && after.alarm_pending;
        self.note(
            "alarm becomes pending",
            alarm && !before.runs_from_host_time() && after.line(),
        );
        let polled = before.runs_from_host_time() && before.alarm_armed && cycles > 0;
        self.note("realtime alarm by poll", polled && alarm);
        let poll_due = u64::from(before.poll) + cycles.min(1 << 32) >= u64::from(poll_at(before.rate));
        self.note("poll before the alarm", polled && !alarm && poll_due);
        self.note("no poll yet", polled && !poll_due);
        self.note(
            "realtime alarm by an advance of 0",
            before.runs_from_host_time() && cycles == 0 && alarm,
        );
        self.note(
            "host time before the offset",
            before.runs_from_host_time() && before.host_ns() + before.offset_ns() < 0,
        );
        let elapsed = (u128::from(before.subsecond) + u128::from(cycles)) / u128::from(before.rate);
        let saturates = elapsed > u128::from(u64::MAX - before.seconds);
        let counts = before.clock_enabled() && !before.realtime();
        self.note("clock saturates", counts && saturates);
        self.note(
            "clock stands at its top",
            counts && !saturates && after.seconds == u64::MAX,
        );
        // Long advances to about the end of a second or a poll that has begun, with no alarm armed for the second; and
        // advances by about the numbers that the rate gives.
        let limit = poll_at(before.rate);
        for (event, more) in [("a cycle before", 0), ("at", 1), ("a cycle after", 2)] {
            let ends = |begun: u32, whole: u32| {
                begun > 3 && cycles > 100 && u128::from(begun) + u128::from(cycles) + 1 == u128::from(whole) + more
            };
            self.note(
                format!("{event} the end of a second"),
                counts && !before.alarm_armed && ends(before.subsecond, before.rate),
            );
            self.note(format!("{event} the end of a poll"), polled && ends(before.poll, limit));
        }
        let second = u64::from(before.rate);
        for number in [second, limit.into(), u64::MAX / second] {
            self.note(format!("two cycles less than {number}"), cycles == number - 2);
            self.note(format!("two cycles more than {number}"), cycles == number + 2);
        }
    }

    fn read(&mut self, address: u16, before: &Fields, after: &Fields) {
        for number in 0..4 {
            let word = of_channel(number, channel::COUNT_HIGH);
            let served = (word..word + 4).contains(&address) && before.count_latches[number].held;
            self.note(format!("read served by count latch {number}"), served);
            let high = (before.channels[number].counter >> 32) as u32;
            self.note(
                "count latch differs from the live word",
                served && before.count_latches[number].value != high,
            );
            self.note("count latch freed", served && !after.count_latches[number].held);
            self.note("count latch kept", served && after.count_latches[number].held);
        }
        for (event, word, latch) in [
            (
                "read served by clock low latch",
                registers::SECONDS_LOW,
                before.clock_low_latch,
            ),
            (
                "read served by clock high latch",
                registers::SECONDS_HIGH,
                before.clock_high_latch,
            ),
        ] {
            self.note(event, (word + 1..word + 4).contains(&address) && latch.held);
        }
        self.note("alarm by a read", !before.alarm_pending && after.alarm_pending);
    }

    fn written(&mut self, address: u16, byte: u8, before: &Fields, after: &Fields) {
        if address == registers::CLOCK_CONTROL + 3 {
            self.note(format!("clock control {} to {}", before.clock_control, byte % 8), true);
        }
        self.note("seconds committed", before.seconds_mask != 0 && after.seconds_mask == 0);
        self.note("alarm committed", before.alarm_mask != 0 && after.alarm_mask == 0);
        self.note("alarm by a write", !before.alarm_pending && after.alarm_pending);
        self.note("line falls", before.line() && !after.line());
        let seconds = (registers::SECONDS_LOW..registers::SECONDS_HIGH + 4).contains(&address);
        self.note(
            "seconds byte without set enable",
            seconds && before.clock_control & 2 == 0,
        );
    }
}

/// Whether a channel's compare is behind its counter.
fn overdue(fields: &Fields, number: usize) -> bool {
    fields.channels[number].compare < fields.channels[number].counter
}

/// Runs a list by direct calls over a fresh board at a rate, into a buffer of that length; gives the outcome, the
/// answers and the fields.
fn run_by_direct_calls(rate: u32, list: &[u8], length: usize, counts: &mut Counts) -> (Outcome, Vec<u8>, Fields) {
    let (mut board, _) = Board::fresh_at(rate);
    let mut outcome = Outcome::default();
    let mut answers = Vec::new();
    while outcome.list_bytes < list.len() {
        let before = board.fields();
        let next = Call::decode(&list[outcome.list_bytes..]).and_then(|(call, used)| {
            // On a copy, because the call may be refused for its answer's length alone.
            let mut copy = Board::from_fields(&before);
            let reply = copy.call(call);
            let given = (number(&reply), reply.answer, copy.fields());
            assert_eq!(given, direct(&before, call));
            let record = reply.answer.encode(call.tag());
            match reply.refusal {
                None if answers.len() + record.len() > length => Err(Refusal::BufferTooSmall),
                None => Ok((call, used, copy, reply.answer, record)),
                Some(refusal) => Err(refusal),
            }
        });
        match next {
            Ok((call, used, copy, answer, record)) => {
                board = copy;
                answers.extend(record);
                outcome.calls += 1;
                outcome.list_bytes += used;
                let after = board.fields();
                assert!(after.sound());
                counts.accepted(call, answer, &before, &after);
                // Compares the 64-bit deadline with the exact one.
                deadline(&mut Board::from_fields(&after));
                if let Answer::Skip { passed, line } = answer {
                    let due = deadline(&mut Board::from_fields(&before)).filter(|_| !before.line());
                    let expected = due.map_or((0, before.line()), |exact| (exact, true));
                    assert_eq!((u128::from(passed), line), expected);
                }
            }
            Err(refusal) => {
                counts.note(format!("refusal {}", refusal.number()), true);
                outcome.refusal = Some(refusal);
                break;
            }
        }
    }
    outcome.answer_bytes = answers.len();
    (outcome, answers, board.fields())
}

#[test]
fn generated_lists_reach_every_event_and_runs_equal_direct_calls() {
    RATES.into_iter().for_each(generated_lists_at);
}

/// The same for the lists of a rate.
fn generated_lists_at(rate: u32) {
    let mut counts = Counts::default();
    // These events are noted only when they happen; the others are noted with each call of their tag.
    for number in (2..=11).chain([13]) {
        counts.note(format!("refusal {number}"), false);
    }
    for tag in 1..=10 {
        counts.note(format!("tag {tag:02x}"), false);
    }
    for (before, after) in (0..8).flat_map(|before| (0..8).map(move |after| (before, after))) {
        counts.note(format!("clock control {before} to {after}"), false);
    }
    for seed in 0..SEEDS {
        let generated = generate::list_at(rate, seed);
        assert!(generated.list.len() <= 32_768, "listrun takes the list of seed {seed}");
        let (expected, answers, fields) = run_by_direct_calls(rate, &generated.list, generated.buffer, &mut counts);
        let (mut board, _) = Board::fresh_at(rate);
        let mut buffer = vec![0xEE; generated.buffer];
        let outcome = run(&mut board, &generated.list, &mut buffer);
        assert_eq!(outcome, expected, "seed {seed}");
        assert_eq!(buffer[..outcome.answer_bytes], answers, "seed {seed}");
        assert!(
            buffer[outcome.answer_bytes..].iter().all(|&byte| byte == 0xEE),
            "seed {seed}"
        );
        assert_eq!(board.fields(), fields, "seed {seed}");
    }
    let missing: Vec<_> = counts.0.iter().filter(|(_, &count)| count == 0).collect();
    assert!(missing.is_empty(), "never reached at {rate}: {missing:?}");
}

#[test]
fn a_seed_gives_the_same_list_each_time() {
    for seed in 0..50 {
        let (first, second) = (generate::list(seed), generate::list(seed));
        assert_eq!((first.list, first.buffer), (second.list, second.buffer));
    }
    assert_ne!(generate::list(3).list, generate::list(4).list);
    // Without a rate the list is that for 48,000,000. The list for another rate differs.
    assert_eq!(generate::list(3).list, generate::list_at(F, 3).list);
    for rate in [1_000_000, 12_000_000] {
        assert!((0..20).any(|seed| generate::list(seed).list != generate::list_at(rate, seed).list));
    }
}
