//! The comparison of two boards that are driven by the same lists: what is compared, and the shortest list that
//! shows a difference.

pub mod boards;
pub mod clock;
#[cfg(feature = "proved")]
pub mod controller;
pub mod dispatcher;
pub mod matches;
pub mod parked;
pub mod passes;
pub mod prescaler;
pub mod previews;
pub mod skips;

use std::fmt::{self, Write};
use std::sync::atomic::{AtomicBool, Ordering::Relaxed};
use std::sync::Mutex;
use std::thread;

use calls::{list_of, Call, Outcome};

use crate::list;
use crate::registers::{self, channel, of_channel, CHANNELS};

pub use crate::list::Runner;

/// The two boards, of one rate: the Rust, and the one that is compared with it.
#[derive(Clone, Copy)]
pub struct Pair {
    pub rate: u32,
    pub rust: Runner,
    pub other: Runner,
}

/// How much was compared.
#[derive(Clone, Copy, Debug, Default, PartialEq, Eq)]
pub struct Count {
    /// Equal outcomes and buffers of a run, results of an operation, images moved or parked, turns of the dispatcher on
    /// one controller, or previews of some totals.
    pub comparisons: u64,
    /// The calls that the compared runs carried out.
    pub calls: u64,
}

impl Count {
    pub fn add(&mut self, other: Count) {
        self.comparisons += other.comparisons;
        self.calls += other.calls;
    }
}

/// The comparisons of all members, shared out over the machine's processors: each takes the next one. Where one finds a
/// difference, all stop.
pub fn shared<T, E: Send>(
    members: impl Iterator<Item = T> + Send,
    compare: impl Fn(T) -> Result<Count, E> + Sync,
) -> Result<Count, E> {
    let (members, found) = (Mutex::new(members), AtomicBool::new(false));
    let next = || members.lock().expect("no iterator panics").next();
    let work = || -> Result<Count, E> {
        let mut count = Count::default();
        while let (false, Some(member)) = (found.load(Relaxed), next()) {
            let compared = compare(member).inspect_err(|_| found.store(true, Relaxed));
            count.add(compared?);
        }
        Ok(count)
    };
    let workers = thread::available_parallelism().map_or(1, usize::from);
    let results: Vec<Result<Count, E>> = thread::scope(|scope| {
        let spawned: Vec<_> = (0..workers).map(|_| scope.spawn(work)).collect();
        spawned
            .into_iter()
            .map(|worker| worker.join().expect("a comparison panicked"))
            .collect()
    });
    let mut count = Count::default();
    for result in results {
        count.add(result?);
    }
    Ok(count)
}

/// What a buffer holds before a run; no buffer is longer.
static OLD: [u8; 65_536] = old_bytes();

const fn old_bytes() -> [u8; 65_536] {
    let mut bytes = [0; 65_536];
    let mut at = 0;
    while at < bytes.len() {
        bytes[at] = (at % 251) as u8 ^ 0xA5;
        at += 1;
    }
    bytes
}

/// Two runs that differ, on the shortest lists found.
#[derive(Debug)]
pub struct Difference {
    pub rate: u32,
    pub first: Vec<u8>,
    pub second: Vec<u8>,
    pub buffer: usize,
    pub rust: (Outcome, Vec<u8>),
    pub other: (Outcome, Vec<u8>),
}

impl Pair {
    /// The Rust at a rate, one of the three, and another board at it.
    pub fn at(rate: u32, other: Runner) -> Self {
        let rust = list::runner(rate).expect("the rate is one of the three");
        Self { rate, rust, other }
    }

    /// Compares the outcome and the whole buffer: of a list over a fresh board where `second` is none, else of `second`
    /// over the board that the first list leaves. Gives the calls that the last list carried out.
    pub fn compare(&self, first: &[u8], second: Option<&[u8]>, buffer: usize) -> Result<Count, Box<Difference>> {
        let (rust, other) = self.run(first, second, buffer);
        if rust == other {
            return Ok(Count {
                comparisons: 1,
                calls: rust.0.calls as u64,
            });
        }
        Err(Box::new(self.shortened(first, second, buffer)))
    }

    fn run(&self, first: &[u8], second: Option<&[u8]>, buffer: usize) -> ((Outcome, Vec<u8>), (Outcome, Vec<u8>)) {
        let one = |runner: Runner| {
            let mut answers = OLD[..buffer].to_vec();
            let outcome = runner(first, second.unwrap_or(&[]), u64::from(second.is_some()), &mut answers);
            (outcome, answers)
        };
        (one(self.rust), one(self.other))
    }

    fn differ(&self, first: &[u8], second: Option<&[u8]>, buffer: usize) -> bool {
        let (rust, other) = self.run(first, second, buffer);
        rust != other
    }

    /// The same difference without the calls that it does not need.
    fn shortened(&self, first: &[u8], second: Option<&[u8]>, buffer: usize) -> Difference {
        let first = shortest(first, |list| self.differ(list, second, buffer));
        let second = second.map(|second| shortest(second, |list| self.differ(&first, Some(list), buffer)));
        let (rust, other) = self.run(&first, second.as_deref(), buffer);
        Difference {
            rate: self.rate,
            first,
            second: second.unwrap_or_default(),
            buffer,
            rust,
            other,
        }
    }
}

/// Leaves calls out of a list as long as `fails` holds of it: the list that remains fails, and no one call of it can be
/// left out. Where few calls remain, no shorter choice of them fails.
pub fn shortest(list: &[u8], fails: impl Fn(&[u8]) -> bool) -> Vec<u8> {
    let mut parts = calls_of(list);
    let mut size = parts.len();
    while size > 0 {
        let mut start = 0;
        let mut removed = false;
        while start < parts.len() {
            let end = parts.len().min(start + size);
            let rest = [&parts[..start], &parts[end..]].concat();
            if fails(&rest.concat()) {
                parts = rest;
                removed = true;
            } else {
                start = end;
            }
        }
        // A call that was needed may be needless once a later one is gone.
        if !removed || size > 1 {
            size /= 2;
        }
    }
    if parts.len() > FEW {
        return parts.concat();
    }
    let mut choices: Vec<u32> = (0..1 << parts.len()).collect();
    choices.sort_by_key(|choice| choice.count_ones());
    let chosen = |choice: u32| -> Vec<u8> {
        let kept = (0..parts.len()).filter(|place| choice >> place & 1 == 1);
        kept.flat_map(|place| parts[place].clone()).collect()
    };
    let found = choices.into_iter().map(chosen).find(|list| fails(list));
    found.unwrap_or_else(|| parts.concat())
}

/// As many calls as allow every choice of them to be tried.
const FEW: usize = 14;

/// The calls of a list as bytes; bytes that are not a whole call are the last piece.
fn calls_of(mut list: &[u8]) -> Vec<Vec<u8>> {
    let mut parts = Vec::new();
    while let Ok((_, used)) = Call::decode(list) {
        parts.push(list[..used].to_vec());
        list = &list[used..];
        if list.is_empty() {
            return parts;
        }
    }
    if !list.is_empty() {
        parts.push(list.to_vec());
    }
    parts
}

/// Lists that show what a board holds, each run over the board as it is left: the line; the deadline and the
/// controller; the latches, by reading them out, and then every register byte; the registers backwards, so that a latch
/// is filled before its words are read.
pub fn readouts() -> [Vec<u8>; 4] {
    let read = |address| Call::Read { address };
    let line = [Call::Advance { cycles: 0 }];
    let mut controller = vec![Call::Deadline, Call::Output];
    controller.extend((0..16).map(|address| Call::ControllerRead { address }));
    controller.push(Call::Skip);
    let mut latches = Vec::new();
    for number in 0..CHANNELS {
        let high = of_channel(number, channel::COUNT_HIGH);
        latches.extend((high..high + 4).map(read));
    }
    for word in [registers::SECONDS_HIGH, registers::SECONDS_LOW] {
        latches.extend((word + 1..word + 4).map(read));
    }
    latches.extend((0..registers::SIZE).map(read));
    let backwards: Vec<Call> = (0..registers::SIZE).rev().map(read).collect();
    [&line[..], &controller, &latches, &backwards].map(list_of)
}

impl fmt::Display for Difference {
    fn fmt(&self, f: &mut fmt::Formatter<'_>) -> fmt::Result {
        writeln!(
            f,
            "the boards differ at {} cycles a second, with an answer buffer of {} bytes, after",
            self.rate, self.buffer
        )?;
        write!(f, "{}", calls_text(&self.first))?;
        if !self.second.is_empty() {
            writeln!(f, "and then, as a second list over the board that these leave,")?;
            write!(f, "{}", calls_text(&self.second))?;
        }
        for (name, (outcome, answers)) in [("Rust", &self.rust), ("proved", &self.other)] {
            writeln!(
                f,
                "{name}: calls {}, list bytes {}, answer bytes {}, refusal {}",
                outcome.calls,
                outcome.list_bytes,
                outcome.answer_bytes,
                outcome.refusal_number()
            )?;
            writeln!(
                f,
                "  answers {}",
                hex(&answers[..outcome.answer_bytes.min(answers.len())])
            )?;
        }
        let place = self.rust.1.iter().zip(&self.other.1).position(|(a, b)| a != b);
        match place {
            Some(place) => writeln!(f, "the buffers differ first at byte {place}"),
            None => writeln!(f, "the buffers are equal"),
        }
    }
}

fn calls_text(list: &[u8]) -> String {
    let mut text = String::new();
    for part in calls_of(list) {
        let call = match Call::decode(&part) {
            Ok((call, _)) => format!("{call:?}"),
            Err(refusal) => format!("not a whole call: {refusal}"),
        };
        writeln!(text, "  {}  {call}", hex(&part)).expect("a string takes all text");
    }
    text
}

fn hex(bytes: &[u8]) -> String {
    bytes.iter().map(|byte| format!("{byte:02x}")).collect()
}
