//! Compares the proved board with the original Rust, through the static library.
//!
//! `compare FIRST LAST` compares the lists of the seeds from FIRST to LAST, what the boards hold after each, and lists
//! over parked boards and previews by the same seeds. `compare all FIRST LAST` compares these, and every register with
//! every byte, the clock about its limits, rates that no board has, damaged lists, short buffers, skips to large
//! deadlines, advances with counts of matches at limits, prescalers at their limits, damaged images, moves of images
//! from form to form, fresh boards that are parked, previews to large deadlines, of clocks and of damaged images, the
//! controller by itself, and the dispatcher.
//!
//! The lists of the seeds, the registers, the clock, and parked boards and previews by seed, by damaged images and by
//! moves are compared at each of the three rates, and all else at that of a board without a given rate. Images are in
//! the new form, and at 48,000,000 in the old form too. Prints how many comparisons each kind made and ends with how
//! many agreed, or prints the shortest list that shows a difference.
//!
//! The Rust has neither the counts in an advance's answer nor the dispatcher nor images. There the proved board is
//! compared with the oracle's own reading of S-4, of S-3, and of S-1 and S-8. The Rust has no previews either: each
//! byte of a preview is compared with an advance of the Rust on a board of its own.

use std::process::ExitCode;
use std::sync::atomic::{AtomicU64, Ordering::Relaxed};
use std::time::Instant;

use calls::{Refusal, DEFAULT_RATE, RATES};
use oracle::compare::clock::{self, AtRates};
use oracle::compare::parked::{self, Parking};
use oracle::compare::{controller, dispatcher, matches, passes, prescaler, previews, skips};
use oracle::compare::{shared, Count, Difference, Pair};
use oracle::dispatcher::Turn;
use oracle::image::Form;
use oracle::list::Runner;
use oracle::proved;

const AT_RATES: AtRates = AtRates {
    run: pec::run_at,
    run_repeated: pec::run_repeated_at,
};

const PARKING: Parking = Parking {
    fresh: pec::park_fresh,
    fresh_at: pec::park_fresh_at,
    form: proved_form,
    run: pec::run_parked,
    forward: pec::move_forward,
    back: pec::move_back,
};

/// The form of an image by the proved board, or the refusal of reading it.
fn proved_form(image: &[u8]) -> Result<Form, Refusal> {
    Ok(match pec::image_form(image)? {
        pec::Form::Old => Form::Old,
        pec::Form::New => Form::New,
    })
}

/// A turn of the proved dispatcher on pending, enable and levels, after a remembered number.
fn proved_turn([pending, enable, levels]: [u16; 3], last: u8) -> Turn {
    let mut irqc = pec::Controller::from_words(pending, enable, levels);
    let mut dispatcher = pec::Dispatcher::from_last(last);
    let served = dispatcher.next(&mut irqc);
    Turn {
        words: controller::proved_words(&irqc),
        served,
        remembered: dispatcher.last(),
    }
}

/// The Rust and the proved board at a rate.
fn pair(rate: u32, runner: fn(u32) -> Option<Runner>) -> Pair {
    Pair::at(rate, runner(rate).expect("the rate is one of the three"))
}

fn main() -> ExitCode {
    let arguments: Vec<String> = std::env::args().skip(1).collect();
    let arguments: Vec<&str> = arguments.iter().map(String::as_str).collect();
    let (all, first, last) = match arguments[..] {
        [first, last] => (false, first.parse::<u64>(), last.parse::<u64>()),
        ["all", first, last] => (true, first.parse(), last.parse()),
        _ => return usage(),
    };
    let (Ok(first), Ok(last)) = (first, last) else {
        return usage();
    };
    if last < first {
        return usage();
    }
    match compare(all, first, last) {
        Ok(count) => {
            println!("{} comparisons agree, {} calls", count.comparisons, count.calls);
            ExitCode::SUCCESS
        }
        Err(text) => {
            eprintln!("compare: {text}");
            ExitCode::FAILURE
        }
    }
}

fn usage() -> ExitCode {
    eprintln!("usage: compare [all] FIRST LAST (seeds, decimal, 64 bits)");
    ExitCode::FAILURE
}

fn compare(all: bool, first: u64, last: u64) -> Result<Count, String> {
    let mut total = Count::default();
    for rate in RATES {
        let mut own = 0;
        let lists = part(&at("lists by seed", rate), &mut total, || {
            let pair = pair(rate, proved::runner);
            let mut count = Count::default();
            for seed in first..=last {
                own += passes::seed_calls(&pair, seed);
                count.add(passes::seed(&pair, seed).map_err(|difference| format!("seed {seed}: {difference}"))?);
            }
            Ok(count)
        });
        lists?;
        println!("  of these, {own} calls of the seeds' own lists");
    }
    let by_seed = |compare: &(dyn Fn(u64) -> Result<Count, String> + Sync)| {
        shared(first..=last, |seed| {
            compare(seed).map_err(|reason| format!("seed {seed}: {reason}"))
        })
    };
    for (form, rate) in parked::forms() {
        let name = at(&of_form("parked boards", form, "by seed"), rate);
        part(&name, &mut total, || {
            by_seed(&|seed| parked::seed(&PARKING, form, rate, seed))
        })?;
    }
    let shown = AtomicU64::new(0);
    let preview = |image: &[u8], totals: &[u64], high: &mut [u8]| {
        let previewed = pec::preview_parked(image, totals, high);
        shown.fetch_add(if previewed.is_ok() { totals.len() as u64 } else { 0 }, Relaxed);
        previewed
    };
    for (form, rate) in parked::forms() {
        let name = at(&of_form("previews", form, "by seed"), rate);
        part(&name, &mut total, || {
            by_seed(&|seed| previews::seed(&preview, form, rate, seed))
        })?;
    }
    if all {
        part("previews to large deadlines", &mut total, || previews::limits(&preview))?;
        for (form, rate) in parked::forms() {
            let name = at(&of_form("previews of clocks", form, ""), rate);
            part(&name, &mut total, || previews::clocks(&preview, form, rate))?;
            let name = at(&of_form("previews of damaged images", form, ""), rate);
            part(&name, &mut total, || previews::images(&preview, form, rate))?;
        }
    }
    let shown = shown.into_inner();
    println!("  in these, {shown} totals, each against an advance of the Rust");
    if all {
        let text = |difference: Box<Difference>| difference.to_string();
        let default = pair(DEFAULT_RATE, proved::runner);
        for rate in RATES {
            part(&at("registers", rate), &mut total, || {
                passes::registers(&pair(rate, proved::runner)).map_err(text)
            })?;
        }
        for rate in RATES {
            part(&at("the clock", rate), &mut total, || {
                clock::lists(&pair(rate, proved::runner_at)).map_err(text)
            })?;
        }
        part("rates that no board has, and the three", &mut total, || {
            clock::rates(&AT_RATES)
        })?;
        part("damaged lists", &mut total, || passes::damaged(&default).map_err(text))?;
        part("short buffers", &mut total, || {
            passes::short_buffers(&default).map_err(text)
        })?;
        part("skips", &mut total, || skips::lists(&default).map_err(text))?;
        part("skips of parked boards", &mut total, || skips::parked(&PARKING))?;
        part("matches", &mut total, || matches::lists(&default).map_err(text))?;
        println!("  in these as in all lists, an advance's counts are against the oracle's own reading of S-4");
        part("prescalers", &mut total, || prescaler::lists(&default).map_err(text))?;
        part("prescalers of parked boards", &mut total, || {
            prescaler::parked(&PARKING)
        })?;
        for (form, rate) in parked::forms() {
            let name = at(&of_form("damaged images", form, ""), rate);
            part(&name, &mut total, || parked::damaged(&PARKING, form, rate))?;
        }
        for rate in RATES {
            part(&at("moves from form to form", rate), &mut total, || {
                parked::moves(&PARKING, rate)
            })?;
        }
        part("fresh boards' images", &mut total, || parked::fresh(&PARKING))?;
        part("controller", &mut total, controller::compare)?;
        let mut turns = 0_u64;
        part("dispatcher", &mut total, || {
            dispatcher::compare(|words, last| {
                turns += 1;
                proved_turn(words, last)
            })
        })?;
        println!("  in these, {turns} turns of the dispatcher, against the oracle's own reading of S-3");
    }
    Ok(total)
}

/// The name of a comparison, with the form of its images where that is the old one.
fn of_form(name: &str, form: Form, way: &str) -> String {
    let form = match form {
        Form::Old => "of the old form",
        Form::New => "",
    };
    let words = [name, form, way];
    words
        .into_iter()
        .filter(|word| !word.is_empty())
        .collect::<Vec<_>>()
        .join(" ")
}

/// The name of a comparison, with its rate.
fn at(name: &str, rate: u32) -> String {
    format!("{name} at {} cycles a second", thousands(rate))
}

/// A number with its digits in groups of three.
fn thousands(number: u32) -> String {
    let digits = number.to_string();
    let groups = digits.as_bytes().rchunks(3).rev();
    let groups = groups.map(|group| std::str::from_utf8(group).expect("digits are ASCII"));
    groups.collect::<Vec<_>>().join(",")
}

fn part(name: &str, total: &mut Count, compare: impl FnOnce() -> Result<Count, String>) -> Result<(), String> {
    let start = Instant::now();
    let count = compare()?;
    total.add(count);
    let seconds = start.elapsed().as_secs_f64();
    println!(
        "{name}: {} comparisons, {} calls, {seconds:.1} s",
        count.comparisons, count.calls
    );
    Ok(())
}
