//! Times the proved board and the original Rust on the same lists, through the same driver.
//!
//! The Rust does not count the matches of an advance, so it is timed without the oracle's counts: the driver writes
//! zeros in their place. The answers that the proved board was timed on are compared with an untimed run that counts.
//!
//! `bench` prints, for each kind of list, the nanoseconds a call of both, median and spread of 25 repeats; the median
//! of the ratios of neighbouring repeats; and the seconds of a ten-year record. Above its table it prints how the Rust
//! is built. Then it prints the nanoseconds of work on parked boards, which only the proved board has, and their ratios
//! to an advance inside a long list; and those of previews, with their ratios to an advance of a copy of the Rust's
//! board. `bench NAME` prints one kind alone, `bench parking` the parked boards, `bench previews` the previews.
//! `bench --rate RATE [NAME]` prints the lists at another rate; the other work is on a board at 48,000,000.

use std::process::ExitCode;
use std::time::Instant;

use calls::list_of;
use oracle::kinds::{self, previews, Group, Kind, BUFFER, CALLS};
use oracle::measure::{median_ratio, nanoseconds_each, rate_asked, sorted, REPEATS};
use oracle::{list, matches, proved};

/// How often one repeat carries out an operation of a group.
const TIMES: u64 = 100 * CALLS as u64;

fn main() -> ExitCode {
    if cfg!(debug_assertions) {
        return failed("not built for release");
    }
    let arguments: Vec<String> = std::env::args().skip(1).collect();
    let arguments: Vec<&str> = arguments.iter().map(String::as_str).collect();
    let (rate, wanted) = match rate_asked(&arguments) {
        Ok((rate, [])) => (rate, None),
        Ok((rate, [name])) => (rate, Some(*name)),
        Ok(_) => return failed("usage: bench [--rate RATE] [NAME]"),
        Err(reason) => return failed(&reason),
    };
    let kinds = kinds::named(rate, wanted);
    let groups = kinds::groups(rate, wanted);
    if kinds.is_empty() && groups.is_empty() {
        return failed("no kind of that name");
    }
    if !kinds.is_empty() {
        println!("The Rust is built for release with {}.", release_profile());
        println!("The boards have {rate} cycles a second.\n");
        println!("| List | Calls | Rust, ns a call | proved, ns a call | ratio | Rust, s | proved, s |");
        println!("|---|---|---|---|---|---|---|");
    }
    for kind in &kinds {
        measure(rate, kind);
    }
    assert!(previews::agree(), "the previews are not what advances of copies show");
    for group in &groups {
        measure_group(group);
    }
    ExitCode::SUCCESS
}

fn failed(reason: &str) -> ExitCode {
    eprintln!("bench: {reason}");
    ExitCode::FAILURE
}

/// Measures the operations of a group, in turn as with the lists.
fn measure_group(group: &Group) {
    let operations = group.operations;
    let mut seconds: Vec<Vec<f64>> = operations.iter().map(|_| Vec::new()).collect();
    for _ in 0..REPEATS {
        for (operation, seconds) in operations.iter().zip(&mut seconds) {
            let start = Instant::now();
            (operation.repeat)(TIMES);
            seconds.push(start.elapsed().as_secs_f64());
        }
    }
    let last = seconds.last().expect("there are operations").clone();
    println!("\n{}:\n", group.title);
    println!("| Operation | Times | ns each | {} |", group.ratio);
    println!("|---|---|---|---|");
    for (operation, seconds) in operations.iter().zip(seconds) {
        println!(
            "| {} | {TIMES} | {} | {:.2} |",
            operation.name,
            nanoseconds_each(&seconds, TIMES),
            median_ratio(&seconds, &last)
        );
    }
}

/// The settings of a release build, as Cargo.toml has them.
fn release_profile() -> String {
    let manifest = include_str!("../../Cargo.toml").lines();
    let settings = manifest.skip_while(|line| *line != "[profile.release]").skip(1);
    let settings: Vec<&str> = settings.take_while(|line| !line.is_empty()).collect();
    settings.join(", ")
}

fn measure(rate: u32, kind: &Kind) {
    let of_rate = "the rate is one of the three";
    let runners = [list::uncounted_runner(rate), proved::runner(rate)].map(|runner| runner.expect(of_rate));
    let counting = list::runner(rate).expect(of_rate);
    let first = list_of(&kind.first);
    let list = list_of(&kind.list);
    let calls = kind.list.len() as u64 * kind.times;
    let mut seconds: [Vec<f64>; 2] = [Vec::new(), Vec::new()];
    let mut buffers = [vec![0; BUFFER], vec![0; BUFFER]];
    // The two take turns, so that a slow moment of the machine affects both, and each ratio is that of neighbouring
    // repeats.
    for _ in 0..REPEATS {
        for ((runner, seconds), buffer) in runners.into_iter().zip(&mut seconds).zip(&mut buffers) {
            let start = Instant::now();
            let outcome = runner(&first, &list, kind.times, buffer);
            seconds.push(start.elapsed().as_secs_f64());
            assert_eq!(outcome.refusal, None, "{}", kind.name);
            assert_eq!(outcome.calls, kind.list.len(), "{}", kind.name);
        }
    }
    let mut counted = vec![0; BUFFER];
    let outcome = counting(&first, &list, kind.times, &mut counted);
    assert!(buffers[1] == counted, "{}: the answers differ", kind.name);
    counted.truncate(outcome.answer_bytes);
    matches::zero_counts(&mut counted);
    let timed = &buffers[0][..outcome.answer_bytes];
    assert!(timed == counted, "{}: the Rust's timed answers differ", kind.name);
    let [rust, proved] = &seconds;
    let [rust_median, proved_median] = [rust, proved].map(|seconds| sorted(seconds.clone())[REPEATS / 2]);
    println!(
        "| {} | {calls} | {} | {} | {:.2} | {rust_median:.2} | {proved_median:.2} |",
        kind.name,
        nanoseconds_each(rust, calls),
        nanoseconds_each(proved, calls),
        median_ratio(proved, rust),
    );
}
