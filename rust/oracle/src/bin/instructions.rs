//! Counts the instructions of the proved board and of the original Rust on the lists of `bench`. The Rust does not
//! count the matches of an advance, so its run is the one without the oracle's counts: the driver writes zeros in their
//! place.
//!
//! `instructions` prints, for each kind of list, the instructions a call of both, and then those of work on parked
//! boards, which only the proved board has, and of previews. `instructions NAME` prints one kind alone,
//! `instructions parking` the parked boards, `instructions previews` the previews. `instructions --rate RATE [NAME]`
//! prints the lists at another rate; the other work is on a board at 48,000,000. It counts by running itself under
//! callgrind: `instructions --rate RATE NAME BOARD TIMES` repeats the list of that name TIMES times, and
//! `instructions NAME TIMES` the operation of that name 4,000 times as often.

use std::env;
use std::process::ExitCode;

use calls::list_of;
use oracle::kinds::{self, BUFFER, CALLS, GROUPS};
use oracle::list::{self, Runner};
use oracle::measure::{instructions_each, rate_asked};
use oracle::proved;

/// A board's name, and its runner at a rate.
type Board = (&'static str, fn(u32) -> Option<Runner>);

const BOARDS: [Board; 2] = [("Rust", list::uncounted_runner), ("Proved", proved::runner)];

fn main() -> ExitCode {
    let arguments: Vec<String> = env::args().skip(1).collect();
    let arguments: Vec<&str> = arguments.iter().map(String::as_str).collect();
    let done = rate_asked(&arguments).and_then(|(rate, others)| match *others {
        [] => table(rate, None),
        [name] => table(rate, Some(name)),
        [name, times] => repeat_operation(name, times),
        [name, board, times] => repeat_list(rate, name, board, times),
        _ => Err("usage: instructions [--rate RATE] [NAME]".into()),
    });
    match done {
        Ok(()) => ExitCode::SUCCESS,
        Err(reason) => {
            eprintln!("instructions: {reason}");
            ExitCode::FAILURE
        }
    }
}

fn table(rate: u32, wanted: Option<&str>) -> Result<(), String> {
    let kinds = kinds::named(rate, wanted);
    let groups = kinds::groups(rate, wanted);
    if kinds.is_empty() && groups.is_empty() {
        return Err("no kind of that name".into());
    }
    let [rust, proved] = BOARDS.map(|(board, _)| board);
    if !kinds.is_empty() {
        println!("| List | {rust} | {proved} |");
        println!("|---|---|---|");
    }
    for kind in &kinds {
        let rate = rate.to_string();
        let counted = |board| instructions_each(&["--rate", &rate, kind.name, board], kind.list.len());
        let [rust, proved] = [rust, proved].map(counted);
        println!("| {} | {} | {} |", kind.name, rust?, proved?);
    }
    for group in &groups {
        println!("\n{}:\n", group.title);
        println!("| Operation | Instructions |");
        println!("|---|---|");
        for operation in group.operations {
            let each = instructions_each(&[operation.name], CALLS)?;
            println!("| {} | {each} |", operation.name);
        }
    }
    Ok(())
}

/// The given number of repetitions.
fn repetitions(times: &str) -> Result<u64, String> {
    times.parse().map_err(|_| "the repetitions are a number".into())
}

/// Carries out an operation as often as a list repeated that many times has calls. This is what is counted.
fn repeat_operation(name: &str, times: &str) -> Result<(), String> {
    let mut operations = GROUPS.iter().flat_map(|group| group.operations);
    let operation = operations.find(|operation| operation.name == name);
    let operation = operation.ok_or("no operation of that name")?;
    (operation.repeat)(repetitions(times)? * CALLS as u64);
    Ok(())
}

/// Repeats a list that many times on a board at a rate. This is what is counted.
fn repeat_list(rate: u32, name: &str, board: &str, times: &str) -> Result<(), String> {
    let times = repetitions(times)?;
    let (board, runner) = BOARDS
        .into_iter()
        .find(|(named, _)| *named == board)
        .ok_or("no board of that name")?;
    let runner = runner(rate).ok_or("no board of that rate")?;
    let kinds = kinds::named(rate, Some(name));
    let kind = kinds.first().ok_or("no kind of that name")?;
    let mut answers = vec![0; BUFFER];
    let outcome = runner(&list_of(&kind.first), &list_of(&kind.list), times, &mut answers);
    if let Some(refusal) = outcome.refusal {
        return Err(format!(
            "{name}, {board}: call {} was refused: {refusal}",
            outcome.calls
        ));
    }
    Ok(())
}
