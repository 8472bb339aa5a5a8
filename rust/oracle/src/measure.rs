//! What the measuring programs share: the rate asked for, repeats in nanoseconds, instructions counted by callgrind,
//! and whether two builds of the library give the same answers.

use std::env;
use std::iter;
use std::process::Command;

use calls::{DEFAULT_RATE, HEADER_LENGTH, NANOSECONDS_PER_SECOND, RATES};

/// How often each measured piece of work is timed.
pub const REPEATS: usize = 25;

/// The repetitions of a list in the two runs whose instructions are compared. Both have the first repetition, which
/// leaves a board as the later ones find it.
const REPETITIONS: [u64; 2] = [1, 9];

/// The rate that the arguments begin with, as `--rate RATE`, or else the rate of a board without a given one; and the
/// other arguments. An error where it is none of the three.
pub fn rate_asked<'a>(arguments: &'a [&'a str]) -> Result<(u32, &'a [&'a str]), String> {
    match arguments {
        ["--rate", rate, others @ ..] => match rate.parse() {
            Ok(rate) if RATES.contains(&rate) => Ok((rate, others)),
            _ => Err(format!("the rate is one of {RATES:?}")),
        },
        others => Ok((DEFAULT_RATE, others)),
    }
}

pub fn sorted(mut values: Vec<f64>) -> Vec<f64> {
    values.sort_by(f64::total_cmp);
    values
}

/// The median of the ratios of neighbouring repeats.
pub fn median_ratio(seconds: &[f64], to: &[f64]) -> f64 {
    sorted(seconds.iter().zip(to).map(|(one, other)| one / other).collect())[REPEATS / 2]
}

/// Median and spread of some repeats in nanoseconds, for one of the times that a repeat does its work.
pub fn nanoseconds_each(seconds: &[f64], times: u64) -> String {
    let seconds = sorted(seconds.to_vec());
    let scale = f64::from(NANOSECONDS_PER_SECOND) / times as f64;
    let [least, median, most] = [0, REPEATS / 2, REPEATS - 1].map(|at| seconds[at] * scale);
    format!("{median:.1} ({least:.1} to {most:.1})")
}

/// The instructions of each of a repetition's calls or operations, to the nearest whole number: what the further
/// repetitions add. The work of both runs does not count: the start, the making of the lists and the preparing of the
/// board. The program that runs is this one, with these arguments and then the number of repetitions.
pub fn instructions_each(arguments: &[&str], count: usize) -> Result<u64, String> {
    let [fewer, more] = REPETITIONS;
    let added = instructions(arguments, more)? - instructions(arguments, fewer)?;
    let calls = count as u64 * (more - fewer);
    Ok((added + calls / 2) / calls)
}

/// The instructions of a whole run of this program, as callgrind counts them.
fn instructions(arguments: &[&str], times: u64) -> Result<u64, String> {
    let program = env::current_exe().map_err(|error| format!("this program is not found: {error}"))?;
    let output = Command::new("valgrind")
        .args(["--tool=callgrind", "--callgrind-out-file=/dev/null"])
        .arg(program)
        .args(arguments)
        .arg(times.to_string())
        .output()
        .map_err(|error| format!("valgrind, which counts the instructions, cannot be run: {error}"))?;
    let said = String::from_utf8_lossy(&output.stderr);
    let what = arguments.join(", ");
    if !output.status.success() {
        return Err(format!("valgrind failed on {what}:\n{said}"));
    }
    let counted = said.lines().find_map(|line| line.split_once("Collected : "));
    counted
        .and_then(|(_, number)| number.trim().parse().ok())
        .ok_or_else(|| format!("valgrind gave no count on {what}:\n{said}"))
}

/// Whether two buffers of answers have the same tags and the same bytes, as far as the shorter answer of each pair
/// goes.
pub fn agree(one: &[u8], other: &[u8]) -> bool {
    records(one).count() == records(other).count()
        && records(one).zip(records(other)).all(|(one, other)| {
            let common = one.1.len().min(other.1.len());
            one.0 == other.0 && one.1[..common] == other.1[..common]
        })
}

/// The answers of a run: tag and members.
fn records(mut answers: &[u8]) -> impl Iterator<Item = (u8, &[u8])> {
    iter::from_fn(move || {
        let (header, rest) = answers.split_at_checked(HEADER_LENGTH)?;
        let length = u16::from_be_bytes([header[1], header[2]]);
        let (members, rest) = rest.split_at_checked(length.into())?;
        answers = rest;
        Some((header[0], members))
    })
}
