//! What a simulator's author would write: program a channel, ask for the deadline, skip to the interrupt, acknowledge;
//! park the board on Friday, take it up on Monday, jump over many periods, and keep one record of both days.
//!
//! `cargo run --example deadline -- IMAGE` parks the board in the file IMAGE. It prints each day's deadline, the cycles
//! that each skip passed and the matches of each advance. With `IMAGE FRIDAY` it does not run Friday's calls: it reads
//! the board from the file FRIDAY, an image in either form that an earlier program parked, and prints its form. It
//! reports what it cannot do, and ends with status 1.

use std::env;
use std::error::Error;
use std::ffi::OsString;
use std::fs::{self, File};
use std::io::{self, Write};
use std::path::{Path, PathBuf};
use std::process::ExitCode;

use pec::{answers, image_form, list_of, Answer, Board, Call, Form};

/// Addresses of the registers' last bytes; a channel's own registers are channel 0's.
const TIMER_ENABLE: u16 = 0x07;
const TIMER_ACK: u16 = 0x0F;
const CONTROL: u16 = 0x283;
const COMPARE_LOW: u16 = 0x293;
const RELOAD_LOW: u16 = 0x29B;
const PRESCALER: u16 = 0x2A3;

fn write(address: u16, byte: u8) -> Call {
    Call::Write { address, byte }
}

/// Friday's calls. Channel 0, periodic, a tick every 3 cycles, a match every 10 ticks; interrupt and channel enabled.
/// They end before its second interrupt.
fn friday() -> Vec<Call> {
    vec![
        write(PRESCALER, 2),
        write(COMPARE_LOW, 10),
        write(RELOAD_LOW, 10),
        write(CONTROL, 0b1101),
        write(TIMER_ENABLE, 1),
        Call::Deadline,
        Call::Skip,
        write(TIMER_ACK, 1),
        Call::Advance { cycles: 13 },
    ]
}

/// Monday's calls: the remaining cycles to the second interrupt, and the third; then one long advance over many
/// periods.
fn monday() -> Vec<Call> {
    vec![
        Call::Deadline,
        Call::Skip,
        write(TIMER_ACK, 1),
        Call::Skip,
        write(TIMER_ACK, 1),
        Call::Advance { cycles: 1_000_000 },
    ]
}

/// Runs calls over a board, prints their answers and appends these to the record.
fn run(board: &mut Board, calls: &[Call], record: &mut Vec<u8>) -> Result<(), Box<dyn Error>> {
    let start = record.len();
    record.resize(start + calls.iter().map(Call::answer_bytes).sum::<usize>(), 0);
    let outcome = board.run(&list_of(calls), &mut record[start..]);
    record.truncate(start + outcome.answer_bytes);
    for answer in answers(&record[start..]) {
        match answer? {
            (_, Answer::Deadline { exact, .. }) => println!("deadline: {exact}"),
            (_, Answer::Skip { passed, line }) => {
                println!("interrupt after {passed} cycles, line {}", u8::from(line))
            }
            (_, Answer::Advance { line, matches }) => {
                println!("advanced, line {}, {} matches of channel 0", u8::from(line), matches[0])
            }
            _ => {}
        }
    }
    match outcome.refusal {
        Some(refusal) => Err(format!("{:?} was refused: {refusal}", calls[outcome.calls]).into()),
        None => Ok(()),
    }
}

/// Writes the image, in the new form, to a file beside the named one, and renames it once it is on the disk: a crash
/// leaves the old image or the new one. Where writing or renaming fails, the old image stays, and nothing is left
/// beside it.
fn park(board: &Board, path: &Path) -> io::Result<()> {
    let mut beside = OsString::from(path);
    beside.push(".new");
    let beside = PathBuf::from(beside);
    let mut file = File::create(&beside)?;
    let written = file.write_all(board.image()).and_then(|()| file.sync_all());
    if let Err(error) = written.and_then(|()| fs::rename(&beside, path)) {
        // The error to report is the first one: why the image was not parked.
        let _ = fs::remove_file(&beside);
        return Err(error);
    }
    // The new name is on the disk once the directory is.
    let directory = match path.parent() {
        Some(directory) if directory != Path::new("") => directory,
        _ => Path::new("."),
    };
    File::open(directory)?.sync_all()
}

/// The board that is parked in a file, and the form of its image.
fn resume(path: &Path) -> Result<(Board, Form), Box<dyn Error>> {
    let read = || -> Result<_, Box<dyn Error>> {
        let image = fs::read(path)?;
        Ok((Board::from_image(&image)?, image_form(&image)?))
    };
    read().map_err(|error| format!("{}: {error}", path.display()).into())
}

/// Friday's board: what an earlier program parked, or what Friday's calls leave.
fn on_friday(earlier: Option<&Path>, record: &mut Vec<u8>) -> Result<Board, Box<dyn Error>> {
    println!("Friday");
    if let Some(path) = earlier {
        let (board, form) = resume(path)?;
        let form = match form {
            Form::Old => "old",
            Form::New => "new",
        };
        println!("an image of the {form} form, {} cycles a second", board.rate());
        return Ok(board);
    }
    let mut board = Board::fresh();
    run(&mut board, &friday(), record)?;
    Ok(board)
}

fn on_monday(path: &Path, record: &mut Vec<u8>) -> Result<(), Box<dyn Error>> {
    println!("Monday");
    let (mut board, _) = resume(path)?;
    run(&mut board, &monday(), record)
}

fn both_days(path: &Path, earlier: Option<&Path>) -> Result<(), Box<dyn Error>> {
    let mut record = Vec::new();
    let mut board = on_friday(earlier, &mut record)?;
    park(&board, path).map_err(|error| format!("{}: {error}", path.display()))?;
    on_monday(path, &mut record)?;

    // The record is the same as that of a simulation without a stop.
    let mut whole = vec![0; record.len()];
    let outcome = match earlier {
        None => pec::run(&list_of(&[friday(), monday()].concat()), &mut whole),
        Some(_) => board.run(&list_of(&monday()), &mut whole),
    };
    assert_eq!((outcome.refusal, outcome.answer_bytes), (None, record.len()));
    assert_eq!(record, whole);
    println!("one record of {} bytes", record.len());
    Ok(())
}

fn main() -> ExitCode {
    let arguments: Vec<OsString> = env::args_os().skip(1).collect();
    let (path, earlier) = match &arguments[..] {
        [path] => (path, None),
        [path, earlier] => (path, Some(Path::new(earlier))),
        _ => {
            eprintln!("usage: deadline IMAGE [FRIDAY] (the file to park the board in; one that was parked earlier)");
            return ExitCode::FAILURE;
        }
    };
    match both_days(Path::new(path), earlier) {
        Ok(()) => ExitCode::SUCCESS,
        Err(error) => {
            eprintln!("deadline: {error}");
            ExitCode::FAILURE
        }
    }
}
