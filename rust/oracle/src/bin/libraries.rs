//! Measures builds of the proved library side by side on the lists of `bench`: the present one and earlier ones.
//!
//! `libraries FILE...`, each a shared library that has `pec_run_repeated`, prints for each kind of list and each
//! library the nanoseconds a call, median and spread of 25 repeats taken in turns, the median of their ratios to the
//! repeats of the first library, and the instructions a call. It counts these by running itself under callgrind:
//! `libraries repeat NAME FILE TIMES` repeats the list of that name TIMES times.
//!
//! The libraries must agree in every answer, as far as the shorter answer goes: an earlier library may give fewer
//! members. Some take no rate, so all are measured on boards without a given rate.

use std::env;
use std::ffi::{c_char, c_int, c_void, CStr, CString};
use std::mem::transmute;
use std::process::ExitCode;
use std::time::Instant;

use calls::{list_of, DEFAULT_RATE};
use oracle::kinds::{self, Kind, BUFFER};
use oracle::measure::{agree, instructions_each, median_ratio, nanoseconds_each, REPEATS};

// The C library's loader.
unsafe extern "C" {
    fn dlopen(file: *const c_char, flags: c_int) -> *mut c_void;
    fn dlsym(library: *mut c_void, name: *const c_char) -> *mut c_void;
    fn dlerror() -> *const c_char;
}

/// Every symbol is resolved when the library is loaded, so that a run resolves none.
const RTLD_NOW: c_int = 2;

/// `pec_run_repeated` of rust/pec/include/pec.h.
type RunRepeated = unsafe extern "C" fn(
    *const u8,
    usize,
    *const u8,
    usize,
    u64,
    *mut u8,
    usize,
    *mut usize,
    *mut usize,
    *mut usize,
) -> u8;

/// A build of the proved library, loaded.
struct Library {
    file: String,
    run_repeated: RunRepeated,
}

impl Library {
    fn load(file: &str) -> Result<Self, String> {
        let path = CString::new(file).map_err(|_| format!("{file:?} is no file's name"))?;
        // SAFETY: the strings end with 0; a library is not unloaded; the code of libpec.a runs nothing when it is
        // loaded; and the function has the type that pec.h gives it, in every build of the library.
        let found = unsafe {
            let library = dlopen(path.as_ptr(), RTLD_NOW);
            let symbol = if library.is_null() {
                library
            } else {
                dlsym(library, c"pec_run_repeated".as_ptr())
            };
            if symbol.is_null() {
                return Err(format!("{file}: {}", CStr::from_ptr(dlerror()).to_string_lossy()));
            }
            transmute::<*mut c_void, RunRepeated>(symbol)
        };
        Ok(Self {
            file: file.to_string(),
            run_repeated: found,
        })
    }

    /// Runs a kind's two lists, as bytes: the first over a fresh board, and then the other `times` times. Gives the
    /// bytes of the last answers.
    fn repeat(
        &self,
        kind: &Kind,
        [first, list]: &[Vec<u8>; 2],
        times: u64,
        answers: &mut [u8],
    ) -> Result<usize, String> {
        let (mut calls, mut used, mut written) = (0, 0, 0);
        // SAFETY: the pointers and lengths are those of slices and numbers that live through the call, and none of what
        // is written overlaps anything else that is lent.
        let refusal = unsafe {
            (self.run_repeated)(
                first.as_ptr(),
                first.len(),
                list.as_ptr(),
                list.len(),
                times,
                answers.as_mut_ptr(),
                answers.len(),
                &mut calls,
                &mut used,
                &mut written,
            )
        };
        if (refusal, calls, used) != (0, kind.list.len(), list.len()) {
            return Err(format!(
                "{}, {}: refusal {refusal} after {calls} calls",
                kind.name, self.file
            ));
        }
        Ok(written)
    }
}

fn main() -> ExitCode {
    let arguments: Vec<String> = env::args().skip(1).collect();
    let arguments: Vec<&str> = arguments.iter().map(String::as_str).collect();
    let done = match arguments[..] {
        ["repeat", name, file, times] => repeat(name, file, times),
        [] | ["repeat", ..] => Err("usage: libraries FILE...".into()),
        ref files => table(files),
    };
    match done {
        Ok(()) => ExitCode::SUCCESS,
        Err(reason) => {
            eprintln!("libraries: {reason}");
            ExitCode::FAILURE
        }
    }
}

fn table(files: &[&str]) -> Result<(), String> {
    let libraries: Vec<Library> = files.iter().map(|file| Library::load(file)).collect::<Result<_, _>>()?;
    println!("| List | Library | ns a call | ratio to the first | instructions a call |");
    println!("|---|---|---|---|---|");
    for kind in kinds::named(DEFAULT_RATE, None) {
        measure(&kind, &libraries)?;
    }
    Ok(())
}

/// The list that prepares the board, and the list that is measured.
fn lists(kind: &Kind) -> [Vec<u8>; 2] {
    [&kind.first, &kind.list].map(|calls| list_of(calls))
}

fn measure(kind: &Kind, libraries: &[Library]) -> Result<(), String> {
    let lists = lists(kind);
    let mut seconds: Vec<Vec<f64>> = libraries.iter().map(|_| Vec::new()).collect();
    let mut answers: Vec<Vec<u8>> = libraries.iter().map(|_| vec![0; BUFFER]).collect();
    // They take turns, so that a slow moment of the machine affects all.
    for _ in 0..REPEATS {
        for ((library, seconds), answers) in libraries.iter().zip(&mut seconds).zip(&mut answers) {
            answers.resize(BUFFER, 0);
            let start = Instant::now();
            let written = library.repeat(kind, &lists, kind.times, answers)?;
            seconds.push(start.elapsed().as_secs_f64());
            answers.truncate(written);
        }
    }
    let calls = kind.list.len() as u64 * kind.times;
    for ((library, own), answers_of_it) in libraries.iter().zip(&seconds).zip(&answers) {
        if !agree(&answers[0], answers_of_it) {
            return Err(format!("{}, {}: the answers differ", kind.name, library.file));
        }
        println!(
            "| {} | {} | {} | {:.2} | {} |",
            kind.name,
            library.file,
            nanoseconds_each(own, calls),
            median_ratio(own, &seconds[0]),
            instructions_each(&["repeat", kind.name, &library.file], kind.list.len())?,
        );
    }
    Ok(())
}

/// Repeats a list that many times. This is what is counted.
fn repeat(name: &str, file: &str, times: &str) -> Result<(), String> {
    let times: u64 = times.parse().map_err(|_| "the repetitions are a number")?;
    let kinds = kinds::named(DEFAULT_RATE, Some(name));
    let kind = kinds.first().ok_or("no kind of that name")?;
    let library = Library::load(file)?;
    library.repeat(kind, &lists(kind), times, &mut vec![0; BUFFER])?;
    Ok(())
}
