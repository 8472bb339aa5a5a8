//! `oracle` runs a call list from standard input and prints what document 01 says that `listrun` prints.
//! `oracle generate SEED` writes a generated list to standard output, as raw bytes.

use std::io::{self, Read, Write};
use std::process::ExitCode;

use calls::{answers, HEADER_LENGTH};
use oracle::board::Board;
use oracle::{generate, list};

/// The largest list, and the length of the answer buffer.
const LIMIT: usize = 32_768;

fn main() -> ExitCode {
    let arguments: Vec<String> = std::env::args().skip(1).collect();
    let arguments: Vec<&str> = arguments.iter().map(String::as_str).collect();
    let output = match arguments[..] {
        [] => read_list().map(|list| run_list(&list).into_bytes()),
        ["generate", seed] => match seed.parse() {
            Ok(seed) => Ok(generate::list(seed).list),
            Err(_) => return usage(),
        },
        _ => return usage(),
    };
    match output.and_then(|bytes| io::stdout().write_all(&bytes)) {
        Ok(()) => ExitCode::SUCCESS,
        Err(error) => {
            eprintln!("oracle: {error}");
            ExitCode::FAILURE
        }
    }
}

fn usage() -> ExitCode {
    eprintln!("usage: oracle < LIST, or oracle generate SEED (decimal, 64 bits)");
    ExitCode::FAILURE
}

/// Standard input, read only as far as shows whether it is too long.
fn read_list() -> io::Result<Vec<u8>> {
    let mut list = Vec::new();
    io::stdin().take(LIMIT as u64 + 1).read_to_end(&mut list)?;
    Ok(list)
}

fn run_list(list: &[u8]) -> String {
    if list.len() > LIMIT {
        return "too long\n".to_string();
    }
    let mut buffer = vec![0; LIMIT];
    let outcome = list::run(&mut Board::fresh(), list, &mut buffer);
    let mut text = print_answers(&buffer[..outcome.answer_bytes]);
    text.push_str(&format!(
        "end {} {} {}\n",
        outcome.calls,
        outcome.refusal_number(),
        outcome.list_bytes
    ));
    text
}

fn print_answers(buffer: &[u8]) -> String {
    let mut text = String::new();
    for record in answers(buffer) {
        let (tag, answer) = record.expect("a run writes whole answers");
        let value: String = answer.encode(tag)[HEADER_LENGTH..]
            .iter()
            .map(|byte| format!("{byte:02x}"))
            .collect();
        text.push_str(&format!("{tag:02x} {}\n", if value.is_empty() { "-" } else { &value }));
    }
    text
}
