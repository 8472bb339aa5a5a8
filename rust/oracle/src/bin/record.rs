//! `record DIR` writes the files of the recording into a directory and prints what each covers.

use std::path::Path;
use std::process::ExitCode;

use oracle::record::{recordings, Coverage};

fn main() -> ExitCode {
    let arguments: Vec<String> = std::env::args().skip(1).collect();
    let [directory] = &arguments[..] else {
        eprintln!("usage: record DIR");
        return ExitCode::FAILURE;
    };
    let recordings = recordings();
    for recording in &recordings {
        let bytes = recording.encode();
        let path = Path::new(directory).join(recording.name);
        if let Err(error) = std::fs::write(&path, &bytes) {
            eprintln!("record: {}: {error}", path.display());
            return ExitCode::FAILURE;
        }
        print(
            &format!("{} ({} bytes)", recording.name, bytes.len()),
            &Coverage::of([recording]),
        );
    }
    print("together", &Coverage::of(&recordings));
    ExitCode::SUCCESS
}

fn print(title: &str, coverage: &Coverage) {
    println!("{title}: {} records, {} calls", coverage.records, coverage.calls);
    println!("  tags {:02X?}", coverage.tags);
    println!(
        "  addresses read {}, written {}",
        coverage.read.len(),
        coverage.written.len()
    );
    println!("  refusals {:?}", coverage.refusals);
}
