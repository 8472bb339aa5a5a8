//! Writes timing.rs into OUT_DIR with the body of `host_time_ns` replaced by the board's host time, and with
//! `MASTER_CLOCK` taken from the module that it is built in. The original stays unchanged; the build fails where its
//! text is not as expected.

use std::path::Path;
use std::{env, fs};

#[path = "src/replacement.rs"]
mod replacement;

fn main() {
    let original = "original/timing.rs";
    println!("cargo:rerun-if-changed={original}");
    println!("cargo:rerun-if-changed=src/replacement.rs");
    let text = fs::read_to_string(original).unwrap_or_else(|error| panic!("cannot read {original}: {error}"));
    let replaced = replacement::replace(&text).unwrap_or_else(|message| panic!("{original}: {message}"));
    let directory = env::var("OUT_DIR").expect("cargo sets OUT_DIR");
    fs::write(Path::new(&directory).join("timing.rs"), replaced).expect("OUT_DIR can be written");
}
