//! Finds libpec.a: in the directory that PEC_LIB_DIR names, or where `bin/staticlib` writes it.

use std::env;
use std::path::PathBuf;

fn main() {
    println!("cargo:rerun-if-env-changed=PEC_LIB_DIR");
    let directory = match env::var_os("PEC_LIB_DIR") {
        Some(named) => PathBuf::from(named),
        None => {
            let manifest = env::var_os("CARGO_MANIFEST_DIR").expect("cargo sets CARGO_MANIFEST_DIR");
            PathBuf::from(manifest).join("../../target/staticlib")
        }
    };
    let library = directory.join("libpec.a");
    println!("cargo:rerun-if-changed={}", library.display());
    if !library.is_file() {
        println!(
            "cargo:warning={} is missing: run `bin/staticlib` at the top of the repository, which proves and writes \
             it, or set PEC_LIB_DIR to the directory that holds libpec.a",
            library.display()
        );
        std::process::exit(1);
    }
    let target = env::var("TARGET").expect("cargo sets TARGET");
    if !target.starts_with("x86_64-") || !target.contains("linux") {
        println!("cargo:warning=libpec.a is for x86-64 Linux, and the target is {target}");
        std::process::exit(1);
    }
    println!("cargo:rustc-link-search=native={}", directory.display());
    println!("cargo:rustc-link-lib=static=pec");
}
