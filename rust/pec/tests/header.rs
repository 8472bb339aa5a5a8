//! The header has the crate's numbers: names, numbers and meanings of the refusals, rates and sizes of images. It also
//! has every function of the library, whose contracts ask nothing of a caller.

use pec::{Refusal, DEFAULT_RATE, IMAGE_SIZE, OLD_IMAGE_SIZE, RATES};

const HEADER: &str = include_str!("../include/pec.h");
/// The sources of the library's exported functions.
const SOURCES: [&str; 2] = [
    include_str!("../../../crates/pec/src/lib.rt"),
    include_str!("../../../crates/pec/src/irqc.rt"),
];

/// What the header defines under names with a prefix: the name after the prefix, the value, and the comment after it.
fn defined(prefix: &str) -> Vec<(String, String, String)> {
    let lines = HEADER.lines().filter_map(|line| line.strip_prefix("#define "));
    let defined = lines.filter_map(|line| line.strip_prefix(prefix)).map(|line| {
        let (name, rest) = line.split_once(' ').expect("a name has a value");
        let (value, comment) = rest.split_once("/*").unwrap_or((rest, ""));
        let comment = comment.trim_end_matches("*/");
        [name, value, comment].map(|text| text.trim().to_string()).into()
    });
    defined.collect()
}

/// A name of the crate as the header has it: `UnsoundBoard` as UNSOUND_BOARD.
fn in_capitals(name: &str) -> String {
    let mut capitals = String::new();
    for letter in name.chars() {
        if letter.is_uppercase() && !capitals.is_empty() {
            capitals.push('_');
        }
        capitals.extend(letter.to_uppercase());
    }
    capitals
}

#[test]
fn the_header_has_the_refusals_of_the_crate_and_no_others() {
    let none = ("NONE".to_string(), "0".to_string(), "nothing is refused".to_string());
    let refusals = Refusal::ALL.map(|refusal| {
        let name = in_capitals(&format!("{refusal:?}"));
        (name, refusal.number().to_string(), refusal.to_string())
    });
    let expected: Vec<_> = [none].into_iter().chain(refusals).collect();
    assert_eq!(defined("PEC_REFUSAL_"), expected);
}

#[test]
fn the_header_has_the_rates_and_the_sizes_of_the_crate() {
    let numbers = |prefix| -> Vec<(String, String)> {
        defined(prefix)
            .into_iter()
            .map(|(name, value, _)| (name, value))
            .collect()
    };
    let [slow, middle, fast] = RATES.map(|rate| rate.to_string());
    assert_eq!(RATES[2], DEFAULT_RATE);
    let rates = [
        ("1_MHZ", &slow[..]),
        ("12_MHZ", &middle),
        ("48_MHZ", &fast),
        ("DEFAULT", "PEC_RATE_48_MHZ"),
    ];
    assert_eq!(
        numbers("PEC_RATE_"),
        rates.map(|(name, value)| (name.to_string(), value.to_string()))
    );
    assert_eq!(numbers("PEC_IMAGE_"), [("SIZE".to_string(), IMAGE_SIZE.to_string())]);
    assert_eq!(
        numbers("PEC_OLD_IMAGE_"),
        [("SIZE".to_string(), OLD_IMAGE_SIZE.to_string())]
    );
}

#[test]
fn the_header_has_every_exported_function() {
    let exported = SOURCES.iter().flat_map(|source| source.lines()).filter_map(|line| {
        let (name, _) = line.strip_prefix("pub extern \"C\" fn ")?.split_once('(')?;
        Some(name)
    });
    let mut exported: Vec<&str> = exported.collect();
    let declared = HEADER.lines().filter_map(|line| {
        let (before, _) = line.split_once('(')?;
        let (result, name) = before.rsplit_once(' ')?;
        (name.starts_with("pec_") && !result.contains(' ')).then_some(name)
    });
    let mut declared: Vec<&str> = declared.collect();
    exported.sort_unstable();
    declared.sort_unstable();
    assert!(!exported.is_empty());
    assert_eq!(declared, exported);
}

#[test]
fn the_exported_functions_ask_nothing_of_a_caller() {
    // The crate's safety depends on this: every board, image, list, buffer, total and rate is accepted or refused by
    // number.
    for source in SOURCES {
        let clauses = |word| source.lines().filter(|line| line.trim_start().starts_with(word)).count();
        assert!(clauses("ensures ") > 0);
        assert_eq!(clauses("requires "), 0);
    }
}
