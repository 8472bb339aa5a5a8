//! The tables of registers in docs/CONTRACT.md and docs/BOARD.md are those of the Rust, the manual's table of an image
//! is that of the oracle's images, and its worked example is what a run gives.

use oracle::board::Board;
use oracle::image::{image_of, Form};
use oracle::registers::{self, channel, of_channel};

use crate::originals::TIMING;
use crate::program::printed;

/// The text of a paper.
fn paper(name: &str) -> String {
    let path = format!("{}/../../docs/{name}", env!("CARGO_MANIFEST_DIR"));
    std::fs::read_to_string(&path).unwrap_or_else(|error| panic!("{path}: {error}"))
}

/// The lines under a heading, up to the next heading that is not below it.
fn section<'a>(text: &'a str, heading: &str) -> Vec<&'a str> {
    let depth = |line: &str| line.bytes().take_while(|&byte| byte == b'#').count();
    let mut lines = text.lines();
    assert!(lines.any(|line| line == heading), "{heading} is there");
    let ends = |line: &str| (1..=depth(heading)).contains(&depth(line));
    lines.take_while(|line| !ends(line)).collect()
}

/// The cells of the rows of a section's tables that begin with a number.
fn rows<'a>(section: &[&'a str]) -> Vec<Vec<&'a str>> {
    section
        .iter()
        .filter(|line| line.starts_with("| ") && line[2..].starts_with(char::is_numeric))
        .map(|line| line.trim_matches('|').split('|').map(str::trim).collect())
        .collect()
}

#[test]
fn the_contracts_channels_are_the_registers() {
    let text = paper("CONTRACT.md");
    let rows = rows(&section(&text, "## Channel numbers"));
    assert_eq!(rows.len(), registers::CHANNELS);
    for (number, row) in rows.iter().enumerate() {
        let address = |register| format!("{:X}", of_channel(number, register));
        let pair = |low, high| format!("{}, {}", address(low), address(high));
        let expected = [
            (number + 1).to_string(),
            number.to_string(),
            format!("{number} (value {})", 1 << number),
            address(channel::CONTROL),
            pair(channel::COUNT_LOW, channel::COUNT_HIGH),
            pair(channel::COMPARE_LOW, channel::COMPARE_HIGH),
            pair(channel::RELOAD_LOW, channel::RELOAD_HIGH),
            address(channel::PRESCALER),
        ];
        assert_eq!(row[..], expected);
    }
    for (name, address) in [
        ("timer enable", registers::ENABLE),
        ("timer acknowledge", registers::ACKNOWLEDGE),
        ("control", registers::CLOCK_CONTROL),
        ("seconds low", registers::SECONDS_LOW),
        ("alarm low", registers::ALARM_LOW),
        ("alarm enable", registers::ALARM_ENABLE),
        ("acknowledge", registers::ALARM_ACKNOWLEDGE),
    ] {
        assert!(text.contains(&format!("{name} {address:03X}")), "{name} {address:03X}");
    }
}

/// The registers of timing.rs by name and number, from one constant to another.
fn originals(first: &str, last: &str) -> Vec<(String, u32)> {
    let constants = TIMING.lines().filter_map(|line| {
        let (name, value) = line.strip_prefix("const ")?.split_once(": u32 = 0x")?;
        Some((
            name.to_string(),
            u32::from_str_radix(value.trim_end_matches(';'), 16).ok()?,
        ))
    });
    let mut registers: Vec<_> = constants.skip_while(|(name, _)| name != first).collect();
    let end = registers
        .iter()
        .position(|(name, _)| name == last)
        .expect("it is there");
    registers.truncate(end + 1);
    registers
}

#[test]
fn the_manuals_registers_are_the_originals() {
    let text = paper("BOARD.md");
    let timers = rows(&section(&text, "### Registers of the timers"));
    let clock = rows(&section(&text, "### Registers of the clock"));
    // Address, offset, and the register with its name.
    let shared: Vec<_> = timers.iter().chain(&clock).collect();
    let expected = originals("TIMER_ID", "RTC_ACK");
    assert_eq!(shared.len(), expected.len());
    for (row, (name, offset)) in shared.iter().zip(&expected) {
        assert_eq!(
            row[..2],
            [format!("{:03X}", offset - 0x180), format!("{offset:X}")],
            "{name}"
        );
        assert!(row[2].ends_with(&format!("`{name}`")), "{name}");
    }
    // The offset in the block, the address for each channel, and the register; the last row has no register.
    let block = rows(&section(&text, "### Registers of a channel"));
    let own = originals("TIMER_CTRL", "TIMER_PRESCALER");
    assert_eq!(block.len(), own.len() + 1);
    for (row, (name, place)) in block.iter().zip(&own) {
        assert_eq!(row[0], format!("{place:02X}"), "{name}");
        for number in 0..registers::CHANNELS {
            assert_eq!(row[1 + number], format!("{:X}", of_channel(number, *place)), "{name}");
        }
        assert!(row[5].ends_with(&format!("`{name}`")), "{name}");
    }
}

#[test]
fn the_manuals_worked_example_is_what_a_run_gives() {
    let text = paper("BOARD.md");
    let example = section(&text, "## A worked example");
    // The bytes of the calls, in the first cells of the table.
    let calls: Vec<u8> = rows(&example)
        .iter()
        .flat_map(|row| row[0].split(' '))
        .map(|byte| u8::from_str_radix(byte, 16).expect("a byte"))
        .collect();
    // The same in octal, in the command.
    let command: Vec<u8> = example
        .iter()
        .filter_map(|line| line.split_once("printf '"))
        .flat_map(|(_, bytes)| bytes.trim_end_matches('\'').split('\\').skip(1))
        .map(|byte| u8::from_str_radix(byte, 8).expect("a byte in octal"))
        .collect();
    assert_eq!(calls, command);
    let listing: String = example
        .iter()
        .skip_while(|&&line| line != "It prints")
        .skip(2)
        .take_while(|line| !line.is_empty())
        .map(|line| format!("{}\n", line.trim()))
        .collect();
    assert_eq!(printed(&calls), listing);
}

#[test]
fn the_manuals_image_is_the_oracles() {
    let text = paper("BOARD.md");
    let section = section(&text, "## Parked boards");
    // The table of fields has four columns, those of refusals two.
    let fields: Vec<_> = rows(&section).into_iter().filter(|row| row.len() == 4).collect();
    assert_eq!(fields.len(), 8);
    let image = image_of(Form::New, &Board::fresh().fields());
    let mut at = 0;
    for row in fields {
        let [from, tag, _, length] = row[..] else {
            unreachable!("the row has four cells")
        };
        let size = usize::from(u16::from_be_bytes([image[at + 1], image[at + 2]]));
        assert_eq!([from, tag], [at.to_string(), format!("{:02X}", image[at])]);
        assert_eq!(length, size.to_string());
        at += 3 + size;
    }
    assert_eq!(at, image.len());
}
