//! C and C++ programs over the header and the archive: document 01's worked answers, boards of each rate, counts of
//! matches, parked boards, a skip that is refused, moves of images from form to form, previews of many totals, turns of
//! the dispatcher, and the memory that the library uses.

use std::env;
use std::io::Write;
use std::path::{Path, PathBuf};
use std::process::{Command, Stdio};

use pec::{list_of, Call};

fn archive() -> PathBuf {
    let directory = env::var_os("PEC_LIB_DIR").map_or_else(
        || Path::new(env!("CARGO_MANIFEST_DIR")).join("../../target/staticlib"),
        PathBuf::from,
    );
    directory.join("libpec.a")
}

/// The compiler and the options for a language.
const C: (&str, [&str; 3]) = ("cc", ["-std=c11", "-x", "c"]);
const CPP: (&str, [&str; 3]) = ("c++", ["-std=c++17", "-x", "c++"]);

/// Compiles a program of this folder as C or C++ and gives what it prints for an input.
fn printed(name: &str, (compiler, language): (&str, [&str; 3]), input: &[u8]) -> String {
    let here = Path::new(env!("CARGO_MANIFEST_DIR"));
    let program = Path::new(env!("CARGO_TARGET_TMPDIR")).join(format!("{name}-{compiler}"));
    let compiled = Command::new(compiler)
        .args(["-O1", "-Wall", "-Wextra", "-Werror", "-pedantic", "-pthread", "-I"])
        .arg(here.join("include"))
        .args(language)
        .arg(here.join(format!("tests/{name}.c")))
        // The archive is not a source.
        .args(["-x", "none"])
        .arg(archive())
        .arg("-o")
        .arg(&program)
        .status()
        .unwrap_or_else(|error| panic!("{compiler} cannot be run: {error}"));
    assert!(compiled.success());
    let mut child = Command::new(program)
        .stdin(Stdio::piped())
        .stdout(Stdio::piped())
        .spawn()
        .expect("the program starts");
    child
        .stdin
        .take()
        .expect("it is piped")
        .write_all(input)
        .expect("the program reads");
    let output = child.wait_with_output().expect("the program ends");
    let text = String::from_utf8(output.stdout).expect("the program prints text");
    assert!(output.status.success(), "{text}");
    text
}

#[test]
fn a_program_links_the_archive_from_c_and_from_cpp() {
    // Document 01's listing has 31 bytes, and S-4 adds 128 zeros to its second line.
    let zeros = "0".repeat(128);
    let run = format!("02 01\n04 00{zeros}\n0a 0000\nend 3 2 19\n159 02 01\n");
    for language in [C, CPP] {
        assert_eq!(printed("listing", language, &[]), format!("{run}{run}109 105\n"));
    }
}

#[test]
fn boards_of_each_rate_are_run_from_c_and_from_cpp() {
    let due = "1000000: due after 2000000, line after a second and two: 0 1\n\
               12000000: due after 24000000, line after a second and two: 0 1\n\
               48000000: due after 96000000, line after a second and two: 0 1\n";
    // The refusal, the three counts, which were 99 before, and the buffer; with room and without.
    let refused: String = [0, 999_999, 24_000_000, 48_000_001, u32::MAX]
        .into_iter()
        .flat_map(|rate| {
            [80, 0].map(|room| format!("{rate} into {room}: run 15 0 0 0 stays repeated 15 0 0 0 stays\n"))
        })
        .collect();
    // The same lists at one of the three rates: a deadline is done, and the cut call after it is refused; or 11.
    let accepted = "48000000 into 80: run 2 1 3 28 written repeated 2 1 3 28 written\n\
                    48000000 into 0: run 11 0 0 0 stays repeated 11 0 0 0 stays\n";
    for language in [C, CPP] {
        assert_eq!(printed("rates", language, &[]), format!("{due}{refused}{accepted}"));
    }
}

#[test]
fn counts_of_matches_are_read_from_c_and_from_cpp() {
    // Points at 10, 14 and 18; at every number from 0 to 19; one-shot; and none, since channel 3 is not selected. Then
    // those from 22 to 2^64 - 2 in steps of 4, which are 2^62 - 5; those from 20 to 2^64 - 1; and none.
    let expected = "19 cycles: line 1, matches 3 20 1 0\n\
                    all that are left: line 1, matches 4611686018427387899 18446744073709551596 0 0\n\
                    from the start: line 1, matches 4611686018427387902 2^64 1 0\n";
    for language in [C, CPP] {
        assert_eq!(printed("matches", language, &[]), expected);
    }
}

#[test]
fn a_board_is_parked_and_taken_up_from_c_and_from_cpp() {
    // Refusal, calls, list bytes and answer bytes. Three writes (6 bytes each, answers of 3), two deadlines (3 bytes,
    // answers of 28) and two advances (11 bytes, answers of 68); the board is parked after the first advance.
    let runs = "whole: 0 7 46 201\nfirst: 0 5 32 105\nsecond: 0 2 14 96\n";
    // The two writes before the skip stand. An advance's answer has 68 bytes, a skip's 12.
    let far = "too far: 13 2 12 6\ntoo far, not parked: 13 2 12 6\n".repeat(2);
    let nearer = "nearer: 0 2 14 80, line 1\n";
    let expected = format!(
        "short: 11 0\nfresh: 0 276, read 0\n{runs}{far}{nearer}one byte over: 12 12 0 0 0\ncut: 12 12 0 0 0\n\
         unsound: 1 1 0 0 0\ndamaged and unsound: 12 12 0 0 0\ndamaged: 12 12 0 0 0\n"
    );
    for language in [C, CPP] {
        assert_eq!(printed("parked", language, &[]), expected);
    }
}

#[test]
fn images_are_moved_from_form_to_form_from_c_and_from_cpp() {
    // Refusal and bytes written, which were 99 before: with more room than needed, with just enough, with a byte less
    // and with none. A rate that no board has is refused before a short buffer is.
    let fresh: String = [1_000_000, 12_000_000, 48_000_000]
        .map(|rate| format!("{rate}: 0 276 0 276 11 0 11 0\n"))
        .concat();
    let others: String = [0, 24_000_000, u32::MAX]
        .map(|rate| format!("{rate}: 15 0 15 0 15 0 15 0\n"))
        .concat();
    // Nine writes and an advance are done. The alarm is due after 7 cycles less than 96,000,000.
    let same = "calls: 10 10\npreviews: 0 1 0 1\n";
    // Into a buffer with more room than needed, with room for the old form alone, and with none.
    let malformed = "12 0 12 0 12 0";
    let unsound = "1 0 1 0 1 0";
    let moves = format!(
        "new: forward {malformed} back 0 269 0 269 11 0\n\
         old: forward 0 276 11 0 11 0 back {malformed}\n\
         new, unsound: forward {malformed} back {unsound}\n\
         old, unsound: forward {unsound} back {malformed}\n\
         new, cut: forward {malformed} back {malformed}\n\
         old, cut: forward {malformed} back {malformed}\n"
    );
    // A board at another rate has no old image: 16, after 12 and 1 and before 11.
    let another = format!(
        "calls: 10, rate 12000000\n\
         12 MHz: forward {malformed} back 16 0 16 0 16 0\n\
         12 MHz, unsound: forward {malformed} back {unsound}\n\
         read: 1\n\
         another rate: forward {malformed} back {unsound}\n\
         12 MHz, cut: forward {malformed} back {malformed}\n"
    );
    for language in [C, CPP] {
        assert_eq!(
            printed("forms", language, &[]),
            format!("{fresh}{others}{same}{moves}{another}")
        );
    }
}

#[test]
fn totals_are_previewed_from_c_and_from_cpp() {
    // Refusal, and the eight bytes of the buffer, seven of which are lent. The deadline is 30; the totals are 30, 29,
    // 0, 31, 2^64 - 1 and 30. All bytes stay without totals, and where there is one byte less than totals.
    let low = "due after 30: 0 1 0 0 1 1 1 7 7\nno totals: 0 7 7 7 7 7 7 7 7\nshort: 11 7 7 7 7 7 7 7 7\n";
    // After an advance of 30 cycles the line is high; a fresh board has no deadline.
    let constant = "high: 0 1 1 1 1 1 1 7 7\nfresh: 0 0 0 0 0 0 0 7 7\n";
    // 14 comes before 11, 1 before 14 and 12 before 1.
    let refused = "in realtime: 14 7 7 7 7 7 7 7 7\nin realtime, short: 14 7 7 7 7 7 7 7 7\n\
                   unsound, short: 1 7 7 7 7 7 7 7 7\ncut, short: 12 7 7 7 7 7 7 7 7\n";
    for language in [C, CPP] {
        assert_eq!(printed("preview", language, &[]), format!("{low}{constant}{refused}"));
    }
}

#[test]
fn sources_are_served_in_turn_from_c_and_from_cpp() {
    // The controller after a turn is pending, enable and levels, four digits each. Enable 8221 is sources 15, 9, 5 and
    // 0. Source 3 is always pending and never enabled; 9 and 15 are pending at first, and 0 before each of the first
    // four turns. After 15 comes 0; after 0 comes 9, since 5 is enabled but not pending; after 9, 15; and then 0.
    let again = "source 0 again: lowest 100, served 100, after 820882218209, remembered 0\n\
                 source 0 again: lowest 100, served 109, after 800982218209, remembered 9\n\
                 source 0 again: lowest 100, served 10f, after 000982218209, remembered 15\n\
                 source 0 again: lowest 100, served 100, after 000882218209, remembered 0\n";
    // Only source 3 is left: the controller and the remembered number stay, and 200 is read as 15.
    let none = "none: lowest 0, served 0, after 000882218209, remembered 0\n\
                none after 5: lowest 0, served 0, after 000882218209, remembered 5\n\
                none after 200: lowest 0, served 0, after 000882218209, remembered 15\n";
    // Source 5 has risen and 0 has fallen: 5 is alone and comes last. Then 0, 5 and 15 have risen again: 15 is the
    // first after 5; and 16 is read as 15, which 0 follows.
    let after = "5 itself: lowest 105, served 105, after 000882218228, remembered 5\n\
                 0, 5 and 15 after 5: lowest 100, served 10f, after 002982218229, remembered 15\n\
                 0 and 5 after 16: lowest 100, served 100, after 002882218229, remembered 0\n";
    for language in [C, CPP] {
        assert_eq!(
            printed("dispatcher", language, &[]),
            format!("fresh: 15\n{again}{none}{after}")
        );
    }
}

#[test]
fn a_run_a_preview_and_a_move_use_little_stack() {
    // One call of each tag, and reads and writes in every block of registers.
    let mut calls = vec![Call::HostTime {
        seconds: 7,
        nanoseconds: 5,
    }];
    for address in [
        0x007, 0x00F, 0x083, 0x088, 0x08C, 0x097, 0x09B, 0x0A3, 0x283, 0x288, 0x28C, 0x2A3,
    ] {
        calls.extend([Call::Write { address, byte: 0x0F }, Call::Read { address }]);
    }
    calls.extend([Call::Advance { cycles: 9 }, Call::Deadline, Call::Skip]);
    calls.extend([
        Call::Source { number: 5, level: 1 },
        Call::ControllerRead { address: 1 },
    ]);
    calls.extend([Call::ControllerWrite { address: 5, byte: 255 }, Call::Output]);
    let text = printed("stack", C, &list_of(&calls));
    let [alone, run, at_a_rate, parked, preview, moved] = [0, 1, 2, 3, 4, 5].map(|place| {
        let figure = text.split_whitespace().nth(place).expect("six figures");
        figure.parse::<usize>().expect("decimal")
    });
    assert!(alone > 0, "{text}");
    for (name, used) in [
        ("a run", run),
        ("a run at a rate", at_a_rate),
        ("a run over a parked board", parked),
        ("a preview", preview),
        ("a move", moved),
    ] {
        println!("stack of {name}: {} bytes", used - alone);
        assert!(used > alone && used - alone < 16_384, "{name}: {text}");
    }
}

#[test]
fn the_library_uses_no_heap() {
    let output = Command::new("nm").arg("-u").arg(archive()).output().expect("nm runs");
    assert!(output.status.success());
    let text = String::from_utf8(output.stdout).expect("nm prints text");
    let names: Vec<&str> = text.lines().filter_map(|line| line.trim().strip_prefix("U ")).collect();
    let known = ["memcpy", "memmove", "memset"];
    assert!(names.iter().all(|name| known.contains(name)), "{names:?}");
}

/// The division instructions in the archive's disassembly, each after its function and the instruction before it.
fn divisions() -> Vec<[String; 3]> {
    let output = Command::new("objdump")
        .args(["-d", "--no-show-raw-insn"])
        .arg(archive())
        .output()
        .expect("objdump runs");
    assert!(output.status.success());
    let text = String::from_utf8(output.stdout).expect("objdump prints text");
    let (mut function, mut ahead) = (String::new(), String::new());
    let mut divisions = Vec::new();
    for line in text.lines() {
        if let Some((_, instruction)) = line.split_once(":\t") {
            let instruction = instruction.split_whitespace().collect::<Vec<_>>().join(" ");
            if instruction.starts_with("div") || instruction.starts_with("idiv") {
                divisions.push([function.clone(), ahead, instruction.clone()]);
            }
            ahead = instruction;
        } else if let Some((_, name)) = line.split_once(" <") {
            function = name.trim_end_matches(">:").to_string();
            ahead = String::new();
        }
    }
    divisions
}

#[test]
fn the_clock_divides_by_constants() {
    // These divide by a prescaler or a reload. A division by a constant becomes a multiplication, so the rates add
    // none.
    assert_eq!(divisions().len(), 16);
}

#[test]
fn prescaler_0_is_taken_first_and_every_division_is_of_one_word() {
    let divisions = divisions();
    // Without the separate case for prescaler 0, the compiler does not unroll the loop over the channels, and there are
    // 4. A hand-written division of two words would add some.
    assert_eq!(divisions.len(), 16);
    for [function, ahead, division] in divisions {
        // The dividend is rdx and rax: the high word, rdx, is 0.
        assert_eq!(
            (&function[..], &ahead[..]),
            ("list::run", "xor %edx,%edx"),
            "{division}"
        );
    }
}
