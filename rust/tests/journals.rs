//! The journals of `crates/journals/data` whose counts, answers and last boards are known: `journals.sums` has for each the stop and the counts of its
//! replay from the empty board, and the SHA-256 of all answers and of the last board, taken by `sha256sum`.

mod journals_printed;
mod reference;

use journals_printed::lines_of;
use std::io::Write;
use std::path::Path;
use std::process::{Command, Stdio};

fn sha256(bytes: &[u8]) -> String {
    let mut tool = Command::new("sha256sum")
        .stdin(Stdio::piped())
        .stdout(Stdio::piped())
        .spawn()
        .expect("sha256sum is at hand");
    tool.stdin
        .take()
        .expect("its input")
        .write_all(bytes)
        .expect("it reads");
    let said = tool.wait_with_output().expect("it ends").stdout;
    String::from_utf8(said)
        .expect("text")
        .split_whitespace()
        .next()
        .expect("a digest")
        .to_owned()
}

#[test]
fn digests_are_those_known() {
    let here = Path::new(env!("CARGO_MANIFEST_DIR"));
    let sums = std::fs::read_to_string(here.join("tests/journals.sums")).expect("the list of digests");
    let mut count = 0;
    for line in sums.lines() {
        let words: Vec<&str> = line.split_whitespace().collect();
        let [name, stop, messages, passed, written, answers_digest, board_digest] = words[..] else {
            panic!("not a line of digests: {line}");
        };
        let journal = std::fs::read(here.join("../crates/journals/data").join(name)).expect("a journal");
        let mut board = vec![0; staff_board::BOARD_SIZE];
        let mut answers = vec![0; 8_000_000];
        let replayed = staff_board::replay(&journal, &mut board, &mut answers);
        let found = [
            replayed.stop.number() as usize,
            replayed.messages,
            replayed.passed,
            replayed.written,
        ]
        .map(|n| n.to_string());
        assert_eq!(found, [stop, messages, passed, written], "{name}");
        assert_eq!(
            sha256(&answers[..replayed.written]),
            answers_digest,
            "answers of {name}"
        );
        assert_eq!(sha256(&board), board_digest, "last board of {name}");

        let (mut other_board, mut other_answers) = (vec![0; staff_board::BOARD_SIZE], vec![0; 8_000_000]);
        let counts = reference::replay(&journal, &mut other_board, &mut other_answers);
        assert_eq!(
            counts,
            (
                replayed.stop.number(),
                replayed.messages,
                replayed.passed,
                replayed.written
            ),
            "{name}, reference"
        );
        assert!(other_board == board && other_answers == answers, "{name}, reference");
        count += 1;
    }
    assert_eq!(count, 15);
}

/// The gate runs `answers` on copies of the journals, since it follows no link.
#[test]
fn copies_are_the_journals() {
    let crates = Path::new(env!("CARGO_MANIFEST_DIR")).join("../crates");
    let names = std::fs::read_to_string(crates.join("answers/args")).expect("the names of the journals");
    let mut count = 0;
    for name in names.lines() {
        let copy = std::fs::read(crates.join("answers/data").join(name)).expect("a copy");
        let journal = std::fs::read(crates.join("journals/data").join(name)).expect("a journal");
        assert!(copy == journal, "{name}");
        count += 1;
    }
    assert_eq!(count, 13);
}

/// The bytes of a journal in words: what stands before the comments, in hexadecimal.
fn bytes_in_words(text: &str) -> Vec<u8> {
    let digits = text.lines().map(|line| line.split('#').next().expect("a first part"));
    let bytes = digits.flat_map(str::split_whitespace);
    bytes
        .map(|byte| u8::from_str_radix(byte, 16).expect("a byte"))
        .collect()
}

/// The journals of `journals/` are those that the gate runs, and the lines beside their messages are those that the program prints.
#[test]
fn journals_in_words_are_those_of_the_gate() {
    let top = Path::new(env!("CARGO_MANIFEST_DIR")).join("..");
    let mut count = 0;
    for file in std::fs::read_dir(top.join("journals")).expect("journals in words") {
        let path = file.expect("a file").path();
        let name = path.file_stem().expect("a name").to_str().expect("text");
        let text = std::fs::read_to_string(&path).expect("text");
        let journal = std::fs::read(top.join(format!("crates/journals/data/{name}.journal"))).expect("a journal");
        assert!(bytes_in_words(&text) == journal, "{name}");
        let lines = text.lines().filter_map(|line| line.rsplit_once(" = "));
        let lines: String = lines.map(|(_, line)| format!("{line}\n")).collect();
        assert_eq!(lines, lines_of(name), "{name}");
        count += 1;
    }
    assert_eq!(count, 18);
}
