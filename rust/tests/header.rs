//! The header `include/staff_board.h`: its constants that the crate has too are the same there, its list of fields is that of the reference and names them as the crate does,
//! the example in C, which makes all calls, is compiled with all warnings, linked with the archive and run, and so is a replay in
//! parts on a small stack; that one is compiled as C++ too.
#![cfg(feature = "alloc")] // for Message::to_vec

mod generate;
mod reference;

use generate::{carried, message, Parts, Random};
use reference::{fields, Field, KINDS};
use staff_board::Stop;
use std::path::{Path, PathBuf};
use std::process::Command;

fn top() -> PathBuf {
    Path::new(env!("CARGO_MANIFEST_DIR")).join("..")
}

fn header() -> String {
    std::fs::read_to_string(top().join("include/staff_board.h")).expect("the header")
}

/// The number after `NAME = `.
fn constant(header: &str, name: &str) -> usize {
    let (_, after) = header.split_once(&format!(" {name} = ")).expect(name);
    let digits: String = after.chars().take_while(char::is_ascii_digit).collect();
    digits.parse().expect(name)
}

#[test]
fn constants_are_those_of_the_crate() {
    let header = header();
    for (name, expected) in [
        ("STAFF_BOARD_SIZE", staff_board::BOARD_SIZE),
        ("STAFF_BOARD_ANSWER_LIMIT", staff_board::ANSWER_LIMIT),
        ("STAFF_BOARD_FRAME_LIMIT", staff_board::FRAME_LIMIT),
        ("STAFF_BOARD_VALUES_LIMIT", staff_board::VALUES_LIMIT),
        ("STAFF_BOARD_JOURNAL_USED", Stop::JournalUsed.number() as usize),
        ("STAFF_BOARD_UNSOUND", Stop::BoardUnsound.number() as usize),
        ("STAFF_BOARD_NO_ROOM", Stop::BufferShort.number() as usize),
        ("STAFF_BOARD_CUT", Stop::FrameCut.number() as usize),
    ] {
        assert_eq!(constant(&header, name), expected, "{name}");
    }
}

/// The list of fields: each kind with the names of its fields. A line is kinds, with commas between them, and then their fields.
fn list() -> Vec<(u16, Vec<String>)> {
    let header = header();
    let mut list = Vec::new();
    for line in header.lines().filter(|line| line.starts_with("       0")) {
        let words = line.split_whitespace().map(|word| word.trim_end_matches(','));
        let (kinds, names): (Vec<&str>, Vec<&str>) = words.partition(|word| word.starts_with('0'));
        for kind in kinds {
            let kind = u16::from_str_radix(kind, 16).expect("a kind");
            list.push((kind, names.iter().map(|&name| name.to_owned()).collect()));
        }
    }
    list.sort();
    list
}

/// A field by its name in the header, with the limits that the header states.
fn field(name: &str) -> Field {
    match name {
        "U" | "V" | "N" => Field::Id,
        "P" | "P2" => Field::Password,
        "picture" => Field::Picture,
        "visibility" => Field::Visibility,
        "name" | "note" => Field::String(24),
        "info" => Field::String(56),
        "title" => Field::String(40),
        "text" => Field::String(256),
        _ => panic!("{name} is no field"),
    }
}

#[test]
fn the_list_of_fields_is_that_of_the_reference() {
    let expected = KINDS.map(|kind| (kind, fields(kind).expect("a kind").to_vec()));
    let list = list().into_iter();
    let found: Vec<_> = list
        .map(|(kind, names)| (kind, names.iter().map(|name| field(name)).collect()))
        .collect();
    assert_eq!(found, expected);
}

/// The number in a field of the message below, or the length of its string; none where it is random.
fn sample(name: &str) -> Option<u64> {
    match name {
        "U" => Some(1),
        "P" => Some(2),
        "V" => Some(3),
        "N" => Some(4),
        "P2" => Some(5),
        "note" | "title" | "text" | "name" => Some(6),
        "info" => Some(7),
        _ => None,
    }
}

/// A field of a message stands among its values where the list has its name. The last value of a field is looked at, a string's length.
#[test]
fn values_stand_in_the_order_of_the_list() {
    for (kind, names) in list() {
        let parts = Parts {
            kind,
            user: 1,
            password: 2,
            colleague: 3,
            post: 4,
            new_password: 5,
        };
        let frame = carried(&message(&mut Random::new(11), &parts, [&[0; 6], &[0; 7]]));
        let mut values = [0; staff_board::VALUES_LIMIT];
        let done = staff_board::read(&frame, &mut values);
        let mut count = 0;
        for name in names {
            count += if matches!(field(&name), Field::String(_)) { 2 } else { 1 };
            let value = values[count - 1];
            assert_eq!(sample(&name).unwrap_or(value), value, "{name} of {kind:04x}");
        }
        assert_eq!(done.written, count, "{kind:04x}");
    }
}

/// Runs a compiler with these words, all warnings on.
fn compile(compiler: &str, words: &[&str]) {
    let compiled = Command::new(compiler)
        .args([
            "-Wall",
            "-Wextra",
            "-Wconversion",
            "-pedantic",
            "-Werror",
            "-pthread",
            "-Iinclude",
        ])
        .args(words)
        .current_dir(top())
        .status()
        .expect("a compiler for C and C++ is at hand");
    assert!(compiled.success());
}

/// Compiles a program in C and links it with the archive.
fn compiled(source: &str) -> PathBuf {
    let name = Path::new(source).file_stem().expect("a name");
    let program = Path::new(env!("CARGO_TARGET_TMPDIR")).join(name);
    let output = program.to_str().expect("text");
    compile("cc", &["-std=c99", source, "target/staticlib/libabi.a", "-o", output]);
    program
}

fn printed(program: &mut Command) -> String {
    let run = program.output().expect("it runs");
    let printed = String::from_utf8(run.stdout).expect("text");
    assert!(run.status.success(), "{printed}");
    printed
}

#[test]
fn the_example_in_c_runs() {
    assert_eq!(
        printed(&mut Command::new(compiled("examples/post_and_read.c"))),
        "refused with 10\nEarly shift starts at six.\nreplayed 8 messages\n"
    );
}

/// A program that makes calls of the header is one in C++ too.
#[test]
fn the_header_is_one_for_cpp() {
    compile("c++", &["-x", "c++", "-fsyntax-only", "rust/tests/in_parts.c"]);
}

#[test]
fn a_replay_in_parts_is_the_whole_replay() {
    let program = compiled("rust/tests/in_parts.c");
    for name in [
        "week",
        "shortest-frames-15000",
        "lists-of-posts-3000",
        "cut-at-59996",
        "empty",
    ] {
        let path = top().join(format!("crates/journals/data/{name}.journal"));
        let journal = std::fs::read(&path).expect("a journal");
        let done = staff_board::replay(&journal, &mut vec![0; staff_board::BOARD_SIZE], &mut vec![0; 8_000_000]);
        let expected = format!("{} {} {}\n", done.messages, done.passed, done.written);
        assert_eq!(printed(Command::new(&program).arg(&path)), expected, "{name}");
    }
}
