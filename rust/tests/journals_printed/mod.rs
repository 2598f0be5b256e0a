//! What the gate has the journals of `crates/journals/data` print: `crates/journals/stdout`, where each name is followed by its lines.

use std::path::{Path, PathBuf};

pub fn top() -> PathBuf {
    Path::new(env!("CARGO_MANIFEST_DIR")).join("..")
}

/// The lines of a journal, each with its line feed.
pub fn lines_of(name: &str) -> String {
    let printed = std::fs::read_to_string(top().join("crates/journals/stdout")).expect("the lines");
    let mut lines = printed.lines().skip_while(|line| *line != format!("{name}.journal"));
    assert!(lines.next().is_some(), "{name} is not there");
    lines
        .take_while(|line| !line.ends_with(".journal"))
        .map(|line| format!("{line}\n"))
        .collect()
}
