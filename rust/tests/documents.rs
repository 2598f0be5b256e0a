//! The pages name what exists: each path between backquotes is a file or a folder, each name occurs in the sources, and each page or section that
//! another page cites is there.

use std::collections::BTreeSet;
use std::path::{Path, PathBuf};

const PAGES: [&str; 8] = [
    "README.md",
    "CHANGELOG.md",
    "docs/BENCHMARKS.md",
    "docs/CONTRACTS.md",
    "docs/CONTRIBUTING.md",
    "docs/DECISIONS.md",
    "docs/FORMAT.md",
    "docs/MAP.md",
];

/// Where a path may begin, beside the folder of a crate, and what may be left out at its end.
const ROOTS: [&str; 5] = ["", "crates", "docs", "rust", "rust/tests"];
const ENDINGS: [&str; 5] = ["", ".antt", ".rt", ".rs", ".edit"];

/// Packages, a function of the toolchain's library and words that `rt` prints: none is defined here.
const ELSEWHERE: [&str; 8] = [
    "xxd",
    "libsqlite3-dev",
    "read_to_end",
    "axioms",
    "logic-built",
    "libraries-built",
    "trusted",
    "overflow_shr-result",
];

fn top() -> PathBuf {
    Path::new(env!("CARGO_MANIFEST_DIR")).join("..")
}

/// All files below a folder, without what is built.
fn files(folder: &Path, found: &mut Vec<PathBuf>) {
    for entry in std::fs::read_dir(folder).expect("a folder") {
        let path = entry.expect("an entry").path();
        let name = path.file_name().expect("a name").to_string_lossy().into_owned();
        if path.is_dir() && !["target", "out", ".git"].contains(&&name[..]) {
            files(&path, found);
        } else if path.is_file() {
            found.push(path);
        }
    }
}

fn is_in_name(c: char) -> bool {
    c.is_alphanumeric() || "_-'".contains(c)
}

/// Every word of the sources, and every name of a file or folder.
fn names() -> BTreeSet<String> {
    let mut found = Vec::new();
    files(&top(), &mut found);
    let mut names = BTreeSet::new();
    for path in found {
        for part in path.components() {
            let part = part.as_os_str().to_string_lossy().into_owned();
            names.extend(part.split('.').map(str::to_owned));
            names.insert(part);
        }
        let is_page = path.extension().is_some_and(|extension| extension == "md");
        if let (false, Ok(text)) = (is_page, std::fs::read_to_string(&path)) {
            names.extend(text.split(|c| !is_in_name(c)).map(str::to_owned));
        }
    }
    names
}

/// What stands between backquotes in a text.
fn quoted(text: &str) -> Vec<&str> {
    let lines = text.lines().filter(|line| !line.starts_with("    "));
    lines.flat_map(|line| line.split('`').skip(1).step_by(2)).collect()
}

fn is_path(word: &str) -> bool {
    word.contains('/') && word.chars().all(|c| is_in_name(c) || "/.+".contains(c))
}

fn exists(path: &str) -> bool {
    let path = path.trim_end_matches('/');
    let crates = std::fs::read_dir(top().join("crates")).expect("crates");
    let crates = crates.map(|entry| entry.expect("a crate").path());
    let mut roots = crates.chain(ROOTS.map(|root| top().join(root)));
    roots.any(|root| {
        ENDINGS
            .iter()
            .any(|ending| root.join(format!("{path}{ending}")).exists())
    })
}

#[test]
fn paths_exist() {
    for page in PAGES {
        let text = std::fs::read_to_string(top().join(page)).expect(page);
        for word in quoted(&text)
            .into_iter()
            .flat_map(str::split_whitespace)
            .filter(|word| is_path(word) && !word.starts_with("target/"))
        // which is built
        {
            assert!(word.contains("NAME") || exists(word), "{page}: {word}");
        }
    }
}

#[test]
fn names_occur_in_the_sources() {
    let names = names();
    let mut missing = Vec::new();
    for page in PAGES {
        let text = std::fs::read_to_string(top().join(page)).expect(page);
        for word in quoted(&text)
            .into_iter()
            .filter(|quoted| !quoted.contains(' '))
            .filter(|word| !is_path(word))
        {
            let parts = word
                .split(|c| !is_in_name(c))
                .filter(|name| name.starts_with(char::is_alphabetic));
            missing.extend(
                parts
                    .filter(|name| !names.contains(*name) && !ELSEWHERE.contains(name))
                    .map(|name| format!("{page}: {name}")),
            );
        }
    }
    assert!(missing.is_empty(), "{missing:#?}");
}

/// `docs/PAGE.md`, "Section": the section is a heading of that page.
#[test]
fn sections_exist() {
    let mut count = 0;
    for page in PAGES {
        let text = std::fs::read_to_string(top().join(page)).expect(page);
        for cited in text.split("`docs/").skip(1) {
            let Some((name, after)) = cited.split_once("`, \"") else {
                continue;
            };
            let (section, _) = after.split_once('"').expect("a closing quote");
            if name.contains('`') {
                continue;
            }
            let cited_page = std::fs::read_to_string(top().join("docs").join(name)).expect(name);
            let is_heading = |line: &str| line.starts_with('#') && line.trim_start_matches('#').trim() == section;
            assert!(cited_page.lines().any(is_heading), "{page}: {name}, {section}");
            count += 1;
        }
    }
    assert!(count > 0);
}
