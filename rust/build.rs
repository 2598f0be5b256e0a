//! Links the kernel's archive: `libstaff_board.a` or `libabi.a` in the folder that STAFF_BOARD_LIB_DIR names, else in `target/staticlib` at the top of the
//! repository, where `tools/build` writes `libabi.a`. Without an archive there is a warning and nothing to link, so that documents and lints can still be made.
use std::env;
use std::path::{Path, PathBuf};

fn main() {
    println!("cargo:rerun-if-env-changed=STAFF_BOARD_LIB_DIR");
    let folder = env::var_os("STAFF_BOARD_LIB_DIR").map_or_else(built_here, PathBuf::from);
    let archives = ["staff_board", "abi"].map(|name| (name, folder.join(format!("lib{name}.a"))));
    match archives.into_iter().find(|(_, archive)| archive.exists()) {
        Some((name, archive)) => {
            println!("cargo:rerun-if-changed={}", archive.display());
            println!("cargo:rustc-link-search=native={}", folder.display());
            println!("cargo:rustc-link-lib=static={name}");
        }
        None => {
            // a watched file that is missing makes cargo run this again at each build, until there is an archive
            println!("cargo:rerun-if-changed={}", folder.join("libabi.a").display());
            println!(
                "cargo:warning=no archive in {}: run `tools/build` at the top of the repository, or set STAFF_BOARD_LIB_DIR",
                folder.display()
            );
        }
    }
}

fn built_here() -> PathBuf {
    Path::new(env!("CARGO_MANIFEST_DIR")).join("../target/staticlib")
}
