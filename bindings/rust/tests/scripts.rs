//! Plays the scripts of calls of crates/replay_scripts over the proved library and over the twin: both must print what the proved program
//! prints (its file `stdout`). make_scripts.py makes some of the scripts; twin/play.rs plays any with the twin alone.

mod calls;
mod library;
mod script;
mod twin;

use calls::{Calls, Twin};
use library::Library;
use script::play;
use std::fs;
use std::path::{Path, PathBuf};

#[test]
fn scripts_over_the_library() {
    compare(&printed(Library));
}

#[test]
fn scripts_over_the_twin() {
    compare(&printed(Twin::default()));
}

fn folder() -> PathBuf {
    PathBuf::from(env!("CARGO_MANIFEST_DIR")).join("../../crates/replay_scripts")
}

fn printed(mut calls: impl Calls) -> String {
    let mut printed = String::new();
    for name in names(&folder()) {
        play(&fs::read(folder().join("data").join(&name)).unwrap(), &mut calls, &mut printed);
    }
    printed
}

fn compare(printed: &str) {
    let folder = folder();
    let expected = fs::read_to_string(folder.join("stdout")).unwrap();
    for (i, (here, there)) in printed.lines().zip(expected.lines()).enumerate() {
        assert_eq!(here, there, "line {}", i + 1);
    }
    assert_eq!(printed.len(), expected.len());
}

/// The scripts in the order in which the proved program plays them.
fn names(folder: &Path) -> Vec<String> {
    let main = fs::read_to_string(folder.join("src/main.rt")).unwrap();
    main.lines().filter_map(|line| Some(line.trim().strip_prefix("play(&rt, \"")?.strip_suffix("\");")?.to_string())).collect()
}
