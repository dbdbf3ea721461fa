//! The twin alone: plays scripts of calls without the library, on any machine. At the repository's root:
//!
//!     rustc -O --edition 2021 bindings/rust/tests/twin/play.rs -o target/twin
//!     target/twin SCRIPT..     what the scripts print, one after the other
//!     target/twin FOLDER       each NAME.script of a folder against its NAME.out; the last line is 'N passed, M failed'
//!
//! What crates/replay_scripts must print:
//!
//!     sed -n 's|.*play(&rt, "\(.*\)");|crates/replay_scripts/data/\1|p' crates/replay_scripts/src/main.rt | xargs target/twin

#[path = "../calls/mod.rs"]
mod calls;
#[path = "../script/mod.rs"]
mod script;
#[path = "mod.rs"]
mod twin;

use std::env;
use std::fs;
use std::io;
use std::path::{Path, PathBuf};
use std::process::ExitCode;

fn printed(path: &Path) -> io::Result<String> {
    let mut out = String::new();
    script::play(&fs::read(path)?, &mut calls::Twin::default(), &mut out);
    Ok(out)
}

/// The scripts of a folder, by name.
fn scripts(folder: &Path) -> io::Result<Vec<PathBuf>> {
    let entries: io::Result<Vec<PathBuf>> = fs::read_dir(folder)?.map(|entry| Ok(entry?.path())).collect();
    let mut paths = entries?;
    paths.retain(|path| path.extension().is_some_and(|e| e == "script"));
    paths.sort();
    Ok(paths)
}

/// Whether a script prints what it must; where it doesn't, the first line that differs is shown.
fn holds(path: &Path) -> io::Result<bool> {
    let (here, there) = (printed(path)?, fs::read_to_string(path.with_extension("out"))?);
    if here == there {
        return Ok(true);
    }
    let same = here.lines().zip(there.lines()).take_while(|(a, b)| a == b).count();
    let line = |text: &str| text.lines().nth(same).unwrap_or("nothing").to_string();
    println!("FAILED: {}, line {}: {}, due {}", path.display(), same + 1, line(&here), line(&there));
    Ok(false)
}

/// Whether all scripts of a folder print what they must.
fn compared(folder: &Path) -> io::Result<bool> {
    let (mut passed, mut failed) = (0, 0);
    for path in scripts(folder)? {
        if holds(&path)? {
            passed += 1;
        } else {
            failed += 1;
        }
    }
    println!("{passed} passed, {failed} failed");
    Ok(failed == 0)
}

fn main() -> io::Result<ExitCode> {
    let mut fine = true;
    for path in env::args_os().skip(1).map(PathBuf::from) {
        if path.is_dir() {
            fine &= compared(&path)?;
        } else {
            print!("{}", printed(&path)?);
        }
    }
    Ok(if fine { ExitCode::SUCCESS } else { ExitCode::FAILURE })
}
