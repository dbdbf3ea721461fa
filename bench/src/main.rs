//! Measures the proved room store beside a plain graph, a pointer octree and a bitmap.
//!
//!     bench times KEPT [ROOMS]      by the clock; results as lines. ROOMS is a folder of outline files; without it the bench makes rooms
//!     bench count KEPT TIMES [ROOMS]   the same work, to be run under callgrind, but for what took long by the clock
//!     bench gather DUMPS            callgrind's dumps as lines; the functions' shares go to DUMPS/shares.txt
//!     bench table TIMES COUNTS SVG  the tables and the picture
//!     bench asked WHAT WHICH TIMES KEPT ROOM   asks one kind of question (voxels, near, small, large, whole; src/asked.rs has those on whether
//!                                   anything is in the way) of the store, a packed file or the plain graph, TIMES times: for a counter
//!                                   of a whole program's instructions
//!     bench lines WHICH TIMES KEPT ROOM   asks for all sight lines of a room, TIMES times: for a counter of a whole program's
//!                                   instructions (src/sight.rs)
//!     bench added WHICH TIMES ROOM  adds a room to a new store, or builds the plain graph of it, TIMES times: for the same
//!
//! KEPT is a folder for the words of the stores.
mod anything;
mod asked;
mod bitmap;
mod boxes;
mod callgrind;
mod calls;
mod chains;
mod classes;
mod clock;
mod deep;
mod dumps;
mod graph;
mod growth;
mod lines;
mod measure;
mod octree;
mod outline;
mod own;
mod picture;
mod proper;
mod questions;
mod sight;
mod table;
mod twin;
mod work;

use measure::Meter;
use std::env;
use std::fs;
use std::path::Path;

fn main() {
    let words: Vec<String> = env::args().skip(1).collect();
    let words: Vec<&str> = words.iter().map(String::as_str).collect();
    match words[..] {
        ["times", kept, ref rooms @ ..] => measure_all(&Meter::Clock, Path::new(kept), rooms),
        ["count", kept, times, ref rooms @ ..] => {
            assert!(
                callgrind::present(),
                "this runs under callgrind: see bench/instructions"
            );
            let (times, _) = measure::read(&fs::read_to_string(times).unwrap());
            measure_all(&Meter::Instructions(times), Path::new(kept), rooms)
        }
        ["gather", dumps] => {
            let (lines, shares) = dumps::read(Path::new(dumps));
            fs::write(Path::new(dumps).join("shares.txt"), shares).unwrap();
            print!("{lines}");
        }
        ["table", times, counts, svg] => {
            let (times, rooms) = measure::read(&fs::read_to_string(times).unwrap());
            let (counts, _) = measure::read(&fs::read_to_string(counts).unwrap_or_default());
            let rooms = measured_rooms(&times, rooms);
            let all = table::Measured {
                times,
                counts,
                rooms,
            };
            table::print(&all);
            fs::write(svg, picture::svg(&all)).unwrap();
        }
        ["lines", which, times, kept, room] => {
            sight::repeat(which, times.parse().unwrap(), Path::new(kept), room)
        }
        ["asked", what, which, times, kept, room] => {
            asked::repeat(what, which, times.parse().unwrap(), Path::new(kept), room)
        }
        ["added", which, times, room] => work::repeat_adding(which, times.parse().unwrap(), room),
        _ => {
            panic!("bench times | count | gather | table | lines | asked | added: see src/main.rs")
        }
    }
}

/// The rooms in order, without the files for the check's growth.
fn measured_rooms(times: &measure::Results, all: Vec<String>) -> Vec<String> {
    let is_room =
        |name: &String| times.contains_key(&("solid voxels".into(), name.clone(), "room".into()));
    all.into_iter().filter(is_room).collect()
}

/// Measures the check's growth and sight lines in deep rooms, then every room.
fn measure_all(meter: &Meter, kept: &Path, folder: &[&str]) {
    growth::check(meter);
    sight::deep(meter);
    for (name, file) in rooms(folder) {
        eprintln!("{name}");
        work::room(meter, &name, file, kept);
    }
}

/// The outline files of a folder by name, or rooms of the bench's own.
fn rooms(folder: &[&str]) -> Vec<(String, Vec<u8>)> {
    let Some(folder) = folder.first() else {
        let own = [(6, 0), (7, 0), (7, 20), (8, 0)];
        return own
            .map(|(d, n)| (format!("own-d{d}-n{n}"), own::room(d, n)))
            .to_vec();
    };
    let mut rooms = Vec::new();
    for entry in fs::read_dir(folder).unwrap() {
        let path = entry.unwrap().path();
        if path.extension().is_some_and(|kind| kind == "outline") {
            let name = path.file_stem().unwrap().to_str().unwrap().to_string();
            rooms.push((name, fs::read(&path).unwrap()));
        }
    }
    rooms.sort();
    rooms
}
