//! Sight lines measured: the store beside voxel questions to it, the plain graph and the bitmap, all answers compared. In the rooms
//! measured the lines are drawn; in rooms of depth 16 they are chosen.
use crate::bitmap::Bitmap;
use crate::graph::Graph;
use crate::lines::{self, Line};
use crate::measure::Meter;
use crate::questions::Point;
use crate::{calls, deep, work};
use std::fs;
use std::hint::black_box;
use std::path::Path;

/// Lines drawn in a room, half of them clear.
const LINES: usize = 10_000;

/// What is measured.
pub const LINE: &str = "sight line";
pub const QUESTIONS: &str = "sight line by voxel questions";

/// The lines of a room, and whom to ask.
struct Asked<'a> {
    lines: Vec<Line>,
    store: &'a [u32],
    graph: &'a Graph,
    bitmap: Option<&'a Bitmap>,
}

/// An answer as a number, to be summed.
#[inline]
fn sum(answer: Option<Point>) -> u64 {
    answer.map_or(0, |[x, y, z]| {
        1 + u64::from(x) + (u64::from(y) << 16) + (u64::from(z) << 32)
    })
}

/// Who answers.
#[derive(Clone, Copy, PartialEq)]
enum Kind {
    Store,
    Questions,
    Graph,
    Bitmap,
}

/// Each with its name on the command line, what is measured, and by whom.
const KINDS: [(Kind, &str, &str, &str); 4] = [
    (Kind::Store, "store", LINE, "store"),
    (Kind::Questions, "questions", QUESTIONS, "store"),
    (Kind::Graph, "graph", LINE, "graph"),
    (Kind::Bitmap, "bitmap", LINE, "bitmap"),
];

impl Asked<'_> {
    /// The answers to all lines, summed.
    #[inline]
    fn all(&self, answer: impl Fn(Line) -> Option<Point>) -> u64 {
        let lines = black_box(&self.lines).iter();
        lines.fold(0, |all, &line| all.wrapping_add(sum(answer(line))))
    }

    /// The same by one who answers.
    fn ask(&self, kind: Kind) -> u64 {
        match kind {
            Kind::Store => self.all(|(from, to)| calls::sight(self.store, 0, from, to).unwrap()),
            Kind::Questions => self.all(|(from, to)| lines::by_questions(self.store, from, to)),
            Kind::Graph => self.all(|(from, to)| self.graph.sight(from, to).unwrap()),
            Kind::Bitmap => {
                let bitmap = self.bitmap.expect("a room that is no bitmap");
                self.all(|(from, to)| bitmap.sight(from, to).unwrap())
            }
        }
    }

    /// Every line is answered alike by all, and clear there exactly where it is clear back.
    fn compare(&self) {
        for &(from, to) in &self.lines {
            let first = lines::by_questions(self.store, from, to);
            assert_eq!(calls::sight(self.store, 0, from, to), Ok(first));
            assert_eq!(self.graph.sight(from, to), Some(first));
            if let Some(bitmap) = self.bitmap {
                assert_eq!(bitmap.sight(from, to), Some(first));
            }
            let back = calls::sight(self.store, 0, to, from).unwrap();
            assert_eq!(first.is_none(), back.is_none());
        }
    }

    fn measure(&self, meter: &Meter, name: &str) {
        let n = self.lines.len();
        if !meter.counting() {
            self.compare();
            let crossed = lines::crossed(self.graph, &self.lines);
            meter.tell("sight lines", name, "room", n);
            for (item, sum) in crossed.told() {
                meter.tell_of(item, name, "room", n, sum);
            }
        }
        for (kind, _, item, who) in KINDS {
            let there = kind != Kind::Bitmap || self.bitmap.is_some();
            if there && meter.wants(item, name, who) {
                meter.work((item, name, who), n, || (), |()| black_box(self.ask(kind)));
            }
        }
    }
}

/// Measures lines drawn in a room.
pub fn room(meter: &Meter, name: &str, store: &[u32], graph: &Graph, bitmap: &Bitmap) {
    let asked = Asked {
        lines: lines::drawn(graph, LINES / 2),
        store,
        graph,
        bitmap: Some(bitmap),
    };
    asked.measure(meter, name);
}

/// Measures the lines of the rooms of depth 16.
pub fn deep(meter: &Meter) {
    for name in deep::NAMES {
        let (file, lines) = deep::room(name).unwrap();
        let asked = Asked {
            lines,
            store: &work::store_of(&file),
            graph: &Graph::of(&file),
            bitmap: None,
        };
        asked.measure(meter, name);
    }
}

/// Asks for all lines of one room, so many times, and nothing else that depends on how many: for a counter of a whole program's
/// instructions. The room is a file, or the name of a room of depth 16. `which` is one of the kinds, or `compare`.
pub fn repeat(which: &str, times: usize, kept: &Path, room: &str) {
    let (file, chosen) = match deep::room(room) {
        Some((file, lines)) => (file, Some(lines)),
        None => (fs::read(room).unwrap(), None),
    };
    let graph = Graph::of(&file);
    let takes_bitmap = chosen.is_none() && ["bitmap", "compare"].contains(&which);
    let bitmap = takes_bitmap.then(|| Bitmap::of(&file));
    let store = match which {
        "graph" | "bitmap" => Vec::new(),
        _ => work::kept_store(&file, kept, room),
    };
    let asked = Asked {
        lines: chosen.unwrap_or_else(|| lines::drawn(&graph, LINES / 2)),
        store: &store,
        graph: &graph,
        bitmap: bitmap.as_ref(),
    };
    if which == "compare" {
        asked.compare();
        println!("{} lines, all answers agree", asked.lines.len());
        for (item, sum) in lines::crossed(&graph, &asked.lines).told() {
            println!("{item} {:.1}", sum as f64 / asked.lines.len() as f64);
        }
        return;
    }
    let kind = KINDS.into_iter().find(|kind| kind.1 == which);
    let (kind, ..) = kind.expect("store, questions, graph, bitmap or compare");
    let mut all = 0u64;
    for _ in 0..times {
        all = all.wrapping_add(black_box(asked.ask(kind)));
    }
    println!("{} lines, {times} times, {all:x}", asked.lines.len());
}
