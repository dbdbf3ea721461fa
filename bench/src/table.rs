//! The tables: sizes, ratios with their goals, adding and its chains, the check's growth, what damage tests and the search for equal cells
//! take.
use crate::anything::{self, ENTERED};
use crate::deep;
use crate::growth::{KINDS, SIZES};
use crate::measure::Results;
use crate::sight::{LINE, QUESTIONS};

/// What was measured: by the clock, and by instructions.
pub struct Measured {
    pub times: Results,
    pub counts: Results,
    pub rooms: Vec<String>,
}

/// A ratio for one room, by instructions or, where these weren't counted, by the clock.
#[derive(Clone, Copy)]
pub struct Ratio {
    pub value: f64,
    pub counted: bool,
}

/// A row of ratios, and the goal for a room where there is one.
pub struct Row {
    pub name: &'static str,
    pub of: fn(&Measured, &str) -> Option<Ratio>,
    pub time: fn(&Measured, &str) -> Option<f64>,
    pub goal: fn(&str) -> Option<f64>,
}

impl Measured {
    fn get(results: &Results, item: &str, room: &str, who: &str) -> Option<f64> {
        let key = (item.to_string(), room.to_string(), who.to_string());
        results
            .get(&key)
            .map(|&(questions, sum)| sum / questions as f64)
    }

    /// A number that isn't measured.
    pub fn told(&self, item: &str, room: &str, who: &str) -> Option<f64> {
        Self::get(&self.times, item, room, who)
    }

    /// Instructions a question.
    pub fn instructions(&self, item: &str, room: &str, who: &str) -> Option<f64> {
        Self::get(&self.counts, item, room, who)
    }

    fn by_time(&self, (a, b): (&str, &str), (c, d): (&str, &str), room: &str) -> Option<f64> {
        Some(self.told(a, room, b)? / self.told(c, room, d)?)
    }

    /// The check's work on one file over that on another: by instructions if both were counted, else by the clock.
    fn growth(&self, from: &str, to: &str) -> Option<f64> {
        let count = |room| self.instructions("check", room, "store");
        let time = |room| self.told("check", room, "store");
        let works = count(to)
            .zip(count(from))
            .or_else(|| time(to).zip(time(from)));
        works.map(|(to, from)| to / from)
    }

    fn ratio(&self, (a, b): (&str, &str), (c, d): (&str, &str), room: &str) -> Option<Ratio> {
        let counted = self
            .instructions(a, room, b)
            .zip(self.instructions(c, room, d));
        if let Some((over, under)) = counted {
            return Some(Ratio {
                value: over / under,
                counted: true,
            });
        }
        let value = self.by_time((a, b), (c, d), room)?;
        Some(Ratio {
            value,
            counted: false,
        })
    }
}

/// A row of one piece of work over another.
macro_rules! row {
    ($name:expr, $over:expr, $under:expr, $goal:expr) => {
        Row {
            name: $name,
            of: |all, room| all.ratio($over, $under, room),
            time: |all, room| all.by_time($over, $under, room),
            goal: $goal,
        }
    };
}

/// A row of the store's work over the plain graph's.
macro_rules! beside_graph {
    ($item:expr, $base:expr, $goal:expr) => {
        row!($item, ($item, "store"), ($base, "graph"), $goal)
    };
}

/// A room's depth and its noise by its name, `..-d9-n20`.
fn named(room: &str) -> Option<(&str, u32, &str)> {
    let (kind, rest) = room.split_once("-d")?;
    let (depth, noise) = rest.split_once("-n")?;
    Some((kind, depth.parse().ok()?, noise))
}

/// Adding may take so many times what building the plain graph takes: more where there is noise.
fn adding_goal(room: &str) -> Option<f64> {
    let (_, _, noise) = named(room)?;
    Some(if noise == "0" { 3.0 } else { 6.0 })
}

pub fn rows() -> Vec<Row> {
    vec![
        beside_graph!("voxel, uniform", "voxel, uniform", |_| Some(3.0)),
        beside_graph!("voxel, near surfaces", "voxel, near surfaces", |_| Some(
            3.0
        )),
        beside_graph!("packed voxel, uniform", "voxel, uniform", |_| Some(2.5)),
        beside_graph!(
            "packed voxel, near surfaces",
            "voxel, near surfaces",
            |_| Some(2.5)
        ),
        beside_graph!("opened question, uniform", "voxel, uniform", |_| None),
        beside_graph!(
            "opened question, near surfaces",
            "voxel, near surfaces",
            |_| None
        ),
        beside_graph!("cell", "cell", |_| None),
        beside_graph!("small box, uniform", "small box, uniform", |_| Some(2.5)),
        beside_graph!(
            "small box, near surfaces",
            "small box, near surfaces",
            |_| Some(2.5)
        ),
        beside_graph!("large box", "large box", |_| None),
        beside_graph!("whole room's box", "whole room's box", |_| Some(1.0)),
        beside_graph!(
            anything::KINDS[0].anything,
            anything::KINDS[0].anything,
            |_| None
        ),
        beside_graph!(
            anything::KINDS[1].anything,
            anything::KINDS[1].anything,
            |_| None
        ),
        row!(
            "anything / count, small box with something",
            (anything::KINDS[0].anything, "store"),
            (anything::KINDS[0].count, "store"),
            |_| None
        ),
        row!(
            "anything / count, large box with something",
            (anything::KINDS[2].anything, "store"),
            (anything::KINDS[2].count, "store"),
            |_| None
        ),
        beside_graph!(LINE, LINE, |_| Some(3.0)),
        row!(
            "sight line / by voxel questions",
            (LINE, "store"),
            (QUESTIONS, "store"),
            |_| Some(0.2)
        ),
        beside_graph!("outline out", "outline out", |_| None),
        beside_graph!("add", "add", adding_goal),
        row!("pack / add", ("pack", "store"), ("add", "store"), |_| Some(
            1.0
        )),
        row!(
            "check / pack",
            ("check", "store"),
            ("pack", "store"),
            |room| { room.contains("d9-n20").then_some(20.0) }
        ),
        Row {
            name: "packed bytes / graph's bytes",
            of: |all, room| {
                let packed = all.told("packed bytes", room, "store")?;
                let value = packed / all.told("bytes", room, "graph")?;
                Some(Ratio {
                    value,
                    counted: true,
                })
            },
            time: |_, _| None,
            goal: |room| match room {
                "plant-d9-n0" => Some(0.35),
                "plant-d9-n20" => Some(0.57),
                _ => None,
            },
        },
    ]
}

/// A number with three digits or so.
pub fn short(value: f64) -> String {
    match value {
        v if v >= 1e10 => format!("{:.0} G", v / 1e9),
        v if v >= 1e7 => format!("{:.0} M", v / 1e6),
        v if v >= 1e4 => format!("{:.0} k", v / 1e3),
        v if v >= 100.0 => format!("{v:.0}"),
        v if v >= 10.0 => format!("{v:.1}"),
        v if v >= 0.1 => format!("{v:.2}"),
        v => format!("{v:.4}"),
    }
}

fn cell(value: Option<f64>) -> String {
    value.map_or("-".to_string(), short)
}

fn print_row(fields: impl IntoIterator<Item = String>) {
    println!("| {} |", fields.into_iter().collect::<Vec<_>>().join(" | "));
}

fn print_head(fields: &[&str]) {
    print_row(fields.iter().map(|field| field.to_string()));
    print_row(fields.iter().map(|_| "---".to_string()));
}

pub fn print(all: &Measured) {
    println!("Buffers lent to the store (its words, scratch, output) are written with zeros before each measured call; the plain");
    println!("structures allocate within theirs. Times are processor time of the thread, the fastest of five rounds (one above 0.5 s).");
    println!("Instructions are callgrind's, of the call alone: the code that asks isn't counted. All answers were compared and agree.");
    sizes(all);
    ratios(all);
    for room in &all.rooms {
        questions(all, room);
    }
    in_the_way(all);
    lines(all);
    adding(all);
    whole_calls(all);
    growth(all);
    shares(all);
    goals(all);
}

fn sizes(all: &Measured) {
    println!("\n## Sizes\n");
    println!("Cells: kept with images once (store), with equal cells once (graph), without sharing (octree). Bytes: 8 a leaf, 32 an inner cell (store 12 and 44: a next word each, and the solid count; its 3,840 chain heads aside).\n");
    print_head(&[
        "room",
        "solid voxels",
        "cells: store",
        "graph",
        "octree",
        "bytes: store",
        "graph",
        "octree",
        "bitmap",
        "capacity",
        "packed bytes",
        "of the graph's",
        "bits a solid voxel",
    ]);
    for room in &all.rooms {
        let told = |item, who| all.told(item, room, who);
        let whole = |value: Option<f64>| value.map_or("-".to_string(), |v| format!("{v:.0}"));
        let packed = told("packed bytes", "store");
        let solid = told("solid voxels", "room");
        let part = packed
            .zip(told("bytes", "graph"))
            .map(|(a, b)| format!("{:.1} %", 100.0 * a / b));
        let bits = packed.zip(solid).map(|(a, b)| 8.0 * a / b);
        print_row([
            room.clone(),
            whole(solid),
            whole(told("cells kept", "store")),
            whole(told("cells kept", "graph")),
            whole(told("cells kept", "octree")),
            whole(told("bytes", "store")),
            whole(told("bytes", "graph")),
            whole(told("bytes", "octree")),
            whole(told("bytes", "bitmap")),
            whole(told("capacity", "store")),
            whole(packed),
            part.unwrap_or("-".to_string()),
            cell(bits),
        ]);
    }
}

fn ratios(all: &Measured) {
    println!("\n## Ratios: the store over the plain graph, by instructions (in brackets by time; * by time alone)\n");
    let mut head = vec!["question", "goal"];
    head.extend(all.rooms.iter().map(String::as_str));
    print_head(&head);
    for row in rows() {
        let goals: Vec<f64> = all
            .rooms
            .iter()
            .filter_map(|room| (row.goal)(room))
            .collect();
        let mut fields = vec![row.name.to_string()];
        let mut texts: Vec<String> = goals.iter().map(|goal| short(*goal)).collect();
        texts.dedup();
        fields.push(if texts.is_empty() {
            "-".to_string()
        } else {
            texts.join(", ")
        });
        for room in &all.rooms {
            let Some(ratio) = (row.of)(all, room) else {
                fields.push("-".to_string());
                continue;
            };
            let time = (row.time)(all, room).filter(|_| ratio.counted);
            let time = time.map_or(String::new(), |time| format!(" ({})", short(time)));
            let star = if ratio.counted { "" } else { "*" };
            let over = (row.goal)(room).is_some_and(|goal| ratio.value > goal);
            let mark = if over { " over" } else { "" };
            fields.push(format!("{}{star}{time}{mark}", short(ratio.value)));
        }
        print_row(fields);
    }
}

fn questions(all: &Measured, room: &str) {
    println!("\n## {room}: a question's instructions, and nanoseconds\n");
    print_head(&["question", "store", "graph", "octree", "bitmap"]);
    let items = [
        ("voxel, uniform", "voxel, uniform"),
        ("voxel, near surfaces", "voxel, near surfaces"),
        ("packed voxel, uniform", "voxel, uniform"),
        ("packed voxel, near surfaces", "voxel, near surfaces"),
        ("opened question, uniform", "voxel, uniform"),
        ("opened question, near surfaces", "voxel, near surfaces"),
        ("cell", "cell"),
        ("small box, uniform", "small box, uniform"),
        ("small box, near surfaces", "small box, near surfaces"),
        ("large box", "large box"),
        ("whole room's box", "whole room's box"),
        (LINE, LINE),
        (QUESTIONS, LINE),
    ];
    for (item, base) in items {
        let mut fields = vec![item.to_string()];
        for (item, who) in [
            (item, "store"),
            (base, "graph"),
            (base, "octree"),
            (base, "bitmap"),
        ] {
            let count = all.instructions(item, room, who);
            let time = all.told(item, room, who);
            fields.push(format!("{}, {} ns", cell(count), cell(time)));
        }
        print_row(fields);
    }
}

fn in_the_way(all: &Measured) {
    println!("\n## Is anything in the way: a box's instructions, beside its count\n");
    println!("Cells entered: up to the answer, by the store, the graph and the octree alike. Large boxes with nothing are large ones made");
    println!("smaller until they hold nothing; a room may have none.\n");
    print_head(&[
        "room",
        "boxes",
        "how many",
        "cells entered",
        "store",
        "count, store",
        "graph",
        "count, graph",
        "octree",
        "bitmap",
    ]);
    for room in &all.rooms {
        for kind in &anything::KINDS {
            let told = |item: &str| all.told(&format!("{item}{}", kind.name), room, "room");
            let Some(many) = told("boxes: ") else {
                continue;
            };
            let mut fields = vec![room.clone(), kind.name.to_string(), format!("{many:.0}")];
            fields.push(told(ENTERED).map_or("-".to_string(), |n| format!("{n:.1}")));
            for (item, who) in [
                (kind.anything, "store"),
                (kind.count, "store"),
                (kind.anything, "graph"),
                (kind.count, "graph"),
                (kind.anything, "octree"),
                (kind.anything, "bitmap"),
            ] {
                let time = all.told(item, room, who);
                let count = all.instructions(item, room, who);
                fields.push(format!("{}, {} ns", cell(count), cell(time)));
            }
            print_row(fields);
        }
    }
}

fn lines(all: &Measured) {
    println!("\n## Sight lines: what a line goes through, and its instructions\n");
    println!("Crossed: up to the answer, where empty cells are taken at once, the empty cells and the voxels of leaves that the line meets. The");
    println!("last rows are rooms of depth 16: a solid voxel in each corner leaf and lines past them; a wall, and lines along it in its");
    println!("leaves, and beside these.\n");
    let told = [
        "voxels met",
        "voxels up to the answer",
        "empty cells crossed",
        "voxels of leaves crossed",
    ];
    let mut head = vec!["room", "lines"];
    head.extend(told);
    head.extend(["store", "by voxel questions", "graph", "bitmap"]);
    print_head(&head);
    for room in all.rooms.iter().map(String::as_str).chain(deep::NAMES) {
        let number = |item| all.told(item, room, "room");
        let mut fields = vec![room.to_string()];
        let text = |value: Option<f64>, digits: usize| {
            value.map_or("-".to_string(), |value| format!("{value:.digits$}"))
        };
        fields.push(text(number("sight lines"), 0));
        fields.extend(told.map(|item| text(number(item), 1)));
        for (item, who) in [
            (LINE, "store"),
            (QUESTIONS, "store"),
            (LINE, "graph"),
            (LINE, "bitmap"),
        ] {
            fields.push(cell(all.instructions(item, room, who)));
        }
        print_row(fields);
    }
}

/// Adding's instructions for each of so many cells of a room, or its nanoseconds where instructions weren't counted.
fn adding_each(all: &Measured, room: &str, cells: &str) -> Option<Ratio> {
    let many = all.told(cells, room, "store")?;
    let counted = all.instructions("add", room, "store");
    let sum = counted.or_else(|| all.told("add", room, "store"))?;
    Some(Ratio {
        value: sum / many,
        counted: counted.is_some(),
    })
}

fn adding(all: &Measured) {
    println!("\n## Adding a room, beside building the plain graph of it\n");
    println!("Sought: every cell of the room, where it stands in the outline. Compared: with how many kept cells each was compared on the");
    println!("average, those of its chain up to the one found, or all of them where none was. Longest chain: of any height. Instructions,");
    println!("and in brackets by time; * nanoseconds, where instructions weren't counted.\n");
    print_head(&[
        "room",
        "sought",
        "kept",
        "longest chain",
        "compared",
        "store",
        "graph",
        "store / graph",
        "goal",
        "each cell sought",
        "each cell kept",
    ]);
    let starred = |ratio: Option<Ratio>| {
        ratio.map_or("-".to_string(), |ratio| {
            let star = if ratio.counted { "" } else { "*" };
            format!("{}{star}", short(ratio.value))
        })
    };
    for room in &all.rooms {
        let told = |item| all.told(item, room, "store");
        let whole = |value: Option<f64>| value.map_or("-".to_string(), |v| format!("{v:.0}"));
        let compared = told("cells compared").zip(told("cells sought"));
        let work = |who| {
            let count = cell(all.instructions("add", room, who));
            let time = all.told("add", room, who);
            let time = time.map_or("-".to_string(), |time| format!("{:.2} ms", time / 1e6));
            format!("{count} ({time})")
        };
        let over = ("add", "store");
        let under = ("add", "graph");
        let time = cell(all.by_time(over, under, room));
        let ratio = starred(all.ratio(over, under, room));
        print_row([
            room.clone(),
            whole(told("cells sought")),
            whole(told("cells kept")),
            format!(
                "{}, height {}",
                whole(told("longest chain")),
                whole(told("longest chain's height"))
            ),
            cell(compared.map(|(a, b)| a / b)),
            work("store"),
            work("graph"),
            format!("{ratio} ({time})"),
            cell(adding_goal(room)),
            starred(adding_each(all, room, "cells sought")),
            starred(adding_each(all, room, "cells kept")),
        ]);
    }
    adding_growth(all);
}

/// How adding's work for a cell changes from the least depth to the greatest of rooms of one kind.
fn adding_growth(all: &Measured) {
    println!("\nFrom the least depth to the greatest, rooms of one kind and noise: 1 is work that grows as the cells do.\n");
    print_head(&["from", "to", "each cell sought", "each cell kept"]);
    let mut kinds: Vec<(&str, &str)> = Vec::new();
    for (kind, _, noise) in all.rooms.iter().filter_map(|room| named(room)) {
        if !kinds.contains(&(kind, noise)) {
            kinds.push((kind, noise));
        }
    }
    for (kind, noise) in kinds {
        let alike = |room: &&String| named(room).is_some_and(|(k, _, n)| (k, n) == (kind, noise));
        let depth = |room: &&String| named(room).map(|(_, depth, _)| depth);
        let rooms: Vec<&String> = all.rooms.iter().filter(alike).collect();
        let from = rooms.iter().copied().min_by_key(depth);
        let to = rooms.iter().copied().max_by_key(depth);
        let Some((from, to)) = from.zip(to).filter(|(from, to)| from != to) else {
            continue;
        };
        let step = |cells: &str| {
            let (a, b) = adding_each(all, from, cells).zip(adding_each(all, to, cells))?;
            (a.counted == b.counted).then_some(b.value / a.value)
        };
        print_row([
            from.clone(),
            to.clone(),
            cell(step("cells sought")),
            cell(step("cells kept")),
        ]);
    }
}

fn whole_calls(all: &Measured) {
    println!("\n## Calls on a whole room: milliseconds, and instructions where counted\n");
    let mut head = vec!["call"];
    head.extend(all.rooms.iter().map(String::as_str));
    print_head(&head);
    let calls = [
        ("add", "store"),
        ("add", "graph"),
        ("add", "octree"),
        ("add", "bitmap"),
        ("outline out", "store"),
        ("outline out", "graph"),
        ("outline out", "octree"),
        ("outline out", "bitmap"),
        ("pack", "store"),
        ("pack", "graph"),
        ("check", "store"),
    ];
    for (item, who) in calls {
        let mut fields = vec![format!("{item}, {who}")];
        for room in &all.rooms {
            let time = all.told(item, room, who);
            let time = time.map_or("-".to_string(), |time| format!("{:.2} ms", time / 1e6));
            let count = all.instructions(item, room, who);
            let count = count.map_or(String::new(), |count| format!(", {}", short(count)));
            fields.push(format!("{time}{count}"));
        }
        print_row(fields);
    }
}

/// How the check's work over n log n changes from one size to a larger; none where one was left out.
fn growth_step(all: &Measured, kind: &str, from: usize, to: usize) -> Option<f64> {
    let [from, to] = [from, to].map(|size| format!("{kind} {size}"));
    let ratio = all.growth(&from, &to)?;
    let spread = |room: &str| all.told("records", room, "room").map(|n| n * n.log2());
    Some(ratio / (spread(&to)? / spread(&from)?))
}

fn growth(all: &Measured) {
    println!("\n## Check: instructions a record (and microseconds) as files grow\n");
    println!("The last columns: the work over n log n, against that at the size before; 1 or less is no faster than n log n.\n");
    let mut head = vec!["file".to_string()];
    head.extend(SIZES.iter().map(|size| format!("{size} records")));
    head.extend(
        SIZES
            .windows(2)
            .map(|step| format!("{} to {}", step[0], step[1])),
    );
    print_head(&head.iter().map(String::as_str).collect::<Vec<_>>());
    for (kind, _) in KINDS {
        let mut fields = vec![kind.to_string()];
        for size in SIZES {
            let room = format!("{kind} {size}");
            let records = all.told("records", &room, "room");
            let each = |sum: Option<f64>| sum.zip(records).map(|(sum, n)| sum / n);
            let count = each(all.instructions("check", &room, "store"));
            let time = each(all.told("check", &room, "store")).map(|time| time / 1000.0);
            fields.push(match time {
                Some(time) => format!("{} ({time:.2})", cell(count)),
                None => "left out: too long".to_string(),
            });
        }
        for step in SIZES.windows(2) {
            fields.push(cell(growth_step(all, kind, step[0], step[1])));
        }
        print_row(fields);
    }
}

/// Each goal with the room that is farthest from it.
fn goals(all: &Measured) {
    println!("\n## Goals\n");
    print_head(&["goal", "at most", "worst", "room", "reached"]);
    let told = |name: &str, goal: f64, worst: Option<(f64, &str)>| {
        let reached = worst.map_or("not measured", |w| if w.0 <= goal { "yes" } else { "no" });
        let (value, room) = worst.map_or((None, "-"), |(value, room)| (Some(value), room));
        print_row([name, &short(goal), &cell(value), room, reached].map(str::to_string));
    };
    for row in rows() {
        let aimed = all
            .rooms
            .iter()
            .filter_map(|room| Some((room, (row.goal)(room)?)));
        let mut aimed: Vec<(&String, f64)> = aimed.collect();
        let value = |room: &str| (row.of)(all, room).map(|ratio| ratio.value);
        let far = |room: &str| value(room).unwrap_or(f64::MAX);
        aimed.sort_by(|a, b| a.1.total_cmp(&b.1).then(far(b.0).total_cmp(&far(a.0))));
        aimed.dedup_by_key(|&mut (_, goal)| goal);
        for (room, goal) in aimed {
            told(
                row.name,
                goal,
                value(room).map(|value| (value, room.as_str())),
            );
        }
    }
    for (kind, _) in KINDS {
        for step in SIZES.windows(2) {
            let name = format!(
                "check's growth over n log n, {kind}, {} to {} records",
                step[0], step[1]
            );
            told(
                &name,
                1.0,
                growth_step(all, kind, step[0], step[1]).map(|value| (value, "-")),
            );
        }
    }
}

fn shares(all: &Measured) {
    println!(
        "\n## What damage tests take of a voxel question near surfaces, and the search of adding\n"
    );
    println!("Header: a question on a scene that isn't there, which tests the header and refuses. In Rust: the same walk over the same words,");
    println!("with all damage tests as one would write them, and without any. Tests: what the store takes more than the walk without any.");
    println!("Search: what adding takes more than adding the same records with every leaf full, where few cells are kept.\n");
    print_head(&[
        "room",
        "store",
        "header",
        "in Rust with tests",
        "without",
        "tests' share of the store's, at most",
        "search's share of adding, at least",
    ]);
    let part = |all: Option<f64>, rest: Option<f64>| {
        let share = all.zip(rest).map(|(all, rest)| 100.0 * (1.0 - rest / all));
        share.map_or("-".to_string(), |share| format!("{share:.0} %"))
    };
    for room in &all.rooms {
        let count = |who| all.instructions("voxel, near surfaces", room, who);
        let add = |who| {
            let both = all.instructions("add", room, "store").is_some();
            let counted = all.instructions("add", room, who).filter(|_| both);
            counted.or(all.told("add", room, who))
        };
        let without = count("twin without tests");
        print_row([
            room.clone(),
            cell(count("store")),
            cell(count("no such scene")),
            cell(count("twin")),
            cell(without),
            part(count("store"), without),
            part(add("store"), add("equal leaves")),
        ]);
    }
}
