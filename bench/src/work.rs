//! All that is measured on one room: the proved store beside a plain graph, a pointer octree and a bitmap, the same questions to
//! each, and their answers compared.
use crate::bitmap::Bitmap;
use crate::boxes::Region;
use crate::calls::{self, Numbers};
use crate::graph::Graph;
use crate::measure::Meter;
use crate::octree::Octree;
use crate::questions::{self, Point};
use crate::{anything, chains, classes, outline, sight, twin};
use std::collections::HashSet;
use std::fs;
use std::hint::black_box;
use std::path::{Path, PathBuf};

/// How many questions of each kind.
const VOXELS: usize = 20_000;
const CELLS: usize = 2_000;
const SMALL_BOXES: usize = 2_000;
const LARGE_BOXES: usize = 8;

/// A small box has edges of 2 to 9 voxels.
const SMALL: (u32, u32) = (2, 9);

/// A room, in every structure.
struct Subject<'a> {
    meter: &'a Meter,
    name: &'a str,
    file: Vec<u8>,
    store: Vec<u32>,
    packed: Vec<u8>,
    numbers: Numbers,
    graph: Graph,
    octree: Octree,
    bitmap: Bitmap,
}

/// Measures a room. `kept` is a folder for the words of its store, so that callgrind needn't wait for the adding.
pub fn room(meter: &Meter, name: &str, file: Vec<u8>, kept: &Path) {
    let differing = classes::of(&file);
    let capacity = least_capacity(&differing);
    let words = kept.join(format!("{name}.words"));
    let store = added(meter, name, &file, capacity, words);
    if !meter.counting() {
        for h in 2..=16 {
            assert_eq!(
                calls::kept(&store, h),
                Ok(differing[h as usize]),
                "cells kept at {h}"
            );
        }
    }
    built(meter, name, &file);
    chained(meter, name, &store);
    let packed = packed(meter, name, &store, capacity, &file);
    let subject = Subject {
        meter,
        name,
        numbers: calls::open(&packed).unwrap(),
        graph: Graph::of(&file),
        octree: Octree::of(&file),
        bitmap: Bitmap::of(&file),
        file,
        store,
        packed,
    };
    subject.sizes(&differing);
    subject.outlines();
    subject.saved();
    for (where_, points) in subject.points() {
        subject.voxels(where_, &points);
    }
    subject.cells();
    subject.boxes();
    subject.anything();
    sight::room(meter, name, &subject.store, &subject.graph, &subject.bitmap);
}

// ---- adding, packing, checking

/// Buffers are written with zeros before each round: no page of them is touched for the first time in what is measured.
fn zeros<T: Copy + Default>(n: usize) -> Vec<T> {
    let mut buffer = Vec::with_capacity(n);
    for _ in 0..n {
        buffer.push(black_box(T::default()));
    }
    buffer
}

fn least_capacity(differing: &[u32; 17]) -> u32 {
    differing[2..].iter().copied().max().unwrap().max(1)
}

/// A store of the least capacity with the room added.
pub fn store_of(file: &[u8]) -> Vec<u32> {
    let capacity = least_capacity(&classes::of(file));
    let mut store = zeros(calls::store_words(capacity));
    calls::new(&mut store, capacity).unwrap();
    assert_eq!(calls::add(&mut store, file), Ok(0));
    store
}

/// The same, its words kept in a folder for the next run.
pub fn kept_store(file: &[u8], kept: &Path, room: &str) -> Vec<u32> {
    let name = Path::new(room).file_stem().unwrap().to_str().unwrap();
    let words = kept.join(format!("{name}.words"));
    read_words(&words).unwrap_or_else(|| {
        let store = store_of(file);
        write_words(&words, &store);
        store
    })
}

fn write_words(path: &Path, store: &[u32]) {
    let bytes: Vec<u8> = store.iter().flat_map(|word| word.to_le_bytes()).collect();
    fs::write(path, bytes).unwrap();
}

/// The words in a file, if they are those of a store: another layout's are not.
fn read_words(path: &Path) -> Option<Vec<u32>> {
    let bytes = fs::read(path).ok()?;
    let word = |four: &[u8]| u32::from_le_bytes(four.try_into().unwrap());
    let words: Vec<u32> = bytes.chunks(4).map(word).collect();
    (words.len() == calls::store_words(*words.first()?)).then_some(words)
}

/// The store with the room added, and what adding costs, also of the same records with all leaves equal: next to no search.
fn added(meter: &Meter, name: &str, file: &[u8], capacity: u32, words: PathBuf) -> Vec<u32> {
    let ready = || {
        let mut store = zeros(calls::store_words(capacity));
        calls::new(&mut store, capacity).unwrap();
        store
    };
    let add = |who: &str, file: &[u8]| {
        meter.work(("add", name, who), 1, ready, |mut store| {
            assert_eq!(calls::add(&mut store, file), Ok(0));
            store
        })
    };
    if meter.wants("add", name, "store") {
        add("equal leaves", &equal_leaves(file));
        let store = add("store", file);
        if !meter.counting() {
            write_words(&words, &store);
        }
        return store;
    }
    read_words(&words).expect("the store's words that the run by the clock leaves")
}

/// The same masks, every leaf full: where cells were images of each other, they still are.
fn equal_leaves(file: &[u8]) -> Vec<u8> {
    let octree = Octree::of(file);
    let leaves: HashSet<[u32; 3]> = octree.leaves().into_iter().map(|leaf| leaf.0).collect();
    let mut records = Vec::new();
    outline::write_cell(&mut records, octree.depth, [0; 3], &|corner| {
        if leaves.contains(&corner) {
            u64::MAX
        } else {
            0
        }
    });
    outline::file(octree.depth, &records)
}

/// What building the plain structures from the outline costs.
fn built(meter: &Meter, name: &str, file: &[u8]) {
    let none = || ();
    meter.work(("add", name, "graph"), 1, none, |()| Graph::of(file));
    meter.work(("add", name, "octree"), 1, none, |()| Octree::of(file));
    meter.work(("add", name, "bitmap"), 1, none, |()| Bitmap::of(file));
}

/// What the store's chains tell of its adding.
fn chained(meter: &Meter, name: &str, store: &[u32]) {
    if meter.counting() {
        return;
    }
    let chains = chains::of(store);
    let (cells, height) = chains.longest;
    meter.tell("longest chain", name, "store", cells);
    meter.tell("longest chain's height", name, "store", height);
    meter.tell("cells sought", name, "store", chains.sought as usize);
    meter.tell("cells compared", name, "store", chains.compared as usize);
}

/// Adds a room to a new store (`store`), or builds the plain graph of it (`graph`), so many times.
pub fn repeat_adding(which: &str, times: usize, room: &str) {
    let file = fs::read(room).unwrap();
    let capacity = least_capacity(&classes::of(&file));
    let mut store = zeros(calls::store_words(capacity));
    let mut kept = 0;
    for _ in 0..times {
        match which {
            "store" => {
                calls::new(&mut store, capacity).unwrap();
                assert_eq!(calls::add(&mut store, black_box(&file)), Ok(0));
                kept = (2..=16).map(|h| store[h] as usize).sum();
            }
            "graph" => {
                let (cells, leaves) = black_box(Graph::of(black_box(&file))).kept();
                kept = cells + leaves;
            }
            _ => panic!("store or graph"),
        }
    }
    println!("added {times} times, {kept} cells kept");
}

/// The packed scene, and what packing and checking cost.
fn packed(meter: &Meter, name: &str, store: &[u32], capacity: u32, file: &[u8]) -> Vec<u8> {
    let ready = || {
        (
            zeros(calls::pack_words(capacity)),
            zeros(2 * file.len() + 64),
        )
    };
    let packed = meter.work(
        ("pack", name, "store"),
        1,
        ready,
        |(mut scratch, mut out)| {
            let length = calls::pack(store, 0, &mut scratch, &mut out).unwrap();
            out.truncate(length);
            out
        },
    );
    check(meter, name, &packed, Some(u32::from(file[5])));
    packed
}

/// Checks a proper file, unless that would take too long; `depth` is told where known.
pub fn check(meter: &Meter, name: &str, packed: &[u8], depth: Option<u32>) {
    if !meter.wants("check", name, "store") || !meter.counting() && crate::growth::too_long(packed)
    {
        return;
    }
    meter.work(
        ("check", name, "store"),
        1,
        || zeros(packed.len()),
        |mut scratch: Vec<u8>| {
            let answer = calls::check(packed, &mut scratch);
            assert!(
                answer.is_ok_and(|told| depth.is_none_or(|depth| told == depth)),
                "{answer:?}"
            );
        },
    );
}

// ---- questions

/// Asks one question after the other; the sum of what it answers.
#[inline]
fn ask_all<Q: Copy>(questions: &[Q], ask: impl Fn(Q) -> u64) -> u64 {
    questions
        .iter()
        .fold(0, |sum, &question| sum + ask(question))
}

impl Subject<'_> {
    fn sizes(&self, differing: &[u32; 17]) {
        let tell = |who: &str, item: &str, n: usize| self.meter.tell(item, self.name, who, n);
        let leaves = differing[2] as usize;
        let cells = differing[3..].iter().sum::<u32>() as usize;
        tell("store", "cells kept", leaves + cells);
        tell("store", "bytes", 12 * leaves + 44 * cells);
        tell("store", "capacity", self.store[0] as usize);
        tell("store", "lent bytes", 4 * self.store.len());
        tell("store", "packed bytes", self.packed.len());
        tell(
            "room",
            "solid voxels",
            self.graph.count(self.whole()).unwrap() as usize,
        );
        tell("room", "outline bytes", self.file.len());
        let (cells, leaves) = self.graph.kept();
        tell("graph", "cells kept", cells + leaves);
        tell("graph", "bytes", self.graph.bytes());
        let (cells, leaves) = self.octree.cells();
        tell("octree", "cells kept", cells + leaves);
        tell("octree", "bytes", self.octree.bytes());
        tell("bitmap", "bytes", self.bitmap.bytes());
    }

    fn whole(&self) -> Region {
        Region::whole(1 << self.graph.depth)
    }

    fn points(&self) -> [(&'static str, Vec<Point>); 2] {
        let uniform = questions::uniform(self.graph.depth, VOXELS);
        [
            ("uniform", uniform),
            ("near surfaces", questions::near(&self.octree, VOXELS)),
        ]
    }

    /// Measures the same questions to one structure.
    fn asked<Q: Copy>(&self, item: &str, who: &str, questions: &[Q], ask: impl Fn(Q) -> u64) {
        let n = questions.len();
        let work = |()| black_box(ask_all(black_box(questions), &ask));
        self.meter.work((item, self.name, who), n, || (), work);
    }

    fn voxels(&self, where_: &str, points: &[Point]) {
        let Subject {
            store,
            packed,
            numbers,
            graph,
            octree,
            bitmap,
            ..
        } = self;
        for &[x, y, z] in points {
            let (solid, read, height) = octree.voxel(x, y, z).unwrap();
            let (voxel, found) = ((solid, height), (solid, read, height));
            assert_eq!(calls::voxel(store, 0, x, y, z), Ok(voxel));
            assert_eq!(calls::packed_voxel(packed, x, y, z), Ok(found));
            assert_eq!(calls::ask(packed, numbers, x, y, z), Ok(found));
            assert_eq!(graph.voxel(x, y, z), Some(solid));
            assert_eq!(bitmap.voxel(x, y, z), Some(solid));
            assert_eq!(twin::voxel::<true>(store, 0, x, y, z), Some(voxel));
            assert_eq!(twin::voxel::<false>(store, 0, x, y, z), Some(voxel));
        }
        let ask = |item: &str, who: &str, ask: &dyn Fn(Point) -> u64| {
            self.asked(&format!("{item}, {where_}"), who, points, ask)
        };
        ask("voxel", "store", &|[x, y, z]| {
            calls::voxel(store, 0, x, y, z).map_or(2, |(s, _)| u64::from(s))
        });
        ask("voxel", "graph", &|[x, y, z]| {
            graph.voxel(x, y, z).map_or(2, u64::from)
        });
        ask("voxel", "octree", &|[x, y, z]| {
            octree.voxel(x, y, z).map_or(2, |(s, ..)| u64::from(s))
        });
        ask("voxel", "bitmap", &|[x, y, z]| {
            bitmap.voxel(x, y, z).map_or(2, u64::from)
        });
        ask("voxel", "no such scene", &|[x, y, z]| {
            calls::voxel(store, 64, x, y, z).map_or(2, |(s, _)| u64::from(s))
        });
        ask("voxel", "twin", &|[x, y, z]| {
            twin::voxel::<true>(store, 0, x, y, z).map_or(2, |(s, _)| u64::from(s))
        });
        ask("voxel", "twin without tests", &|[x, y, z]| {
            twin::voxel::<false>(store, 0, x, y, z).map_or(2, |(s, _)| u64::from(s))
        });
        ask("packed voxel", "store", &|[x, y, z]| {
            calls::packed_voxel(packed, x, y, z).map_or(2, |(s, ..)| u64::from(s))
        });
        ask("opened question", "store", &|[x, y, z]| {
            calls::ask(packed, numbers, x, y, z).map_or(2, |(s, ..)| u64::from(s))
        });
    }

    fn cells(&self) {
        let Subject {
            store,
            graph,
            octree,
            bitmap,
            ..
        } = self;
        let points = questions::near(octree, CELLS);
        let cells = questions::cells(graph.depth, &points);
        for &(h, [x, y, z]) in &cells {
            let full = octree.cell(h, x, y, z);
            assert_eq!(calls::cell(store, 0, h, x, y, z).ok(), full);
            assert_eq!(graph.cell(h, x, y, z), full);
            assert_eq!(bitmap.cell(h, x, y, z), full);
        }
        self.asked("cell", "store", &cells, |(h, [x, y, z])| {
            calls::cell(store, 0, h, x, y, z).map_or(2, u64::from)
        });
        self.asked("cell", "graph", &cells, |(h, [x, y, z])| {
            graph.cell(h, x, y, z).map_or(2, u64::from)
        });
        self.asked("cell", "octree", &cells, |(h, [x, y, z])| {
            octree.cell(h, x, y, z).map_or(2, u64::from)
        });
        if self.meter.wants("cell", self.name, "bitmap") {
            self.asked("cell", "bitmap", &cells, |(h, [x, y, z])| {
                bitmap.cell(h, x, y, z).map_or(2, u64::from)
            });
        }
    }

    fn boxes(&self) {
        let Subject {
            store,
            graph,
            octree,
            bitmap,
            ..
        } = self;
        let depth = graph.depth;
        let edge = 1 << depth;
        let [(_, uniform), (_, near)] = self.points();
        let small =
            |points: &[Point]| questions::boxes(depth, &points[..SMALL_BOXES], SMALL.0, SMALL.1);
        let large = questions::boxes(depth, &uniform[..LARGE_BOXES], edge / 4, 3 * edge / 4);
        let kinds = [
            ("small box, uniform", small(&uniform)),
            ("small box, near surfaces", small(&near)),
            ("large box", large),
            ("whole room's box", vec![self.whole()]),
        ];
        for (item, boxes) in &kinds {
            for &region in boxes {
                let solid = graph.count(region);
                assert_eq!(calls::count(store, 0, region).ok(), solid);
                assert_eq!(octree.count(region), solid);
                assert_eq!(bitmap.count(region), solid);
            }
            let ask = |who: &str, ask: &dyn Fn(Region) -> u64| {
                if self.meter.wants(item, self.name, who) {
                    self.asked(item, who, boxes, ask);
                }
            };
            ask("store", &|region| calls::count(store, 0, region).unwrap());
            ask("graph", &|region| graph.count(region).unwrap());
            ask("octree", &|region| octree.count(region).unwrap());
            ask("bitmap", &|region| bitmap.count(region).unwrap());
        }
    }

    fn anything(&self) {
        let asked = anything::Asked {
            store: &self.store,
            graph: &self.graph,
            octree: &self.octree,
            bitmap: &self.bitmap,
        };
        asked.measure(self.meter, self.name);
    }

    fn outlines(&self) {
        let none = || ();
        let key = |who| ("outline out", self.name, who);
        let ready = || zeros(self.file.len());
        let out = self.meter.work(key("store"), 1, ready, |mut out: Vec<u8>| {
            let length = calls::outline(&self.store, 0, &mut out).unwrap();
            out.truncate(length);
            out
        });
        let graph = self
            .meter
            .work(key("graph"), 1, none, |()| self.graph.outline());
        let octree = self
            .meter
            .work(key("octree"), 1, none, |()| self.octree.outline());
        let bitmap = self
            .meter
            .work(key("bitmap"), 1, none, |()| self.bitmap.outline());
        for told in [out, graph, octree, bitmap] {
            assert!(told == self.file, "another outline");
        }
    }

    /// The plain graph's bytes: what packing is beside.
    fn saved(&self) {
        self.meter.work(
            ("pack", self.name, "graph"),
            1,
            || (),
            |()| self.graph.save(),
        );
    }
}
