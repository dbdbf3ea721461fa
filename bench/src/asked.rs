//! Questions of one kind asked of the store or of the plain graph, so many times, and nothing else that depends on how many: for a counter of a
//! whole program's instructions.
use crate::anything;
use crate::boxes::Region;
use crate::calls;
use crate::graph::Graph;
use crate::octree::Octree;
use crate::questions::{self, Point};
use crate::work;
use std::fs;
use std::hint::black_box;
use std::path::Path;

/// Points or boxes of each kind.
const ASKED: usize = 2_000;

/// What is asked.
enum Asked {
    Points(Vec<Point>),
    Boxes(Vec<Region>),
    Anything(Vec<Region>),
}

/// Who is asked.
enum Whom {
    Store(Vec<u32>),
    Packed(Vec<u8>),
    Graph(Graph),
}

/// `what`: voxels anywhere or near surfaces; boxes counted: small ones near surfaces, large ones, the whole room, or those of
/// `src/anything.rs` by their names (small-something, small-nothing, large-something, large-nothing). With `any-` in front, the same boxes are asked
/// whether they hold anything.
fn asked(what: &str, file: &[u8]) -> Asked {
    if let Some(what) = what.strip_prefix("any-") {
        return match asked(what, file) {
            Asked::Boxes(boxes) => Asked::Anything(boxes),
            _ => panic!("a point is no box"),
        };
    }
    let octree = Octree::of(file);
    let depth = octree.depth;
    let near = questions::near(&octree, ASKED);
    let quarter = (1 << depth) / 4;
    match what {
        "voxels" => Asked::Points(questions::uniform(depth, ASKED)),
        "near" => Asked::Points(near),
        "small" => Asked::Boxes(questions::boxes(depth, &near, 2, 9)),
        "large" => {
            let points = questions::uniform(depth, ASKED / 20);
            Asked::Boxes(questions::boxes(depth, &points, quarter, 3 * quarter))
        }
        "whole" => Asked::Boxes(vec![Region::whole(1 << depth)]),
        _ => {
            let boxes = anything::named(&Graph::of(file), &octree, what);
            Asked::Boxes(
                boxes.expect("voxels, near, small, large, whole or a kind of src/anything.rs"),
            )
        }
    }
}

/// The packed file of scene 0.
fn packed(store: &[u32]) -> Vec<u8> {
    let capacity = store[0] as usize;
    let mut scratch = vec![0; 60 * capacity];
    let mut out = vec![0; 1 << 26];
    let length = calls::pack(store, 0, &mut scratch, &mut out).unwrap();
    out.truncate(length);
    out
}

impl Whom {
    #[inline(never)]
    fn voxel(&self, [x, y, z]: Point) -> bool {
        match self {
            Whom::Store(store) => calls::voxel(store, 0, x, y, z).unwrap().0,
            Whom::Packed(file) => calls::packed_voxel(file, x, y, z).unwrap().0,
            Whom::Graph(graph) => graph.voxel(x, y, z).unwrap(),
        }
    }

    #[inline(never)]
    fn count(&self, region: Region) -> u64 {
        match self {
            Whom::Store(store) => calls::count(store, 0, region).unwrap(),
            Whom::Packed(_) => panic!("a packed file answers no box"),
            Whom::Graph(graph) => graph.count(region).unwrap(),
        }
    }

    #[inline(never)]
    fn anything(&self, region: Region) -> u64 {
        anything::sum(match self {
            Whom::Store(store) => calls::anything(store, 0, region).unwrap(),
            Whom::Packed(_) => panic!("a packed file answers no box"),
            Whom::Graph(graph) => graph.anything(region).unwrap(),
        })
    }
}

/// Asks `which` (store, packed or graph) all of one kind, so many times, and prints how many they are and the sum of the answers.
pub fn repeat(what: &str, which: &str, times: usize, kept: &Path, room: &str) {
    let file = fs::read(room).unwrap();
    let whom = match which {
        "graph" => Whom::Graph(Graph::of(&file)),
        "store" => Whom::Store(work::kept_store(&file, kept, room)),
        "packed" => Whom::Packed(packed(&work::kept_store(&file, kept, room))),
        _ => panic!("store, packed or graph"),
    };
    let asked = asked(what, &file);
    let mut sum = 0u64;
    for _ in 0..times {
        sum = match &asked {
            Asked::Points(points) => points
                .iter()
                .fold(sum, |n, &p| n + u64::from(black_box(whom.voxel(p)))),
            Asked::Boxes(boxes) => boxes
                .iter()
                .fold(sum, |n, &b| n.wrapping_add(black_box(whom.count(b)))),
            Asked::Anything(boxes) => boxes
                .iter()
                .fold(sum, |n, &b| n.wrapping_add(black_box(whom.anything(b)))),
        };
    }
    let many = match asked {
        Asked::Points(points) => points.len(),
        Asked::Boxes(boxes) | Asked::Anything(boxes) => boxes.len(),
    };
    println!("{many} {what}, {times} times, {sum}");
}
