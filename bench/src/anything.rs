//! Is anything in the way, beside the box count on the same boxes: small ones, large ones and the whole room, such that hold something
//! and such that don't, asked of the store, the plain graph, the pointer octree and the bitmap, all answers compared.
use crate::bitmap::Bitmap;
use crate::boxes::Region;
use crate::calls;
use crate::graph::Graph;
use crate::measure::Meter;
use crate::octree::Octree;
use crate::questions;
use std::hint::black_box;

/// Boxes drawn, and how many large ones of a kind are asked for.
const DRAWN: usize = 4_000;
const LARGE: usize = 40;

/// A small box has edges of 2 to 9 voxels.
const SMALL: (u32, u32) = (2, 9);

/// The boxes by kind: their name on the command line, what is measured of them, and the count of the same boxes beside it.
pub struct Kind {
    pub name: &'static str,
    pub anything: &'static str,
    pub count: &'static str,
}

pub const KINDS: [Kind; 5] = [
    Kind {
        name: "small-something",
        anything: "anything, small box with something",
        count: "count, small box with something",
    },
    Kind {
        name: "small-nothing",
        anything: "anything, small box with nothing",
        count: "count, small box with nothing",
    },
    Kind {
        name: "large-something",
        anything: "anything, large box with something",
        count: "count, large box with something",
    },
    Kind {
        name: "large-nothing",
        anything: "anything, large box with nothing",
        count: "count, large box with nothing",
    },
    Kind {
        name: "whole",
        anything: "anything, whole room",
        count: "count, whole room",
    },
];

/// Told of a kind: the cells that a box takes.
pub const ENTERED: &str = "cells entered: ";

/// The boxes of a room in the order of the kinds. A large box with nothing is a large one made smaller until nothing is left in it, with
/// edges of an eighth of the room's at least; a room may have none.
pub fn boxes(graph: &Graph, octree: &Octree) -> [Vec<Region>; 5] {
    let depth = graph.depth;
    let edge = 1 << depth;
    let holds = |region: &Region| graph.anything(*region).unwrap().0;
    let mut points = questions::near(octree, DRAWN / 2);
    points.extend(questions::uniform(depth, DRAWN / 2));
    let small = questions::boxes(depth, &points, SMALL.0, SMALL.1);
    let (something, nothing) = small.into_iter().partition(holds);
    let points = questions::uniform(depth, DRAWN);
    let large = questions::boxes(depth, &points, edge / 4, 3 * edge / 4);
    let mut full: Vec<Region> = large.iter().copied().filter(holds).collect();
    full.truncate(LARGE);
    let free = large
        .into_iter()
        .filter_map(|region| emptied(graph, region));
    [
        something,
        nothing,
        full,
        free.take(LARGE).collect(),
        vec![Region::whole(edge)],
    ]
}

/// A box made smaller by an eighth of its edges on each side until nothing in it is solid; none where it gets too small.
fn emptied(graph: &Graph, mut region: Region) -> Option<Region> {
    let least = (1 << graph.depth) / 8;
    while graph.anything(region).unwrap().0 {
        for axis in 0..3 {
            let by = (region.high[axis] - region.low[axis]).div_ceil(8);
            region.low[axis] += by;
            region.high[axis] -= by;
            if region.high[axis] < region.low[axis] + least {
                return None;
            }
        }
    }
    Some(region)
}

/// The boxes of a kind by its name on the command line.
pub fn named(graph: &Graph, octree: &Octree, name: &str) -> Option<Vec<Region>> {
    let k = KINDS.iter().position(|kind| kind.name == name)?;
    boxes(graph, octree).into_iter().nth(k)
}

/// An answer as a number, to be summed.
#[inline]
pub fn sum((solid, entered): (bool, u64)) -> u64 {
    (u64::from(solid) << 40) + entered
}

/// A room, and whom to ask.
pub struct Asked<'a> {
    pub store: &'a [u32],
    pub graph: &'a Graph,
    pub octree: &'a Octree,
    pub bitmap: &'a Bitmap,
}

impl Asked<'_> {
    /// Every box is answered alike by all, and has something exactly where its count is above 0; the cells entered, all together.
    fn compare(&self, boxes: &[Region]) -> usize {
        let mut all = 0;
        for &region in boxes {
            let (solid, entered) = calls::anything(self.store, 0, region).unwrap();
            assert_eq!(
                calls::count(self.store, 0, region).map(|n| n > 0),
                Ok(solid)
            );
            assert_eq!(self.graph.anything(region), Some((solid, entered)));
            assert_eq!(self.octree.anything(region), Some((solid, entered)));
            assert_eq!(self.bitmap.anything(region), Some(solid));
            all += entered as usize;
        }
        all
    }

    pub fn measure(&self, meter: &Meter, name: &str) {
        for (kind, boxes) in KINDS.iter().zip(boxes(self.graph, self.octree)) {
            let n = boxes.len();
            if n == 0 {
                continue;
            }
            if !meter.counting() {
                let item = format!("{ENTERED}{}", kind.name);
                meter.tell_of(&item, name, "room", n, self.compare(&boxes));
                meter.tell(&format!("boxes: {}", kind.name), name, "room", n);
            }
            let ask = |item: &str, who: &str, ask: &dyn Fn(Region) -> u64| {
                if meter.wants(item, name, who) {
                    let all = |()| {
                        let boxes = black_box(&boxes).iter();
                        black_box(boxes.fold(0u64, |n, &region| n.wrapping_add(ask(region))))
                    };
                    meter.work((item, name, who), n, || (), all);
                }
            };
            let Asked {
                store,
                graph,
                octree,
                bitmap,
            } = *self;
            ask(kind.anything, "store", &|region| {
                sum(calls::anything(store, 0, region).unwrap())
            });
            ask(kind.anything, "graph", &|region| {
                sum(graph.anything(region).unwrap())
            });
            ask(kind.anything, "octree", &|region| {
                sum(octree.anything(region).unwrap())
            });
            ask(kind.anything, "bitmap", &|region| {
                u64::from(bitmap.anything(region).unwrap())
            });
            ask(kind.count, "store", &|region| {
                calls::count(store, 0, region).unwrap()
            });
            ask(kind.count, "graph", &|region| graph.count(region).unwrap());
        }
    }
}
