//! Sight lines in whole numbers: the voxels that a segment between two voxels' centres meets, one after another or cell by cell, and
//! the lines that are asked for.
use crate::calls;
use crate::graph::Graph;
use crate::questions::{Numbers, Point};

/// A line's two ends.
pub type Line = (Point, Point);

/// Lines drawn at most, of which those wanted are taken.
const MOST_DRAWN: usize = 10_000_000;

/// A segment, and the voxel on it that one is at. Its length is taken as twice the product of the distances on the axes that aren't 0;
/// so all crossings lie at whole numbers.
pub struct Segment {
    pub at: [u64; 3],
    /// What a crossing adds on each axis: 1, or 2^64 - 1 for one less.
    add: [u64; 3],
    /// How far one crossing lies from the next on each axis, which is twice as far as the first from the start.
    apart: [u64; 3],
    /// How far from the start the next crossing lies on each axis; `NEVER` where there is none.
    next: [u64; 3],
}

const NEVER: u64 = u64::MAX;

impl Segment {
    #[inline]
    pub fn new(from: Point, to: Point) -> Segment {
        let distance = |axis: usize| u64::from(from[axis].abs_diff(to[axis]));
        let others =
            |axis: usize| distance((axis + 1) % 3).max(1) * distance((axis + 2) % 3).max(1);
        let first = |axis: usize| match distance(axis) {
            0 => NEVER,
            _ => others(axis),
        };
        let add = |axis: usize| if from[axis] < to[axis] { 1 } else { u64::MAX };
        Segment {
            at: from.map(u64::from),
            add: [0, 1, 2].map(add),
            apart: [0, 1, 2].map(|axis| 2 * others(axis)),
            next: [0, 1, 2].map(first),
        }
    }

    /// Over so many faces on one axis.
    #[inline]
    fn cross(&mut self, axis: usize, faces: u64) {
        self.next[axis] += self.apart[axis] * faces;
        let by = self.add[axis].wrapping_mul(faces);
        self.at[axis] = self.at[axis].wrapping_add(by);
    }

    /// To the voxel met next: over the next face, over two or three where they are crossed at once.
    #[inline]
    pub fn step(&mut self) {
        let [x, y, z] = self.next;
        let crossed = x.min(y).min(z);
        for axis in 0..3 {
            if self.next[axis] == crossed {
                self.cross(axis, 1);
            }
        }
    }

    /// To the voxel that is met first outside the cell of height h that one is in.
    #[inline]
    pub fn leave(&mut self, h: u32) {
        let mut left = NEVER;
        for axis in 0..3 {
            if self.next[axis] != NEVER {
                let up = if self.add[axis] == 1 { u64::MAX } else { 0 };
                let before = (self.at[axis] ^ up) & ((1 << h) - 1);
                left = left.min(self.next[axis] + self.apart[axis] * before);
            }
        }
        for axis in 0..3 {
            if self.next[axis] <= left {
                let more = (left - self.next[axis]) / self.apart[axis];
                self.cross(axis, more + 1);
            }
        }
    }
}

/// The bits in which two voxels differ on any axis: the same cell of height h holds both where none is at h or above.
#[inline]
pub fn differ([a, b, c]: [u64; 3], [x, y, z]: [u64; 3]) -> u64 {
    (a ^ x) | (b ^ y) | (c ^ z)
}

/// The first solid voxel that the segment meets, the ends left out, by testing each in turn.
#[inline]
pub fn by_voxels(from: Point, to: Point, mut solid: impl FnMut(Point) -> bool) -> Option<Point> {
    let mut segment = Segment::new(from, to);
    let to = to.map(u64::from);
    while segment.at != to {
        segment.step();
        let at = segment.at.map(|c| c as u32);
        if segment.at != to && solid(at) {
            return Some(at);
        }
    }
    None
}

/// The same by a voxel question to the store for each.
#[inline(never)]
pub fn by_questions(store: &[u32], from: Point, to: Point) -> Option<Point> {
    by_voxels(from, to, |[x, y, z]| {
        calls::voxel(store, 0, x, y, z).is_ok_and(|(solid, _)| solid)
    })
}

/// Lines between empty voxels anywhere in the room, n clear ones and then n blocked ones, or as many as are found.
pub fn drawn(graph: &Graph, n: usize) -> Vec<Line> {
    let mut numbers = Numbers::new(5);
    let edge = 1 << graph.depth;
    let (mut clear, mut blocked) = (Vec::new(), Vec::new());
    for _ in 0..MOST_DRAWN {
        if clear.len() + blocked.len() == 2 * n {
            break;
        }
        let ends = [(); 2].map(|_| [(); 3].map(|_| numbers.below(edge)));
        if ends
            .iter()
            .any(|&[x, y, z]| graph.voxel(x, y, z) != Some(false))
        {
            continue;
        }
        let line = (ends[0], ends[1]);
        let kind = match graph.sight(line.0, line.1) {
            Some(None) => &mut clear,
            _ => &mut blocked,
        };
        if kind.len() < n {
            kind.push(line);
        }
    }
    clear.append(&mut blocked);
    clear
}

/// What a line goes through: the voxels met between its ends, those of them up to the answer, and of these, where large empty cells
/// are taken at once, the empty cells and the voxels of leaves.
#[derive(Default)]
pub struct Crossed {
    met: usize,
    tested: usize,
    cells: usize,
    voxels: usize,
}

impl Crossed {
    /// Each by its name.
    pub fn told(&self) -> [(&'static str, usize); 4] {
        [
            ("voxels met", self.met),
            ("voxels up to the answer", self.tested),
            ("empty cells crossed", self.cells),
            ("voxels of leaves crossed", self.voxels),
        ]
    }
}

/// The sums over lines.
pub fn crossed(graph: &Graph, lines: &[Line]) -> Crossed {
    let mut sum = Crossed::default();
    for &(from, to) in lines {
        by_voxels(from, to, |_| {
            sum.met += 1;
            false
        });
        by_voxels(from, to, |[x, y, z]| {
            sum.tested += 1;
            graph.voxel(x, y, z) == Some(true)
        });
        graph.along(from, to, |height| match height {
            0 => sum.voxels += 1,
            _ => sum.cells += 1,
        });
    }
    sum
}
