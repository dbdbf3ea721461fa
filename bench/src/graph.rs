//! The plain graph: an octree with equal cells kept once, no mirrors. An inner cell is eight 4-byte pointers, a leaf 8 bytes; a
//! pointer is 0 for none, otherwise a number plus 1.
use crate::boxes::Region;
use crate::lines::{self, Segment};
use crate::outline::{self, Records};
use crate::questions::Point;
use std::collections::HashMap;

pub struct Graph {
    pub depth: u32,
    root: u32,
    cells: Vec<[u32; 8]>,
    leaves: Vec<u64>,
}

/// Where equal cells are found while a graph is built: leaves, and cells by height.
#[derive(Default)]
struct Known {
    leaves: HashMap<u64, u32>,
    cells: [HashMap<[u32; 8], u32>; 17],
}

impl Graph {
    #[inline(never)]
    pub fn of(file: &[u8]) -> Graph {
        let (depth, records) = Records::of(file);
        let mut graph = Graph {
            depth,
            root: 0,
            cells: Vec::new(),
            leaves: Vec::new(),
        };
        if let Some(mut records) = records {
            graph.root = graph.read(&mut records, depth, &mut Known::default());
        }
        graph
    }

    fn read(&mut self, records: &mut Records, h: u32, known: &mut Known) -> u32 {
        if h == 2 {
            let leaf = records.leaf();
            return *known.leaves.entry(leaf).or_insert_with(|| {
                self.leaves.push(leaf);
                self.leaves.len() as u32
            });
        }
        let mask = records.mask();
        let mut cell = [0u32; 8];
        for (i, p) in cell.iter_mut().enumerate() {
            if mask >> i & 1 == 1 {
                *p = self.read(records, h - 1, known);
            }
        }
        *known.cells[h as usize].entry(cell).or_insert_with(|| {
            self.cells.push(cell);
            self.cells.len() as u32
        })
    }

    /// Cells and leaves kept.
    pub fn kept(&self) -> (usize, usize) {
        (self.cells.len(), self.leaves.len())
    }

    pub fn bytes(&self) -> usize {
        32 * self.cells.len() + 8 * self.leaves.len()
    }

    /// The pointer to the cell of height `stop` that holds a voxel, 0 where it is empty.
    #[inline]
    fn pointer_to(&self, stop: u32, x: u32, y: u32, z: u32) -> u32 {
        let mut p = self.root;
        let mut h = self.depth;
        while h > stop && p != 0 {
            h -= 1;
            let i = x >> h & 1 | (y >> h & 1) << 1 | (z >> h & 1) << 2;
            p = self.cells[p as usize - 1][i as usize];
        }
        p
    }

    #[inline(never)]
    pub fn voxel(&self, x: u32, y: u32, z: u32) -> Option<bool> {
        if (x | y | z) >> self.depth != 0 {
            return None;
        }
        let p = self.pointer_to(2, x, y, z);
        if p == 0 {
            return Some(false);
        }
        let bit = x & 3 | (y & 3) << 2 | (z & 3) << 4;
        Some(self.leaves[p as usize - 1] >> bit & 1 == 1)
    }

    /// The first solid voxel that the segment meets, the ends left out; none of all where one is outside.
    #[inline(never)]
    pub fn sight(&self, from: Point, to: Point) -> Option<Option<Point>> {
        let outside = |[x, y, z]: Point| (x | y | z) >> self.depth != 0;
        if outside(from) || outside(to) {
            return None;
        }
        Some(self.along(from, to, |_| ()))
    }

    /// The same inside the room: empty cells are crossed at once, leaves voxel by voxel, and from each the walk goes on from the deepest
    /// cell on its path that holds the next voxel. `see` gets the height of each empty cell crossed, 0 for a voxel of a leaf.
    #[inline]
    pub fn along(&self, from: Point, to: Point, mut see: impl FnMut(u32)) -> Option<Point> {
        if from == to {
            return None;
        }
        let mut segment = Segment::new(from, to);
        segment.step();
        let to = to.map(u64::from);
        let mut path = [self.root; 17];
        let mut h = self.depth;
        while segment.at != to {
            let before = segment.at;
            let [x, y, z] = before;
            let mut p = path[h as usize];
            while h > 2 && p != 0 {
                h -= 1;
                let i = x >> h & 1 | (y >> h & 1) << 1 | (z >> h & 1) << 2;
                p = self.cells[p as usize - 1][i as usize];
                path[h as usize] = p;
            }
            if p == 0 {
                see(h);
                if lines::differ(before, to) >> h == 0 {
                    return None;
                }
                segment.leave(h);
            } else {
                let leaf = self.leaves[p as usize - 1];
                while segment.at != to && lines::differ(before, segment.at) < 4 {
                    see(0);
                    let [x, y, z] = segment.at;
                    if leaf >> (x & 3 | (y & 3) << 2 | (z & 3) << 4) & 1 == 1 {
                        return Some(segment.at.map(|c| c as u32));
                    }
                    segment.step();
                }
            }
            h = 64 - lines::differ(before, segment.at).leading_zeros();
        }
        None
    }

    #[inline(never)]
    pub fn cell(&self, h: u32, x: u32, y: u32, z: u32) -> Option<bool> {
        if h > self.depth || (x | y | z) >> (self.depth - h) != 0 {
            return None;
        }
        let (x, y, z) = (x << h, y << h, z << h);
        let p = self.pointer_to(h.max(2), x, y, z);
        if p == 0 || h >= 2 {
            return Some(p != 0);
        }
        let edge = 1 << h;
        let low = [x & 3, y & 3, z & 3];
        let region = Region {
            low,
            high: low.map(|c| c + edge),
        };
        Some(self.leaves[p as usize - 1] & region.leaf_bits() != 0)
    }

    #[inline(never)]
    pub fn count(&self, region: Region) -> Option<u64> {
        if !region.lies_in(1 << self.depth) {
            return None;
        }
        Some(self.count_in(self.root, self.depth, region))
    }

    fn count_in(&self, p: u32, h: u32, region: Region) -> u64 {
        if p == 0 || !region.has_voxel() {
            return 0;
        }
        if region.is_whole(1 << h) {
            return self.count_whole(p, h);
        }
        if h == 2 {
            return u64::from((self.leaves[p as usize - 1] & region.leaf_bits()).count_ones());
        }
        let cell = self.cells[p as usize - 1];
        let half = 1 << (h - 1);
        let mut n = 0;
        for (i, &child) in cell.iter().enumerate() {
            n += self.count_in(child, h - 1, region.in_child(i as u32, half));
        }
        n
    }

    fn count_whole(&self, p: u32, h: u32) -> u64 {
        if h == 2 {
            return u64::from(self.leaves[p as usize - 1].count_ones());
        }
        let cell = self.cells[p as usize - 1];
        let mut n = 0;
        for &child in &cell {
            if child != 0 {
                n += self.count_whole(child, h - 1);
            }
        }
        n
    }

    /// Whether a box holds anything solid, and the cells entered up to that answer: children by rising number, each one's own before the
    /// next.
    #[inline(never)]
    pub fn anything(&self, region: Region) -> Option<(bool, u64)> {
        if !region.lies_in(1 << self.depth) {
            return None;
        }
        let mut entered = 0;
        let solid = self.anything_in(self.root, self.depth, region, &mut entered);
        Some((solid, entered))
    }

    fn anything_in(&self, p: u32, h: u32, region: Region, entered: &mut u64) -> bool {
        if p == 0 || !region.has_voxel() {
            return false;
        }
        *entered += 1;
        if h == 2 {
            return self.leaves[p as usize - 1] & region.leaf_bits() != 0;
        }
        let cell = self.cells[p as usize - 1];
        let half = 1 << (h - 1);
        let mut children = (0u32..).zip(cell);
        children.any(|(i, child)| self.anything_in(child, h - 1, region.in_child(i, half), entered))
    }

    /// The room as an outline.
    #[inline(never)]
    pub fn outline(&self) -> Vec<u8> {
        let mut records = Vec::new();
        if self.root != 0 {
            self.write(&mut records, self.root, self.depth);
        }
        outline::file(self.depth, &records)
    }

    fn write(&self, out: &mut Vec<u8>, p: u32, h: u32) {
        if h == 2 {
            out.extend_from_slice(&self.leaves[p as usize - 1].to_be_bytes());
            return;
        }
        let cell = self.cells[p as usize - 1];
        out.push((0..8).fold(0, |mask, i| mask | u8::from(cell[i] != 0) << i));
        for &child in &cell {
            if child != 0 {
                self.write(out, child, h - 1);
            }
        }
    }

    /// The graph as bytes: its counts, its cells, its leaves.
    #[inline(never)]
    pub fn save(&self) -> Vec<u8> {
        let mut out = Vec::with_capacity(16 + self.bytes());
        for n in [
            self.depth,
            self.root,
            self.cells.len() as u32,
            self.leaves.len() as u32,
        ] {
            out.extend_from_slice(&n.to_be_bytes());
        }
        for cell in &self.cells {
            for p in cell {
                out.extend_from_slice(&p.to_be_bytes());
            }
        }
        for leaf in &self.leaves {
            out.extend_from_slice(&leaf.to_be_bytes());
        }
        out
    }
}
