//! Questions that suit a store or a file: most at something that is there, some at an edge, some outside.

use crate::generator::packed::Draft;
use crate::generator::rooms::damaged;
use crate::generator::{stores, Random};
use crate::lent::Lent;
use crate::Compare;

/// Lines are so long on an axis, but for a few: the twin tests every voxel.
const LONGEST: u32 = 300;

/// Of scenes with more cells than this, boxes other than small ones and whole cells are left out: they cost time and show nothing else.
const MOST_CELLS: u64 = 6_000;

impl Compare {
    /// A scene's number: one that is held most often.
    pub fn some_scene(&mut self, store: &Lent<u32>) -> u32 {
        let held = store.slice().get(1).copied().unwrap_or(0);
        match self.random.below(16) {
            0 => held,
            1 => self.random.pick(&[held.wrapping_add(1), 63, 64, u32::MAX, 1 << 31]),
            _ => self.random.below(held.clamp(1, 64) as usize) as u32,
        }
    }

    /// A voxel of a scene, most often solid or beside a solid one.
    pub fn some_voxel(&mut self, store: &Lent<u32>, scene: u32) -> [u32; 3] {
        let Some((depth, root)) = stores::scene(store.slice(), scene) else { return self.random.point(5) };
        let mut at = self.random.point(depth);
        if !self.random.once_in(3) {
            at = stores::solid(&mut self.random, store.slice(), depth as usize, root).unwrap_or(at);
            if self.random.once_in(4) {
                let axis = self.random.below(3);
                at[axis] = if self.random.once_in(2) { at[axis].wrapping_add(1) } else { at[axis].wrapping_sub(1) };
            }
        }
        at
    }

    pub fn ask_voxel(&mut self, store: &Lent<u32>) {
        let scene = self.some_scene(store);
        let at = self.some_voxel(store, scene);
        self.voxel(store, scene, at);
    }

    /// A sight line there and back: at something solid or past it, along axes and diagonals, between ends that are the same or touch, some
    /// outside.
    pub fn ask_sight(&mut self, store: &Lent<u32>) {
        let scene = self.some_scene(store);
        let depth = stores::scene(store.slice(), scene).map_or(4, |(d, _)| d);
        let edge = 1u32 << depth;
        let (from, other) = (self.some_voxel(store, scene), self.some_voxel(store, scene));
        let mut to = match self.random.below(12) {
            // about a voxel, so that this one lies in the middle, or the middle on a face, an edge or a corner of it
            0..=3 => {
                let beside = self.random.once_in(2);
                let off = [(); 3].map(|_| if beside { self.random.below(3) as u32 } else { 1 });
                std::array::from_fn(|axis| (2 * other[axis].min(edge) + off[axis]).saturating_sub(from[axis].min(edge) + 1).min(edge - 1))
            }
            // along one axis, two or three, by the same number of voxels
            4..=6 => {
                let by = self.random.below(edge as usize) as u32;
                let axes = self.random.from_to(1, 7);
                std::array::from_fn(|axis| match (axes >> axis & 1, from[axis] < edge / 2) {
                    (0, _) => from[axis],
                    (_, true) => (from[axis] + by).min(edge - 1),
                    (_, false) => from[axis].saturating_sub(by),
                })
            }
            // a few voxels away
            7 => from.map(|c| c.saturating_add(self.random.below(7) as u32).saturating_sub(3)),
            // touching, or the same
            8 => from.map(|c| c.saturating_add(self.random.below(3) as u32).saturating_sub(1)),
            _ => other,
        };
        if !self.random.once_in(300) {
            to = std::array::from_fn(|axis| to[axis].clamp(from[axis].saturating_sub(LONGEST), from[axis].saturating_add(LONGEST)));
        }
        if self.random.once_in(24) {
            to[self.random.below(3)] = self.random.pick(&[edge, edge + 1, 2 * edge, 1 << 31, u32::MAX]);
        }
        self.sight_both(store, scene, from, to);
    }

    pub fn ask_cell(&mut self, store: &Lent<u32>) {
        let scene = self.some_scene(store);
        let depth = stores::scene(store.slice(), scene).map_or(4, |(d, _)| d);
        let height = match self.random.below(20) {
            0 => depth,
            1 => depth + 1,
            2 => self.random.pick(&[16, 17, 31, 32, 33, 63, 64, u32::MAX]),
            _ => self.random.below(depth as usize + 1) as u32,
        };
        let mut at = self.some_voxel(store, scene).map(|c| c.checked_shr(height).unwrap_or(0));
        if self.random.once_in(8) {
            let axis = self.random.below(3);
            at[axis] = self.random.pick(&[(1 << depth >> height.min(depth)), at[axis].wrapping_add(1), u32::MAX, 1 << 31]);
        }
        self.cell(store, scene, height, at);
    }

    /// A box, counted and asked whether it holds anything: about a voxel, whole cells, such with faces a voxel off, any; some outside.
    pub fn ask_box(&mut self, store: &Lent<u32>) {
        let scene = self.some_scene(store);
        let (depth, root) = stores::scene(store.slice(), scene).unwrap_or((4, 0));
        let edge = 1u32 << depth;
        let heavy = stores::weight(store.slice(), depth as usize, root, MOST_CELLS) >= MOST_CELLS;
        let any = |random: &mut Random| random.below(edge as usize + 1) as u32;
        let (mut low, mut high) = ([0; 3], [edge; 3]);
        match self.random.below(if heavy { 4 } else { 14 }) {
            // about a voxel
            0 | 1 => {
                let at = self.some_voxel(store, scene);
                for axis in 0..3 {
                    low[axis] = at[axis].min(edge).saturating_sub(self.random.below(3) as u32);
                    high[axis] = (low[axis] + self.random.below(5) as u32).min(edge);
                }
            }
            2 => {}
            // a cell; where that costs little, with faces a voxel off
            3..=6 => {
                let height = self.random.below(depth as usize + 1) as u32;
                let at = self.some_voxel(store, scene).map(|c| c.min(edge - 1) >> height << height);
                let off = if heavy { 0 } else { self.random.below(3) };
                for axis in 0..3 {
                    (low[axis], high[axis]) = (at[axis], at[axis] + (1 << height));
                    if off > 0 && self.random.once_in(3) {
                        low[axis] = self.random.pick(&[low[axis] + 1, low[axis].saturating_sub(1)]);
                    }
                    if off > 0 && self.random.once_in(3) {
                        high[axis] = self.random.pick(&[high[axis] - 1, (high[axis] + 1).min(edge)]);
                    }
                    high[axis] = high[axis].max(low[axis]);
                }
            }
            // with a voxel in it
            7..=9 => {
                let at = self.some_voxel(store, scene);
                for axis in 0..3 {
                    let at = at[axis].min(edge - 1);
                    low[axis] = self.random.from_to(0, at as usize) as u32;
                    high[axis] = self.random.from_to(at as usize + 1, edge as usize) as u32;
                }
            }
            // aligned to cells
            10 => {
                let height = self.random.below(depth as usize + 1) as u32;
                for axis in 0..3 {
                    let (a, b) = (any(&mut self.random) >> height << height, any(&mut self.random) >> height << height);
                    (low[axis], high[axis]) = (a.min(b), a.max(b));
                }
            }
            _ => {
                for axis in 0..3 {
                    let (a, b) = (any(&mut self.random), any(&mut self.random));
                    (low[axis], high[axis]) = (a.min(b), a.max(b));
                }
            }
        }
        // outside, low above high, no voxels
        let axis = self.random.below(3);
        match self.random.below(24) {
            0 => high[axis] = self.random.pick(&[edge + 1, u32::MAX, 2 * edge, 1 << 31]),
            1 => (low[axis], high[axis]) = (high[axis], low[axis]),
            2 => low[axis] = high[axis],
            3 => {
                low[axis] = high[axis];
                high[(axis + 1) % 3] = edge + 1;
            }
            4 => {
                low[axis] = high[axis];
                let other = (axis + 1) % 3;
                (low[other], high[other]) = (high[other], low[other]);
            }
            5 => low[axis] = self.random.pick(&[edge + 1, u32::MAX]),
            _ => {}
        }
        self.box_both(store, scene, low, high);
    }

    /// A box that ends just before a solid voxel, or begins just behind it, on one axis: most often there is nothing of this leaf in it, or
    /// nothing solid.
    pub fn ask_past(&mut self, store: &Lent<u32>) {
        let scene = self.some_scene(store);
        let (depth, root) = stores::scene(store.slice(), scene).unwrap_or((4, 0));
        let edge = 1u32 << depth;
        let heavy = stores::weight(store.slice(), depth as usize, root, MOST_CELLS) >= MOST_CELLS;
        let reach = if heavy { 6 } else { self.random.pick(&[2, 6, edge]) };
        let at = self.some_voxel(store, scene).map(|c| c.min(edge - 1));
        let (mut low, mut high) = ([0; 3], [0; 3]);
        for axis in 0..3 {
            low[axis] = at[axis] - self.random.from_to(0, at[axis].min(reach) as usize) as u32;
            high[axis] = at[axis] + 1 + self.random.from_to(0, (edge - 1 - at[axis]).min(reach) as usize) as u32;
        }
        let axis = self.random.below(3);
        if self.random.once_in(2) {
            high[axis] = at[axis];
        } else {
            low[axis] = at[axis] + 1;
        }
        self.box_both(store, scene, low, high);
    }

    pub fn ask_kept(&mut self, store: &Lent<u32>) {
        let height =
            if self.random.once_in(6) { self.random.pick(&[0, 1, 17, 18, 32, u32::MAX]) } else { self.random.from_to(2, 16) as u32 };
        self.kept(store, height);
    }

    /// Some questions of each kind.
    pub fn ask_store(&mut self, store: &Lent<u32>, times: usize) {
        for _ in 0..times {
            self.ask_voxel(store);
            self.ask_cell(store);
            self.ask_box(store);
            self.ask_past(store);
            self.ask_sight(store);
            self.ask_voxel(store);
            self.ask_cell(store);
            if self.random.once_in(3) {
                self.ask_kept(store);
            }
        }
    }

    /// A scene's outline: with room, with just enough, with a byte too few.
    pub fn ask_outline(&mut self, store: &Lent<u32>) {
        let scene = self.some_scene(store);
        let room = if self.random.once_in(6) { self.random.below(40) } else { 8_000 };
        if let Some(file) = self.outline(store, scene, room) {
            let room = file.len() - self.random.below(2);
            self.outline(store, scene, room);
        }
    }

    /// A scene packed: with room, with just enough, with too little of something. Answers the file.
    pub fn ask_pack(&mut self, store: &Lent<u32>) -> Option<Vec<u8>> {
        let scene = self.some_scene(store);
        let words = 60 * store.slice().first().copied().unwrap_or(0).min(1200) as usize;
        let spare = self.random.below(5);
        let file = self.pack(store, scene, words + spare, 20_000);
        if let Some(file) = &file {
            let enough = words - self.random.below(3).min(1);
            let room = file.len() + self.random.below(3) - 1;
            self.pack(store, scene, enough, room);
        }
        if self.random.once_in(4) {
            let (words, room) = (self.random.below(words + 1), self.random.below(60));
            self.pack(store, scene, words, room);
        }
        file
    }

    /// A scene packed for the headset, likewise. What is refused is sometimes asked for once more with too little of something.
    pub fn ask_headset_pack(&mut self, store: &Lent<u32>) {
        let scene = self.some_scene(store);
        let words = 60 * store.slice().first().copied().unwrap_or(0).min(1200) as usize;
        let spare = self.random.below(5);
        let file = self.headset_pack(store, scene, words + spare, 20_000);
        if file.is_some() || self.random.once_in(3) {
            let enough = words.saturating_sub(self.random.below(3).min(1));
            let room = file.map_or(1, |file| file.len()) + self.random.below(3) - 1;
            self.headset_pack(store, scene, enough, room);
        }
    }

    /// Solid voxels of a proper file.
    pub fn solid(&mut self, file: &[u8]) -> Vec<[u32; 3]> {
        Draft::read(file).map_or(Vec::new(), |draft| draft.solid(&mut self.random, 6))
    }

    /// Scratch for a file's check: enough most often, just enough, too little.
    fn some_scratch(&mut self, file: &[u8]) -> usize {
        match self.random.below(12) {
            0 => file.len().saturating_sub(1),
            1 => self.random.below(file.len() + 1),
            2 => 0,
            3..=6 => file.len() + self.random.below(9),
            _ => file.len(),
        }
    }

    /// A packed file: checked, for the headset too, asked, opened and asked; some points to ask at are given.
    pub fn ask_packed(&mut self, file: &[u8], times: usize, points: &[[u32; 3]]) {
        let room = self.some_scratch(file);
        self.check(file, room);
        let room = self.some_scratch(file);
        self.headset_check(file, room);
        let depth = file.get(5).map_or(4, |&d| (d as u32).clamp(2, 16));
        for _ in 0..times {
            let at = self.packed_point(depth, points);
            self.packed_voxel(file, at);
        }
        let room = match self.random.below(10) {
            0 => 15,
            1 => self.random.below(16),
            2 => 16 + self.random.below(9),
            _ => 16,
        };
        let mut numbers = self.open(file, room).unwrap_or_else(|| self.random.words(16));
        for _ in 0..times.div_ceil(2) {
            let at = self.packed_point(depth, points);
            self.ask(file, &numbers, at);
        }
        match self.random.below(6) {
            0 => {
                let k = self.random.below(16);
                numbers[k] = self.random.pick(&[0, numbers[k].wrapping_add(1), numbers[k].wrapping_sub(1), numbers[k] ^ 1 << 31]);
            }
            1 => numbers.truncate(self.random.below(16)),
            2 if numbers.len() > 16 => numbers[16] ^= 1,
            3 => {
                let changed = damaged(&mut self.random, file);
                let at = self.random.point(depth);
                self.ask(&changed, &numbers, at);
            }
            _ => return,
        }
        let at = self.random.point(depth);
        self.ask(file, &numbers, at);
    }

    /// A point of a packed file: one of those given, or one beside it, or at random.
    pub fn packed_point(&mut self, depth: u32, points: &[[u32; 3]]) -> [u32; 3] {
        if points.is_empty() || self.random.once_in(3) {
            return self.random.point(depth);
        }
        let mut at = self.random.pick(points);
        if self.random.once_in(4) {
            let axis = self.random.below(3);
            at[axis] ^= 1 << self.random.below(depth as usize);
        }
        at
    }
}
