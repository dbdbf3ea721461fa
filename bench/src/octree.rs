//! The pointer octree: every non-empty cell for itself, on the heap.
use crate::boxes::Region;
use crate::outline::{self, Records};

pub enum Cell {
    Empty,
    Leaf(u64),
    Inner(Box<[Cell; 8]>),
}

pub struct Octree {
    pub depth: u32,
    root: Cell,
}

impl Octree {
    #[inline(never)]
    pub fn of(file: &[u8]) -> Octree {
        let (depth, records) = Records::of(file);
        let root = records.map_or(Cell::Empty, |mut records| read(&mut records, depth));
        Octree { depth, root }
    }

    /// Inner cells and leaves.
    pub fn cells(&self) -> (usize, usize) {
        let (mut inner, mut leaves) = (0, 0);
        self.root
            .each(self.depth, [0; 3], &mut |h, _, cell| match cell {
                Cell::Inner(_) if h > 2 => inner += 1,
                _ => leaves += 1,
            });
        (inner, leaves)
    }

    /// The bytes of an octree with 4-byte pointers: what the boxes here would take if they were numbers.
    pub fn bytes(&self) -> usize {
        let (inner, leaves) = self.cells();
        32 * inner + 8 * leaves
    }

    /// Every leaf with its corner.
    pub fn leaves(&self) -> Vec<([u32; 3], u64)> {
        let mut all = Vec::new();
        self.root.each(self.depth, [0; 3], &mut |_, corner, cell| {
            if let Cell::Leaf(leaf) = cell {
                all.push((corner, *leaf));
            }
        });
        all
    }

    /// Whether a voxel is solid, with the number of non-empty cells on the way and the height of the empty cell that holds it.
    #[inline(never)]
    pub fn voxel(&self, x: u32, y: u32, z: u32) -> Option<(bool, u32, u32)> {
        if (x | y | z) >> self.depth != 0 {
            return None;
        }
        let mut h = self.depth;
        let mut at = &self.root;
        loop {
            match at {
                Cell::Empty => return Some((false, self.depth - h, h)),
                Cell::Leaf(leaf) => {
                    let bit = x & 3 | (y & 3) << 2 | (z & 3) << 4;
                    return Some((leaf >> bit & 1 == 1, self.depth - 1, 0));
                }
                Cell::Inner(children) => {
                    h -= 1;
                    let i = x >> h & 1 | (y >> h & 1) << 1 | (z >> h & 1) << 2;
                    at = &children[i as usize];
                }
            }
        }
    }

    #[inline(never)]
    pub fn cell(&self, h: u32, x: u32, y: u32, z: u32) -> Option<bool> {
        if h > self.depth || (x | y | z) >> (self.depth - h) != 0 {
            return None;
        }
        let (x, y, z) = (x << h, y << h, z << h);
        let mut height = self.depth;
        let mut at = &self.root;
        loop {
            match at {
                Cell::Empty => return Some(false),
                _ if height == h => return Some(true),
                Cell::Leaf(leaf) => {
                    let low = [x & 3, y & 3, z & 3];
                    let region = Region {
                        low,
                        high: low.map(|c| c + (1 << h)),
                    };
                    return Some(leaf & region.leaf_bits() != 0);
                }
                Cell::Inner(children) => {
                    height -= 1;
                    let i = x >> height & 1 | (y >> height & 1) << 1 | (z >> height & 1) << 2;
                    at = &children[i as usize];
                }
            }
        }
    }

    #[inline(never)]
    pub fn count(&self, region: Region) -> Option<u64> {
        if !region.lies_in(1 << self.depth) {
            return None;
        }
        Some(self.root.count(self.depth, region))
    }

    /// Whether a box holds anything solid, and the non-empty cells entered up to that answer.
    #[inline(never)]
    pub fn anything(&self, region: Region) -> Option<(bool, u64)> {
        if !region.lies_in(1 << self.depth) {
            return None;
        }
        let mut entered = 0;
        let solid = self.root.anything(self.depth, region, &mut entered);
        Some((solid, entered))
    }

    /// The room as an outline.
    #[inline(never)]
    pub fn outline(&self) -> Vec<u8> {
        let mut records = Vec::new();
        self.root.write(&mut records);
        outline::file(self.depth, &records)
    }
}

fn read(records: &mut Records, h: u32) -> Cell {
    if h == 2 {
        return Cell::Leaf(records.leaf());
    }
    let mask = records.mask();
    let child = |i: usize| {
        if mask >> i & 1 == 1 {
            read(records, h - 1)
        } else {
            Cell::Empty
        }
    };
    Cell::Inner(Box::new(std::array::from_fn(child)))
}

impl Cell {
    /// Every non-empty cell with its height and corner.
    fn each(&self, h: u32, corner: [u32; 3], see: &mut dyn FnMut(u32, [u32; 3], &Cell)) {
        if let Cell::Empty = self {
            return;
        }
        see(h, corner, self);
        if let Cell::Inner(children) = self {
            let half = 1 << (h - 1);
            for (i, child) in (0u32..).zip(children.iter()) {
                let [x, y, z] = corner;
                let at = [
                    x + half * (i & 1),
                    y + half * (i >> 1 & 1),
                    z + half * (i >> 2),
                ];
                child.each(h - 1, at, see);
            }
        }
    }

    fn count(&self, h: u32, region: Region) -> u64 {
        if !region.has_voxel() {
            return 0;
        }
        match self {
            Cell::Empty => 0,
            Cell::Leaf(leaf) => u64::from((leaf & region.leaf_bits()).count_ones()),
            Cell::Inner(_) if region.is_whole(1 << h) => self.count_whole(),
            Cell::Inner(children) => {
                let half = 1 << (h - 1);
                let mut n = 0;
                for (i, child) in (0u32..).zip(children.iter()) {
                    n += child.count(h - 1, region.in_child(i, half));
                }
                n
            }
        }
    }

    fn anything(&self, h: u32, region: Region, entered: &mut u64) -> bool {
        if matches!(self, Cell::Empty) || !region.has_voxel() {
            return false;
        }
        *entered += 1;
        match self {
            Cell::Empty => false,
            Cell::Leaf(leaf) => leaf & region.leaf_bits() != 0,
            Cell::Inner(children) => {
                let half = 1 << (h - 1);
                let mut children = (0u32..).zip(children.iter());
                children.any(|(i, child)| child.anything(h - 1, region.in_child(i, half), entered))
            }
        }
    }

    fn count_whole(&self) -> u64 {
        match self {
            Cell::Empty => 0,
            Cell::Leaf(leaf) => u64::from(leaf.count_ones()),
            Cell::Inner(children) => children.iter().map(Cell::count_whole).sum(),
        }
    }

    fn write(&self, out: &mut Vec<u8>) {
        match self {
            Cell::Empty => (),
            Cell::Leaf(leaf) => out.extend_from_slice(&leaf.to_be_bytes()),
            Cell::Inner(children) => {
                let full = |i: usize| !matches!(children[i], Cell::Empty);
                out.push((0..8).fold(0, |mask, i| mask | u8::from(full(i)) << i));
                for child in children.iter() {
                    child.write(out);
                }
            }
        }
    }
}
