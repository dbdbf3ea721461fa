//! The questions asked: points and boxes by integer arithmetic from a fixed seed.
use crate::boxes::Region;
use crate::octree::Octree;

/// Numbers by a fixed rule (xorshift), the same in every run.
pub struct Numbers(u64);

impl Numbers {
    pub fn new(seed: u64) -> Numbers {
        Numbers(seed.wrapping_mul(0x9E37_79B9_7F4A_7C15) | 1)
    }

    pub fn next(&mut self) -> u64 {
        self.0 ^= self.0 << 13;
        self.0 ^= self.0 >> 7;
        self.0 ^= self.0 << 17;
        self.0
    }

    pub fn below(&mut self, n: u32) -> u32 {
        ((self.next() >> 32) * u64::from(n) >> 32) as u32
    }
}

pub type Point = [u32; 3];

/// Points anywhere in the room.
pub fn uniform(depth: u32, n: usize) -> Vec<Point> {
    let mut numbers = Numbers::new(1);
    let edge = 1 << depth;
    (0..n)
        .map(|_| std::array::from_fn(|_| numbers.below(edge)))
        .collect()
}

/// Points in non-empty leaves, or beside them by one voxel.
pub fn near(octree: &Octree, n: usize) -> Vec<Point> {
    let leaves = octree.leaves();
    let edge = 1 << octree.depth;
    if leaves.is_empty() {
        return uniform(octree.depth, n);
    }
    let mut numbers = Numbers::new(2);
    let mut point = || {
        let (corner, _) = leaves[numbers.below(leaves.len() as u32) as usize];
        corner.map(|c| (c + numbers.below(6)).saturating_sub(1).min(edge - 1))
    };
    (0..n).map(|_| point()).collect()
}

/// Cells of every height at such points.
pub fn cells(depth: u32, points: &[Point]) -> Vec<(u32, Point)> {
    let mut numbers = Numbers::new(3);
    let mut cell = |p: &Point| {
        let h = numbers.below(depth + 1);
        (h, p.map(|c| c >> h))
    };
    points.iter().map(|p| cell(p)).collect()
}

/// Boxes about points, each edge `least` to `most`, cut at the room's edge.
pub fn boxes(depth: u32, points: &[Point], least: u32, most: u32) -> Vec<Region> {
    let mut numbers = Numbers::new(4);
    let edge = 1 << depth;
    let mut about = |p: &Point| {
        let mut region = Region::whole(edge);
        for axis in 0..3 {
            let side = least + numbers.below(most - least + 1);
            let low = p[axis].saturating_sub(side / 2);
            region.low[axis] = low;
            region.high[axis] = (low + side).min(edge);
        }
        region
    };
    points.iter().map(|p| about(p)).collect()
}
