//! The plain bitmap: one bit a voxel, x fastest, in words of 64.
use crate::boxes::Region;
use crate::lines;
use crate::outline::{self, Records};
use crate::questions::Point;

pub struct Bitmap {
    pub depth: u32,
    words: Vec<u64>,
}

impl Bitmap {
    #[inline(never)]
    pub fn of(file: &[u8]) -> Bitmap {
        let (depth, records) = Records::of(file);
        let words = vec![0; (1usize << (3 * depth)).div_ceil(64)];
        let mut bitmap = Bitmap { depth, words };
        if let Some(mut records) = records {
            bitmap.read(&mut records, depth, [0; 3]);
        }
        bitmap
    }

    fn read(&mut self, records: &mut Records, h: u32, corner: [u32; 3]) {
        let [x, y, z] = corner;
        if h == 2 {
            let leaf = records.leaf();
            for row in 0..16 {
                let bits = leaf >> (4 * row) & 0xF;
                let at = self.bit(x, y + row % 4, z + row / 4);
                self.words[at / 64] |= bits << (at % 64);
            }
            return;
        }
        let mask = records.mask();
        let half = 1 << (h - 1);
        for i in 0..8u32 {
            if mask >> i & 1 == 1 {
                let at = [
                    x + half * (i & 1),
                    y + half * (i >> 1 & 1),
                    z + half * (i >> 2),
                ];
                self.read(records, h - 1, at);
            }
        }
    }

    pub fn bytes(&self) -> usize {
        8 * self.words.len()
    }

    /// The number of a voxel's bit. Four along x from a multiple of 4 lie in one word.
    fn bit(&self, x: u32, y: u32, z: u32) -> usize {
        (z as usize) << (2 * self.depth) | (y as usize) << self.depth | x as usize
    }

    fn solid(&self, x: u32, y: u32, z: u32) -> bool {
        let at = self.bit(x, y, z);
        self.words[at / 64] >> (at % 64) & 1 == 1
    }

    #[inline(never)]
    pub fn voxel(&self, x: u32, y: u32, z: u32) -> Option<bool> {
        if (x | y | z) >> self.depth != 0 {
            return None;
        }
        Some(self.solid(x, y, z))
    }

    /// The first solid voxel that the segment meets, the ends left out; none of all where one is outside.
    #[inline(never)]
    pub fn sight(&self, from: Point, to: Point) -> Option<Option<Point>> {
        let outside = |[x, y, z]: Point| (x | y | z) >> self.depth != 0;
        if outside(from) || outside(to) {
            return None;
        }
        Some(lines::by_voxels(from, to, |[x, y, z]| self.solid(x, y, z)))
    }

    /// The solid voxels from bit a up to bit b.
    fn count_bits(&self, a: usize, b: usize) -> u64 {
        if a >= b {
            return 0;
        }
        let (first, last) = (a / 64, (b - 1) / 64);
        let head = u64::MAX << (a % 64);
        let tail = u64::MAX >> (63 - (b - 1) % 64);
        if first == last {
            return u64::from((self.words[first] & head & tail).count_ones());
        }
        let mut n = u64::from((self.words[first] & head).count_ones());
        for word in &self.words[first + 1..last] {
            n += u64::from(word.count_ones());
        }
        n + u64::from((self.words[last] & tail).count_ones())
    }

    #[inline(never)]
    pub fn count(&self, region: Region) -> Option<u64> {
        let edge = 1 << self.depth;
        let Region { low, high } = region;
        for axis in 0..3 {
            if low[axis] > high[axis] || high[axis] > edge {
                return None;
            }
        }
        if region.is_whole(edge) {
            return Some(self.count_bits(0, 1 << (3 * self.depth)));
        }
        let mut n = 0;
        for z in low[2]..high[2] {
            for y in low[1]..high[1] {
                let row = self.bit(0, y, z);
                n += self.count_bits(row + low[0] as usize, row + high[0] as usize);
            }
        }
        Some(n)
    }

    /// Whether a box holds anything solid: row by row, up to the first that does.
    #[inline(never)]
    pub fn anything(&self, region: Region) -> Option<bool> {
        if !region.lies_in(1 << self.depth) {
            return None;
        }
        let Region { low, high } = region;
        for z in low[2]..high[2] {
            for y in low[1]..high[1] {
                let row = self.bit(0, y, z);
                if self.count_bits(row + low[0] as usize, row + high[0] as usize) != 0 {
                    return Some(true);
                }
            }
        }
        Some(false)
    }

    #[inline(never)]
    pub fn cell(&self, h: u32, x: u32, y: u32, z: u32) -> Option<bool> {
        if h > self.depth || (x | y | z) >> (self.depth - h) != 0 {
            return None;
        }
        let edge = 1 << h;
        let low = [x << h, y << h, z << h];
        for z in low[2]..low[2] + edge {
            for y in low[1]..low[1] + edge {
                let row = self.bit(low[0], y, z);
                if self.count_bits(row, row + edge as usize) != 0 {
                    return Some(true);
                }
            }
        }
        Some(false)
    }

    /// The room as an outline.
    #[inline(never)]
    pub fn outline(&self) -> Vec<u8> {
        let mut records = Vec::new();
        outline::write_cell(&mut records, self.depth, [0; 3], &|[x, y, z]| {
            let mut leaf = 0;
            for row in 0..16 {
                let at = self.bit(x, y + row % 4, z + row / 4);
                leaf |= (self.words[at / 64] >> (at % 64) & 0xF) << (4 * row);
            }
            leaf
        });
        outline::file(self.depth, &records)
    }
}
