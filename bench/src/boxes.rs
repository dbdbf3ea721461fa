//! Boxes counted in a plain way: what the three plain structures share.

/// A box: low <= v < high on each axis.
#[derive(Clone, Copy)]
pub struct Region {
    pub low: [u32; 3],
    pub high: [u32; 3],
}

impl Region {
    pub fn whole(edge: u32) -> Region {
        Region {
            low: [0; 3],
            high: [edge; 3],
        }
    }

    /// Whether on each axis low is at most high, and high at most the edge.
    pub fn lies_in(&self, edge: u32) -> bool {
        (0..3).all(|axis| self.low[axis] <= self.high[axis] && self.high[axis] <= edge)
    }

    pub fn has_voxel(&self) -> bool {
        self.low[0] < self.high[0] && self.low[1] < self.high[1] && self.low[2] < self.high[2]
    }

    pub fn is_whole(&self, edge: u32) -> bool {
        self.low == [0; 3] && self.high == [edge; 3]
    }

    /// The part in child i of a cell, of edge `half`, counted from that child's corner.
    pub fn in_child(&self, i: u32, half: u32) -> Region {
        let cut = |axis: u32| {
            let start = if i >> axis & 1 == 1 { half } else { 0 };
            let low = self.low[axis as usize].saturating_sub(start).min(half);
            let high = self.high[axis as usize].saturating_sub(start).min(half);
            (low, high)
        };
        let (x, y, z) = (cut(0), cut(1), cut(2));
        Region {
            low: [x.0, y.0, z.0],
            high: [x.1, y.1, z.1],
        }
    }

    /// The bits of a leaf that lie in the box, counted from the leaf's corner.
    pub fn leaf_bits(&self) -> u64 {
        let span = |axis: usize, step: u32, ones: u64| {
            let below = |c: u32| {
                if c == 4 {
                    u64::MAX
                } else {
                    (1u64 << (step * c)) - 1
                }
            };
            ones & below(self.high[axis]) & !below(self.low[axis])
        };
        span(0, 1, 0xF) * span(1, 4, 0x1111) * span(2, 16, 0x0001_0001_0001_0001)
    }
}
