//! Generated input for the tests: numbers from a seed, rooms and their outlines, stores and packed files, whole and damaged.

pub mod packed;
pub mod rooms;
pub mod stores;

/// Numbers from a seed: xorshift64*.
pub struct Random {
    state: u64,
}

impl Random {
    pub fn new(seed: u64) -> Random {
        // seeds that differ in few bits start far apart
        let mut random = Random { state: seed.wrapping_mul(0x9e37_79b9_7f4a_7c15) | 1 };
        for _ in 0..8 {
            random.next();
        }
        random
    }

    pub fn next(&mut self) -> u64 {
        self.state ^= self.state >> 12;
        self.state ^= self.state << 25;
        self.state ^= self.state >> 27;
        self.state.wrapping_mul(0x2545_f491_4f6c_dd1d)
    }

    /// Below n, which is not 0.
    pub fn below(&mut self, n: usize) -> usize {
        ((self.next() >> 11) % n as u64) as usize
    }

    /// From low to high, both among them.
    pub fn from_to(&mut self, low: usize, high: usize) -> usize {
        low + self.below(high - low + 1)
    }

    /// Yes once in n times.
    pub fn once_in(&mut self, n: usize) -> bool {
        self.below(n) == 0
    }

    pub fn pick<T: Copy>(&mut self, from: &[T]) -> T {
        from[self.below(from.len())]
    }

    pub fn word(&mut self) -> u32 {
        (self.next() >> 32) as u32
    }

    pub fn mirror(&mut self) -> u32 {
        self.below(8) as u32
    }

    pub fn words(&mut self, n: usize) -> Vec<u32> {
        (0..n).map(|_| self.word()).collect()
    }

    pub fn bytes(&mut self, n: usize) -> Vec<u8> {
        (0..n).map(|_| self.word() as u8).collect()
    }

    /// A coordinate of a room of this depth: most often inside, else just outside or far.
    pub fn coordinate(&mut self, depth: u32) -> u32 {
        let edge = 1u32 << depth;
        match self.below(24) {
            0 => 0,
            1 => edge - 1,
            2 => edge,
            3 => self.pick(&[edge + 1, 2 * edge, 65_535, 65_536, 1 << 31, u32::MAX - 1, u32::MAX]),
            4 => edge / 2,
            5 => edge / 2 - 1,
            _ => self.below(edge as usize) as u32,
        }
    }

    pub fn point(&mut self, depth: u32) -> [u32; 3] {
        let inside = !self.once_in(6);
        [(); 3].map(|_| if inside { self.below(1 << depth) as u32 } else { self.coordinate(depth) })
    }

    /// A voxel of the cell of this height that holds a voxel.
    pub fn in_cell(&mut self, at: [u32; 3], height: u32) -> [u32; 3] {
        at.map(|c| (c >> height << height) + self.below(1 << height) as u32)
    }

    /// A float: at the ends of document 01's ranges, at powers of two and beside them, of odd kinds, of any bits.
    pub fn float(&mut self) -> f64 {
        match self.below(12) {
            0 => self.pick(&[
                f64::NAN,
                -f64::NAN,
                f64::INFINITY,
                f64::NEG_INFINITY,
                0.0,
                -0.0,
                f64::MIN_POSITIVE,
                f64::from_bits(1),
                -f64::from_bits(1),
                f64::from_bits(0x000f_ffff_ffff_ffff),
                f64::from_bits(0x7ff0_0000_0000_0001),
                f64::MAX,
                f64::MIN,
                f64::EPSILON,
            ]),
            1 => f64::from_bits(self.next()),
            2 => -power(self.from_to(0, 90) as i32 - 40),
            3 => self.next() as f64 / power(self.from_to(20, 90) as i32),
            4..=6 => {
                let near = self.pick(&[-31, -30, -29, -1, 0, 1, 29, 30, 31, 39, 40, 41]);
                self.beside(power(near))
            }
            _ => {
                let exponent = self.from_to(0, 72) as i32 - 31;
                let x = power(exponent) * (1.0 + self.below(16) as f64 / 16.0);
                self.beside(x)
            }
        }
    }

    /// A float itself, or the next one up or down.
    fn beside(&mut self, x: f64) -> f64 {
        match self.below(4) {
            0 => f64::from_bits(x.to_bits() + 1),
            1 => f64::from_bits(x.to_bits() - 1),
            _ => x,
        }
    }

    /// A wish's two floats, the first often just at 2^h times the second.
    pub fn wish(&mut self) -> (f64, f64) {
        let b = if self.once_in(3) {
            self.float()
        } else {
            power(self.from_to(0, 60) as i32 - 30) * (1.0 + (self.next() >> 12) as f64 * power(-52))
        };
        if self.once_in(3) {
            return (self.float(), b);
        }
        let a = b * power(self.from_to(0, 18) as i32 - 1);
        (if a.is_finite() && a > 0.0 { self.beside(a) } else { a }, b)
    }
}

fn power(exponent: i32) -> f64 {
    2f64.powi(exponent)
}
