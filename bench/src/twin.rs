//! The store's voxel walk written in Rust over the same words, with its damage tests and without: what the tests of the eight
//! pointers of each cell entered, and of the header, cost by themselves.

/// Whether a pointer is not 0 and its number is not kept.
#[inline]
fn bad(kept: u32, p: u32) -> bool {
    p != 0 && (p & 0x1FFF_FFFF).wrapping_sub(1) >= kept
}

/// Words 0 to 31 out of range, or the slice too short.
#[inline]
fn header_bad(store: &[u32]) -> bool {
    if store.len() < 160 {
        return true;
    }
    let capacity = store[0];
    !(1..=65536).contains(&capacity)
        || store.len() < 4_000 + 157 * capacity as usize
        || store[1] > 64
        || store[2..17].iter().any(|&kept| kept > capacity)
        || store[17..32].iter().any(|&word| word != 0)
}

/// Whether a voxel of a scene is solid, and the height of the empty cell that holds it; none where it is refused.
#[inline(never)]
pub fn voxel<const TESTS: bool>(
    store: &[u32],
    scene: u32,
    x: u32,
    y: u32,
    z: u32,
) -> Option<(bool, u32)> {
    if TESTS && header_bad(store) || store[1] <= scene {
        return None;
    }
    let capacity = store[0] as usize;
    let depth = store[32 + 2 * scene as usize];
    let mut p = store[33 + 2 * scene as usize];
    if TESTS && !(2..=16).contains(&depth) || TESTS && bad(store[depth as usize], p) {
        return None;
    }
    if (x | y | z) >> depth != 0 {
        return None;
    }
    let mut mirror = 0;
    let mut h = depth;
    while h > 2 && p != 0 {
        mirror ^= p >> 29;
        let number = (p & 0x1FFF_FFFF) as usize - 1;
        let at = 160 + 2 * capacity + 10 * ((h as usize - 3) * capacity + number);
        let cell: &[u32; 8] = store[at..at + 8].try_into().unwrap();
        h -= 1;
        if TESTS && cell.iter().any(|&p| bad(store[h as usize], p)) {
            return None;
        }
        let i = x >> h & 1 | (y >> h & 1) << 1 | (z >> h & 1) << 2;
        p = cell[(i ^ mirror) as usize & 7];
    }
    if p == 0 {
        return Some((false, h));
    }
    mirror ^= p >> 29;
    let at = 160 + 2 * ((p & 0x1FFF_FFFF) as usize - 1);
    let leaf = u64::from(store[at]) << 32 | u64::from(store[at + 1]);
    let flip = |c: u32, bit: u32| c & 3 ^ 3 * (mirror >> bit & 1);
    let bit = flip(x, 0) | flip(y, 1) << 2 | flip(z, 2) << 4;
    Some((leaf >> bit & 1 == 1, 0))
}
