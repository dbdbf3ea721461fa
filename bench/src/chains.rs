//! The chains of a store, by which adding finds equal cells, read from its words: how long they are, and how many kept cells each cell of
//! a room was compared with.

const HEIGHTS: std::ops::RangeInclusive<usize> = 2..=16;

/// What the chains of a store of one scene tell of its adding.
pub struct Chains {
    /// The cells of the longest chain, and its height.
    pub longest: (usize, usize),
    /// The cells of the room, each sought once where it stands in the outline.
    pub sought: u64,
    /// The kept cells that they were compared with, all together: those of the chain up to the one found, or all where none was.
    pub compared: u64,
}

/// The chain that a kept cell belongs to: a leaf's ones, or the top byte of a sum over the numbers of its pointers.
fn chain_of(h: usize, words: &[u32]) -> usize {
    if h == 2 {
        return words.iter().map(|word| word.count_ones()).sum::<u32>() as usize;
    }
    let number = |p: u32| (p & 0x1FFF_FFFF).wrapping_mul(2_654_435_761);
    let key = words
        .iter()
        .fold(0u32, |key, &p| key.wrapping_add(number(p)));
    (key >> 24) as usize
}

/// The two words of a leaf, or the eight pointers of an inner cell.
fn cell(store: &[u32], h: usize, n: usize) -> &[u32] {
    let capacity = store[0] as usize;
    if h == 2 {
        let at = 160 + 2 * n;
        return &store[at..at + 2];
    }
    let at = 160 + 2 * capacity + 10 * ((h - 3) * capacity + n);
    &store[at..at + 8]
}

/// Reads the chains of a store of one scene; each must have the cells of its key, numbers rising, and each kept cell one place.
pub fn of(store: &[u32]) -> Chains {
    let capacity = store[0] as usize;
    let heads = 160 + 142 * capacity;
    let nexts = heads + 3_840;
    let mut chains = Chains {
        longest: (0, 2),
        sought: 0,
        compared: 0,
    };
    let occurring = occurring(store);
    for h in HEIGHTS {
        let mut placed = 0;
        for chain in 0..256 {
            let mut next = store[heads + 256 * (h - 2) + chain] as usize;
            let (mut place, mut before) = (0, 0);
            while next != 0 {
                assert!(before < next, "a chain's numbers rise");
                before = next;
                let n = next - 1;
                assert_eq!(chain_of(h, cell(store, h, n)), chain, "a cell's chain");
                place += 1;
                // the first time it was kept, and not found
                let times = occurring[h][n];
                chains.sought += times;
                chains.compared += place as u64 * times - 1;
                next = store[nexts + (h - 2) * capacity + n] as usize;
            }
            placed += place;
            if place > chains.longest.0 {
                chains.longest = (place, h);
            }
        }
        assert_eq!(placed, store[h] as usize, "each kept cell has one place");
    }
    chains
}

/// How often each kept cell, or an image of it, occurs in the room, by height and number.
fn occurring(store: &[u32]) -> Vec<Vec<u64>> {
    let number = |p: u32| (p & 0x1FFF_FFFF) as usize - 1;
    let mut times: Vec<Vec<u64>> = (0..=16)
        .map(|h| vec![0; if h < 2 { 0 } else { store[h] as usize }])
        .collect();
    let (depth, root) = (store[32] as usize, store[33]);
    if root != 0 {
        times[depth][number(root)] = 1;
    }
    for h in (3..=depth).rev() {
        for n in 0..store[h] as usize {
            for &p in cell(store, h, n) {
                if p != 0 {
                    let above = times[h][n];
                    times[h - 1][number(p)] += above;
                }
            }
        }
    }
    times
}
