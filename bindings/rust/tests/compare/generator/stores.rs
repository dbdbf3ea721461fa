//! Stores that no call wrote: put together by hand, damaged, of noise. And what a test has to know of a store to ask it well.

use super::Random;

/// The words of header, scenes, leaves and cells.
pub fn lists(capacity: usize) -> usize {
    160 + 142 * capacity
}

/// All words of a store: chain heads and next words stand behind the lists.
pub fn used(capacity: usize) -> usize {
    lists(capacity) + 3_840 + 15 * capacity
}

fn place(capacity: usize, height: usize, n: usize) -> usize {
    match height {
        2 => 160 + 2 * n,
        _ => 160 + 2 * capacity + 10 * ((height - 3) * capacity + n),
    }
}

/// A pointer to one of so many cells, or none.
fn pointer(random: &mut Random, count: u32) -> u32 {
    match count {
        0 => 0,
        _ => random.mirror() << 29 | (random.below(count as usize) as u32 + 1),
    }
}

fn count(w: &[u32], at: usize) -> u64 {
    (w[at + 8] as u64) << 32 | w[at + 9] as u64
}

fn put_count(w: &mut [u32], at: usize, count: u64) {
    w[at + 8] = (count >> 32) as u32;
    w[at + 9] = count as u32;
}

/// What a pointer gives to its parent's count, by the words of the cell that it names: a leaf's ones, or its own count; nothing where it
/// is bad.
fn share(w: &[u32], height: usize, p: u32) -> u64 {
    match cell(w, height, p) {
        Some(&[high, low]) => (high.count_ones() + low.count_ones()) as u64,
        Some(_) => count(w, place(w[0] as usize, height, (p & 0x1fff_ffff) as usize - 1)),
        None => 0,
    }
}

/// The counts of all kept cells from a height up made the sums of their children's, where those don't pass 64 bits.
pub fn sum_counts(w: &mut [u32], from: usize) {
    let capacity = w[0] as usize;
    for h in from.max(3)..=16 {
        for n in 0..(w[h] as usize).min(capacity) {
            let at = place(capacity, h, n);
            let sum = (0..8).fold(0u64, |sum, i| sum.wrapping_add(share(w, h - 1, w[at + i])));
            put_count(w, at, sum);
        }
    }
}

/// Where the head of a height's chain 0 is, and the next word of its cell 0.
fn heads(capacity: usize, height: usize) -> usize {
    lists(capacity) + 256 * (height - 2)
}

fn nexts(capacity: usize, height: usize) -> usize {
    lists(capacity) + 3_840 + capacity * (height - 2)
}

/// The chain of a cell by its words: a leaf's ones, or the top byte of the key that its pointers' numbers make.
fn chain(w: &[u32], height: usize, n: usize) -> usize {
    let at = place(w[0] as usize, height, n);
    if height == 2 {
        return (w[at].count_ones() + w[at + 1].count_ones()) as usize;
    }
    let key = w[at..at + 8].iter().fold(0u32, |key, p| key.wrapping_add((p & 0x1fff_ffff).wrapping_mul(2_654_435_761)));
    (key >> 24) as usize
}

/// All heads and next words made those of the cells that the header says are kept. A store cut short, or with a header out of range, stays.
pub fn chain_up(w: &mut [u32]) {
    let capacity = w.first().map_or(0, |&c| c as usize);
    if !(1..=65_536).contains(&capacity) || w.len() < used(capacity) {
        return;
    }
    w[lists(capacity)..used(capacity)].fill(0);
    for h in 2..=16 {
        // where the number of the next cell of each chain goes
        let mut ends: [usize; 256] = std::array::from_fn(|k| heads(capacity, h) + k);
        for n in 0..(w[h] as usize).min(capacity) {
            let k = chain(w, h, n);
            w[ends[k]] = n as u32 + 1;
            ends[k] = nexts(capacity, h) + n;
        }
    }
}

/// A head or a next word made wrong, or two of them together: a chain cut, without its first cell, with one too many, round in a ring, in
/// another order, under another key; a next word of a cell that isn't kept.
pub fn wrong_chain(random: &mut Random, w: &mut [u32]) {
    let capacity = w[0] as usize;
    let heights: Vec<usize> = (2..=16).filter(|&h| w[h] > 0).collect();
    let h = match heights.len() {
        0 => random.from_to(2, 16),
        n if random.once_in(12) => 16.min(heights[n - 1] + 1),
        n => heights[random.below(n).min(random.below(n))],
    };
    let (head, next, count) = (heads(capacity, h), nexts(capacity, h), w[h] as usize);
    let n = random.below(count.max(1));
    let (own, other) = (head + if count > 0 { chain(w, h, n) } else { 0 }, head + random.below(256));
    // a cell that another of its chain follows
    let followed: Vec<usize> = (0..count).filter(|&n| w[next + n] != 0).collect();
    match random.below(15) {
        0 => w[own] = random.pick(&[0, w[own].wrapping_add(1), count as u32 + 1, 1 << 29 | w[own], u32::MAX]),
        1 => w[own] = w[next + w[own].saturating_sub(1) as usize],
        2 => w[other] = random.below(count + 2) as u32 + 1,
        3 => w.swap(own, other),
        4 => w[next + n] = n as u32 + 1,
        5 => w[next + n] = random.pick(&[0, w[own], w[next + n].wrapping_add(1), count as u32 + 1, u32::MAX, 1 << 29]),
        6 => w[next + n] = random.below(count + 2) as u32,
        7 if count < capacity => w[next + random.from_to(count, capacity - 1)] = random.pick(&[1, count as u32 + 1, u32::MAX]),
        8 if count < capacity => w[next + count] = 1,
        9..=10 if !followed.is_empty() => w[next + random.pick(&followed)] = 0,
        11..=12 if !followed.is_empty() => {
            // two neighbours change places
            let a = random.pick(&followed);
            let b = w[next + a] as usize - 1;
            let before = (head..head + 256).chain(next..next + count).find(|&at| w[at] == a as u32 + 1);
            let after = w[next + b];
            if let Some(before) = before {
                w[before] = b as u32 + 1;
                w[next + b] = a as u32 + 1;
                w[next + a] = after;
            }
        }
        13 => {
            // a whole chain under another key
            w[other] = w[own];
            w[own] = 0;
        }
        _ => {
            let at = random.from_to(lists(capacity), used(capacity) - 1);
            let any = random.word();
            w[at] = random.pick(&[1, w[at].wrapping_add(1), any]);
        }
    }
}

/// Leaves that all have so many ones, as far as chance has them, and cells that share children in other places: long chains.
pub fn long_chains(random: &mut Random, capacity: usize) -> Vec<u32> {
    let mut w = vec![0; used(capacity)];
    w[0] = capacity as u32;
    let ones = random.from_to(1, 5);
    let top = random.from_to(3, 6);
    for h in 2..=top {
        let count = random.from_to(1.max(capacity / 2), capacity);
        w[h] = count as u32;
        // the same numbers in each cell of this height, most of the time
        let numbers: Vec<usize> = (0..random.from_to(1, 4)).map(|_| random.below(w[h - 1].max(1) as usize)).collect();
        for n in 0..count {
            let at = place(capacity, h, n);
            if h == 2 {
                for _ in 0..ones {
                    w[at + random.below(2)] |= 1 << random.below(32);
                }
                continue;
            }
            let mut places = [0, 1, 2, 3, 4, 5, 6, 7];
            for &number in &numbers {
                let free: Vec<usize> = places.iter().copied().filter(|&i| i < 8).collect();
                let i = random.pick(&free);
                places[i] = 8;
                let number = if random.once_in(8) { random.below(w[h - 1] as usize) } else { number };
                w[at + i] = random.mirror() << 29 | (number as u32 + 1);
            }
        }
    }
    sum_counts(&mut w, 3);
    chain_up(&mut w);
    w[1] = 3;
    for n in 0..3 {
        let depth = random.from_to(2, top);
        w[32 + 2 * n] = depth as u32;
        w[33 + 2 * n] = pointer(random, w[depth]);
    }
    w
}

/// The words of a kept inner cell, most often of a low one: its height, and where they are.
fn inner(random: &mut Random, w: &[u32]) -> Option<(usize, usize)> {
    let heights: Vec<usize> = (3..=16).filter(|&h| w[h] > 0).collect();
    if heights.is_empty() {
        return None;
    }
    let height = heights[random.below(heights.len()).min(random.below(heights.len()))];
    Some((height, place(w[0] as usize, height, random.below(w[height] as usize))))
}

/// The count of a kept cell made wrong: a little off, at 8^h or over it, its words exchanged, its high word alone; and sometimes the cells
/// above it summed up anew, so that it is the only wrong one.
pub fn wrong_count(random: &mut Random, w: &mut [u32]) {
    let Some((height, at)) = inner(random, w) else { return };
    let (now, most) = (count(w, at), 1u64 << (3 * height));
    let wrong = match random.below(16) {
        0..=2 => now.wrapping_add(1),
        3..=4 => now.wrapping_sub(1),
        5 => 0,
        6..=7 => most,
        8 => most - 1,
        9..=10 => most + 1,
        11 => now.rotate_left(32),
        12 => now.wrapping_add(1 << 32),
        13 => now ^ 1 << random.below(64),
        14 => random.pick(&[u64::MAX, 1 << 63, 1 << 48, (1 << 48) + 1, u32::MAX as u64, 1 << 32]),
        _ => random.below(most as usize + 1) as u64,
    };
    put_count(w, at, wrong);
    if random.once_in(3) {
        sum_counts(w, height + 1);
    }
}

/// Counts whose sum is right modulo 2^64 only: children of one cell that together pass it.
pub fn wrapping_counts(random: &mut Random, w: &mut [u32]) {
    let Some((height, at)) = inner(random, w) else { return };
    if height == 3 {
        return;
    }
    let capacity = w[0] as usize;
    for i in 0..8 {
        if let Some(n) = (w[at + i] & 0x1fff_ffff).checked_sub(1) {
            if n < w[height - 1] {
                put_count(w, place(capacity, height - 1, n as usize), random.pick(&[1 << 63, 1 << 62, u64::MAX, 3 << 62, 1 << 61]));
            }
        }
    }
    sum_counts(w, height);
}

/// A store with cells, tags and scenes as they come: undamaged, but for what chance leaves empty, and with true counts and right chains
/// most of the time.
pub fn by_hand(random: &mut Random, capacity: usize, spare: usize) -> Vec<u32> {
    let mut w = vec![0; used(capacity)];
    w[0] = capacity as u32;
    let most = if random.once_in(4) { 16 } else { 7 };
    let top = random.from_to(2, most);
    let many = random.from_to(1, if top > 7 { 3 } else { 6 });
    let alike = random.once_in(3);
    for h in 2..=top {
        let count = random.from_to(1, capacity);
        w[h] = count as u32;
        for n in 0..count {
            let at = place(capacity, h, n);
            if h == 2 {
                let leaf = if alike { random.pick(&[1, 8, 0x8001, 0x1008, u64::MAX]) } else { random.next() };
                w[at] = (leaf >> 32) as u32;
                w[at + 1] = leaf as u32;
            } else {
                for _ in 0..random.from_to(1, many) {
                    let i = random.below(8);
                    w[at + i] = pointer(random, w[h - 1]);
                }
                if random.once_in(40) {
                    // a full cell of one child
                    let p = pointer(random, w[h - 1]);
                    w[at..at + 8].fill(p);
                }
            }
        }
    }
    sum_counts(&mut w, 3);
    chain_up(&mut w);
    if random.once_in(5) {
        wrong_count(random, &mut w);
    }
    if random.once_in(40) {
        wrapping_counts(random, &mut w);
    }
    if random.once_in(6) {
        wrong_chain(random, &mut w);
    }
    let held = if random.once_in(10) { random.from_to(0, 64) } else { random.from_to(1, 6) };
    w[1] = held as u32;
    for n in 0..held {
        let depth = random.from_to(2, 16.min(top + 1));
        w[32 + 2 * n] = depth as u32;
        w[33 + 2 * n] = if random.once_in(8) { 0 } else { pointer(random, w[depth]) };
    }
    let spare = random.words(spare);
    w.extend(spare);
    w
}

/// A store with so many cells at a height that in a packed scene's list the last of them stands at 8,190 to 8,196: past 8,191 its pointers
/// are long. At height 2 the leaves are as many; that never comes alone, since the list of their parents then passes 8,191 too. Above
/// them stand cells of eight children each, up to a single one, then cells of one child each up to height 12. Scenes are the single
/// cell and those at depths 10 and 11. Most often what is packed is proper: leaves have no symmetry, and hardly two cells are alike.
pub fn wide_by_hand(random: &mut Random, height: usize) -> Vec<u32> {
    let last = random.from_to(8_190, 8_196);
    // the half-words of the records at that height: almost all have eight children
    let mut halves = vec![9; 907];
    for few in [8, 8, 8, last - 9 * 907 - 3 * 8] {
        halves.insert(random.below(halves.len()), few);
    }
    halves.push(random.from_to(2, 9));
    let (capacity, many) = if height == 2 { (8_200, last + 1) } else { (930, halves.len()) };

    let mut w = vec![0; used(capacity)];
    w[0] = capacity as u32;
    let mut row: Vec<usize> = Vec::new();
    for h in 2..=12 {
        let count = match h {
            _ if h < height => random.from_to(2, 6),
            _ if h == height => many,
            _ => row.len().div_ceil(8),
        };
        w[h] = count as u32;
        for n in 0..count {
            let at = place(capacity, h, n);
            if h == 2 {
                (w[at], w[at + 1]) = (random.word() | 1, random.word());
                continue;
            }
            // below and at the wide height any cells, above it those of the row in turn
            let children: Vec<usize> = if h > height {
                row[8 * n..row.len().min(8 * n + 8)].to_vec()
            } else {
                let children = if h == height { halves[n] - 1 } else { random.from_to(1, 8) };
                (0..children).map(|_| random.below(w[h - 1] as usize)).collect()
            };
            let first = if children.len() == 1 { random.below(8) } else { 0 };
            for (i, number) in children.into_iter().enumerate() {
                w[at + first + i] = random.mirror() << 29 | (number as u32 + 1);
            }
        }
        row = (0..count).collect();
        // some are named twice, so they stand first in their list
        if h == height {
            for _ in 0..random.below(4) {
                row.push(random.below(count));
            }
        }
    }
    sum_counts(&mut w, 3);
    chain_up(&mut w);
    let single = (height + 1..=12).find(|&h| w[h] == 1).unwrap();
    w[1] = 3;
    for (n, depth) in [single, 10, 11].into_iter().enumerate() {
        w[32 + 2 * n] = depth as u32;
        w[33 + 2 * n] = pointer(random, 1);
    }
    w
}

/// A pointer of a kept inner cell of a height taken away, where another is left, or put in, where there is room: its record is a half-word
/// shorter or longer. Counts and chains follow.
pub fn resize_a_cell(random: &mut Random, w: &mut [u32], height: usize) {
    let at = place(w[0] as usize, height, random.below(w[height] as usize));
    let (full, free): (Vec<usize>, Vec<usize>) = (at..at + 8).partition(|&i| w[i] != 0);
    if !free.is_empty() && random.once_in(2) {
        w[random.pick(&free)] = pointer(random, w[height - 1]);
    } else if full.len() > 1 {
        w[random.pick(&full)] = 0;
    }
    sum_counts(w, 3);
    chain_up(w);
}

/// A full room of depth 16 under each of a few mirrors, one cell a height, its counts the greatest that there are.
pub fn full_by_hand(random: &mut Random) -> Vec<u32> {
    let mut w = vec![0; used(1)];
    w[0] = 1;
    w[1] = 3;
    for n in 0..3 {
        w[32 + 2 * n] = 16 - n as u32;
        w[33 + 2 * n] = random.mirror() << 29 | 1;
    }
    w[2] = 1;
    w[160..162].fill(u32::MAX);
    for h in 3..=16 {
        w[h] = 1;
        for i in 0..8 {
            w[place(1, h, 0) + i] = random.mirror() << 29 | 1;
        }
    }
    sum_counts(&mut w, 3);
    chain_up(&mut w);
    w
}

/// Four rooms, the first of depth 16, of two cells a height: one has nothing solid in any of its children, the other one child that has a
/// single voxel somewhere, and the first kind for the rest. Some children are absent. Counts are true, or zero.
pub fn hollow_by_hand(random: &mut Random) -> Vec<u32> {
    let mut w = vec![0; used(2)];
    w[0] = 2;
    w[1] = 4;
    for n in 0..4 {
        let depth = match n {
            0 => 16,
            1 => random.from_to(2, 16),
            _ => random.from_to(2, 7),
        };
        w[32 + 2 * n] = depth as u32;
        w[33 + 2 * n] = random.mirror() << 29 | random.from_to(1, 2) as u32;
    }
    w[2] = 2;
    let bit = random.below(64);
    w[162 + usize::from(bit < 32)] = 1 << (bit % 32);
    for h in 3..=16 {
        w[h] = 2;
        let with = random.below(8);
        for n in 0..2 {
            for i in 0..8 {
                let there = i == with && n == 1 || !random.once_in(6);
                let number = 1 + u32::from(i == with && n == 1);
                w[place(2, h, n) + i] = if there { random.mirror() << 29 | number } else { 0 };
            }
        }
    }
    if random.once_in(2) {
        sum_counts(&mut w, 3);
    }
    w
}

/// A word of the header put at an end of its range, or just past it.
pub fn header_end(random: &mut Random, w: &mut [u32]) {
    let (at, value) = match random.below(4) {
        0 => (0, random.pick(&[0, w[0] + 1, w[0] - 1, 65_536, 65_537])),
        1 => (1, random.pick(&[63, 64, 65])),
        2 => (random.from_to(2, 16), random.pick(&[w[0], w[0] + 1])),
        _ => (random.from_to(16, 33), 1),
    };
    w[at] = value;
}

/// One word of a store changed.
pub fn damage(random: &mut Random, w: &mut [u32]) {
    let capacity = (w[0] as usize).clamp(1, (w.len().saturating_sub(4_000) / 157).max(1));
    let at = match random.below(26) {
        0 => random.below(32),
        1 => random.from_to(1, 16),
        2..=4 => random.from_to(32, 43),
        5 => random.from_to(32, 159),
        6 | 7 => random.from_to(160, 160 + 2 * capacity - 1),
        8..=20 => {
            // a word of a kept cell, where there is one
            let h = random.from_to(3, 9);
            let count = (w[h] as usize).min(capacity);
            place(capacity, h, random.below(count.max(1))) + random.below(10)
        }
        21 | 22 => random.from_to(160, lists(capacity) - 1),
        23 => random.from_to(nexts(capacity, 2), used(capacity) - 1),
        24 => heads(capacity, random.from_to(2, 9)) + random.below(256),
        _ => random.below(w.len()),
    };
    let at = at.min(w.len() - 1);
    w[at] = match random.below(9) {
        0 => 0,
        1 => w[at].wrapping_add(1),
        2 => w[at].wrapping_sub(1),
        3 => w[at] ^ random.mirror() << 29,
        4 => random.mirror() << 29,
        5 => random.word(),
        6 => random.mirror() << 29 | (random.from_to(1, capacity + 2) as u32),
        7 => random.pick(&[1, 2, 16, 17, 64, 65, 65_536, 65_537, u32::MAX, 1 << 29, (1 << 29) - 1]),
        _ => w[at] ^ 1 << random.below(32),
    };
}

/// A pointer of a kept cell, most often of a low one, made bad.
pub fn bad_pointer(random: &mut Random, w: &mut [u32]) {
    let Some((height, at)) = inner(random, w) else { return };
    let at = at + random.below(8);
    let past = w[height - 1] + random.from_to(1, 3) as u32;
    w[at] = random.pick(&[past, 5 << 29 | past, 1 << 29, 7 << 29]);
}

/// A kept cell's pointers, or a leaf's words, made zero; the cell's count too, or not, and then the sums anew, or not.
pub fn empty_a_cell(random: &mut Random, w: &mut [u32]) {
    let capacity = w[0] as usize;
    let height = if random.once_in(3) { 2 } else { random.from_to(3, 6) };
    if w[height] > 0 && w[height] <= w[0] {
        let at = place(capacity, height, random.below(w[height] as usize));
        let size = if height == 2 { 2 } else { random.pick(&[8, 10]) };
        w[at..at + size].fill(0);
        if random.once_in(2) {
            sum_counts(w, height.max(3));
        }
    }
}

/// Words of noise, some with a header that looks right.
pub fn noise(random: &mut Random) -> Vec<u32> {
    let capacity = random.from_to(1, 4);
    let length = match random.below(12) {
        0 => random.below(200),
        1 => used(capacity) - 1,
        _ => used(capacity) + random.below(3),
    };
    let mut w = random.words(length);
    if !random.once_in(8) && length > 32 {
        w[0] = capacity as u32;
        w[1] = random.below(65) as u32;
        for h in 2..=16 {
            w[h] = random.below(capacity + 1) as u32;
        }
        w[17..32].fill(0);
        // scenes that look right, over cells of noise or of small numbers
        for n in 0..64.min((length - 32) / 2) {
            if random.once_in(2) {
                w[32 + 2 * n] = random.from_to(2, 16) as u32;
                w[33 + 2 * n] = random.mirror() << 29 | random.from_to(0, 2) as u32;
            }
        }
        if random.once_in(2) {
            for word in w[160.min(length)..].iter_mut() {
                *word = random.mirror() << 29 | random.below(capacity + 1) as u32;
                if *word & 0x1fff_ffff == 0 && !random.once_in(30) {
                    *word = 0;
                }
            }
            if length >= used(capacity) && random.once_in(2) {
                sum_counts(&mut w, 3);
                chain_up(&mut w);
            }
        }
    }
    w
}

fn cell(w: &[u32], height: usize, p: u32) -> Option<&[u32]> {
    let n = (p & 0x1fff_ffff).checked_sub(1)? as usize;
    let capacity = *w.first()? as usize;
    let at = (n < capacity && capacity <= 65_536).then(|| place(capacity, height, n))?;
    w.get(at..at + if height == 2 { 2 } else { 8 })
}

/// About how many cells a walk through all of a scene enters.
pub fn weight(w: &[u32], height: usize, p: u32, limit: u64) -> u64 {
    let Some(words) = cell(w, height, p) else { return 0 };
    let mut sum = 1;
    if height > 2 {
        for &q in words {
            if sum < limit {
                sum += weight(w, height - 1, q, limit - sum);
            }
        }
    }
    sum
}

/// The words of a scene, where it has a depth: depth and root pointer.
pub fn scene(w: &[u32], n: u32) -> Option<(u32, u32)> {
    let at = 32 + 2 * n as usize;
    let words = (n < 64).then(|| w.get(at..at + 2)).flatten()?;
    (2..=16).contains(&words[0]).then_some((words[0], words[1]))
}

/// A solid voxel under a pointer, by a random way down.
pub fn solid(random: &mut Random, w: &[u32], height: usize, p: u32) -> Option<[u32; 3]> {
    let words = cell(w, height, p)?;
    let edge = 1u32 << height;
    let inside = if height == 2 {
        let leaf = (words[0] as u64) << 32 | words[1] as u64;
        let bits: Vec<u32> = (0..64).filter(|bit| leaf >> bit & 1 == 1).collect();
        let bit = if bits.is_empty() { return None } else { random.pick(&bits) };
        [bit % 4, bit / 4 % 4, bit / 16]
    } else {
        let full: Vec<usize> = (0..8).filter(|&i| words[i] != 0).collect();
        let i = if full.is_empty() { return None } else { random.pick(&full) };
        let inner = solid(random, w, height - 1, words[i])?;
        std::array::from_fn(|axis| inner[axis] + (i as u32 >> axis & 1) * edge / 2)
    };
    Some(std::array::from_fn(|axis| if p >> (29 + axis) & 1 == 1 { edge - 1 - inside[axis] } else { inside[axis] }))
}
