//! Packed files taken apart, changed and written again, so that one rule breaks and the others hold.

use super::rooms::{mirrored_leaf, with_length};
use super::Random;

#[derive(Clone, Copy, PartialEq)]
pub enum Width {
    Due,
    Short,
    Long,
}

/// A pointer: to a record of the next list by its number, or beside it by some half-words.
#[derive(Clone, Copy)]
pub struct Link {
    pub tag: u32,
    pub to: usize,
    pub beside: i64,
    pub width: Width,
}

#[derive(Clone, Default)]
pub struct Record {
    pub links: [Option<Link>; 8],
    /// Header bits put over the right ones.
    pub over: u16,
}

/// A packed scene: lists[0] is the top one.
#[derive(Clone)]
pub struct Draft {
    pub depth: u32,
    pub root: u8,
    pub lists: Vec<Vec<Record>>,
    pub leaves: Vec<u64>,
    /// Half-words put after the records of a list.
    pub after: Vec<Vec<u16>>,
}

fn be(bytes: &[u8]) -> u64 {
    bytes.iter().fold(0, |n, &b| n << 8 | b as u64)
}

impl Draft {
    /// A proper file that is not an empty scene, taken apart.
    pub fn read(file: &[u8]) -> Option<Draft> {
        if file.len() < 19 {
            return None;
        }
        let depth = file[5] as u32;
        let inner = depth as usize - 2;
        let mut at = 7 + 4 * (inner + 1);
        let mut lists = Vec::new();
        let mut starts: Vec<Vec<u64>> = Vec::new();
        let mut places: Vec<Vec<[u64; 8]>> = Vec::new();
        for k in 0..inner {
            let halves = be(&file[7 + 4 * k..11 + 4 * k]) as usize;
            let (from, end) = (at, at + 2 * halves);
            let (mut list, mut list_starts, mut list_places) = (Vec::new(), Vec::new(), Vec::new());
            while at < end {
                list_starts.push((at - from) as u64 / 2);
                let header = be(&file[at..at + 2]);
                at += 2;
                let mut record = Record::default();
                let mut named = [0; 8];
                for i in 0..8 {
                    let bytes = 2 * (header >> (2 * i) & 3) as usize;
                    if bytes > 0 {
                        let v = be(&file[at..at + bytes]);
                        at += bytes;
                        named[i] = v & ((1 << (8 * bytes - 3)) - 1);
                        record.links[i] = Some(Link { tag: (v >> (8 * bytes - 3)) as u32, to: 0, beside: 0, width: Width::Due });
                    }
                }
                list.push(record);
                list_places.push(named);
            }
            lists.push(list);
            starts.push(list_starts);
            places.push(list_places);
        }
        let leaves: Vec<u64> = file[at..].chunks(8).map(be).collect();
        starts.push((0..leaves.len() as u64).collect());
        for k in 0..inner {
            for (record, named) in lists[k].iter_mut().zip(&places[k]) {
                for (link, place) in record.links.iter_mut().zip(named) {
                    if let Some(link) = link {
                        link.to = starts[k + 1].iter().position(|s| s == place)?;
                    }
                }
            }
        }
        Some(Draft { depth, root: file[6], after: vec![Vec::new(); inner], lists, leaves })
    }

    pub fn write(&self) -> Vec<u8> {
        let mut below: Vec<u64> = (0..self.leaves.len() as u64).collect();
        let mut written: Vec<Vec<u8>> = Vec::new();
        for (list, after) in self.lists.iter().zip(&self.after).rev() {
            let mut bytes = Vec::new();
            let mut starts = Vec::new();
            for record in list {
                starts.push(bytes.len() as u64 / 2);
                let mut header = record.over;
                let mut rest = Vec::new();
                for (i, link) in record.links.iter().enumerate() {
                    let Some(link) = link else { continue };
                    let place = below.get(link.to).map_or(link.to as i64, |&p| p as i64) + link.beside;
                    let place = place.clamp(0, 0x1fff_ffff) as u32;
                    let short = match link.width {
                        Width::Due => place <= 8191,
                        Width::Short => true,
                        Width::Long => false,
                    };
                    header |= if short { 1 } else { 2 } << (2 * i);
                    if short {
                        rest.extend(((link.tag << 13 | place & 0x1fff) as u16).to_be_bytes());
                    } else {
                        rest.extend((link.tag << 29 | place).to_be_bytes());
                    }
                }
                bytes.extend(header.to_be_bytes());
                bytes.extend(rest);
            }
            for half in after {
                bytes.extend(half.to_be_bytes());
            }
            below = starts;
            written.push(bytes);
        }
        written.reverse();
        let mut file = vec![0x22, 0, 0, 0, 0, self.depth as u8, self.root];
        for bytes in &written {
            file.extend((bytes.len() as u32 / 2).to_be_bytes());
        }
        file.extend((self.leaves.len() as u32).to_be_bytes());
        file.extend(written.concat());
        file.extend(self.leaves.iter().flat_map(|l| l.to_be_bytes()));
        with_length(file)
    }

    /// A solid voxel, by a random way down from a record of list k (the leaves' list is the last) seen under a mirror.
    fn solid_under(&self, random: &mut Random, k: usize, n: usize, t: u32) -> Option<[u32; 3]> {
        let height = self.depth - k as u32;
        let edge = 1u32 << height;
        let inside: [u32; 3] = if height == 2 {
            let leaf = *self.leaves.get(n)?;
            let bits: Vec<u32> = (0..64).filter(|bit| leaf >> bit & 1 == 1).collect();
            let bit = if bits.is_empty() { return None } else { random.pick(&bits) };
            [bit % 4, bit / 4 % 4, bit / 16]
        } else {
            let links = self.lists[k].get(n)?.links;
            let full: Vec<usize> = (0..8).filter(|&i| links[i].is_some()).collect();
            let i = if full.is_empty() { return None } else { random.pick(&full) };
            let link = links[i]?;
            let inner = self.solid_under(random, k + 1, link.to, link.tag)?;
            std::array::from_fn(|axis| inner[axis] + (i as u32 >> axis & 1) * edge / 2)
        };
        Some(std::array::from_fn(|axis| if t >> axis & 1 == 1 { edge - 1 - inside[axis] } else { inside[axis] }))
    }

    /// Some solid voxels.
    pub fn solid(&self, random: &mut Random, times: usize) -> Vec<[u32; 3]> {
        (0..times).filter_map(|_| self.solid_under(random, 0, 0, self.root as u32)).collect()
    }

    /// Some record's link, in the lists.
    fn some_link(&self, random: &mut Random) -> Option<(usize, usize, usize)> {
        let k = if self.lists.is_empty() { return None } else { random.below(self.lists.len()) };
        let n = if self.lists[k].is_empty() { return None } else { random.below(self.lists[k].len()) };
        let full: Vec<usize> = (0..8).filter(|&i| self.lists[k][n].links[i].is_some()).collect();
        (!full.is_empty()).then(|| (k, n, random.pick(&full)))
    }

    /// How many records the list below list k has.
    fn below(&self, k: usize) -> usize {
        self.lists.get(k + 1).map_or(self.leaves.len(), |list| list.len())
    }

    /// All links into the list below list k.
    fn links_from(&mut self, k: usize) -> impl Iterator<Item = &mut Link> {
        self.lists[k].iter_mut().flat_map(|record| record.links.iter_mut().flatten())
    }

    /// One change, of a rule most often.
    pub fn change(&mut self, random: &mut Random) {
        let Some((k, n, i)) = self.some_link(random) else {
            // depth 2, or nothing left
            match random.below(4) {
                0 => self.root = random.mirror() as u8,
                1 => self.leaves.push(random.next()),
                2 => self.leaves.clear(),
                _ => self.leaves.iter_mut().for_each(|leaf| *leaf = random.next() & random.next() & 0x8001_0000_0000_8001),
            }
            return;
        };
        let below = self.below(k);
        match random.below(21) {
            // two records change places, and the pointers follow or don't
            0..=3 if below > 1 => {
                let (a, b) = (random.below(below), random.below(below));
                match self.lists.get_mut(k + 1) {
                    Some(list) => list.swap(a, b),
                    None => self.leaves.swap(a, b),
                }
                if !random.once_in(4) {
                    for link in self.links_from(k) {
                        link.to = if link.to == a {
                            b
                        } else if link.to == b {
                            a
                        } else {
                            link.to
                        };
                    }
                }
            }
            // a record gives way to its image, and the tags to it follow or don't
            4..=6 if below > 0 => {
                let (a, t) = (random.below(below), random.mirror());
                if k + 1 < self.lists.len() {
                    let before = self.lists[k + 1][a].clone();
                    for j in 0..8 {
                        self.lists[k + 1][a].links[j] = before.links[j ^ t as usize].map(|l| Link { tag: l.tag ^ t, ..l });
                    }
                } else {
                    self.leaves[a] = mirrored_leaf(self.leaves[a], t);
                }
                if !random.once_in(5) {
                    for link in self.links_from(k) {
                        if link.to == a {
                            link.tag ^= t;
                        }
                    }
                }
            }
            7 | 8 => self.lists[k][n].links[i].as_mut().unwrap().tag = random.mirror(),
            9 => self.lists[k][n].links[i].as_mut().unwrap().to = random.below(below + 1),
            10 => self.lists[k][n].links[i].as_mut().unwrap().beside = random.pick(&[-1, 1, 2, 9, 8192]),
            11 => self.lists[k][n].links[i].as_mut().unwrap().width = random.pick(&[Width::Short, Width::Long]),
            12 => self.lists[k][n].links[i] = None,
            13 => {
                let link = Link { tag: random.mirror(), to: random.below(below.max(1)), beside: 0, width: Width::Due };
                self.lists[k][n].links[random.below(8)] = Some(link);
            }
            // a record twice, named or not
            14 => {
                let copy = self.lists[k][n].clone();
                self.lists[k].push(copy);
                if k > 0 && !self.lists[k - 1].is_empty() && random.once_in(2) {
                    let (last, other) = (self.lists[k].len() - 1, random.below(self.lists[k - 1].len()));
                    let place = random.below(8);
                    self.lists[k - 1][other].links[place] = Some(Link { tag: random.mirror(), to: last, beside: 0, width: Width::Due });
                }
            }
            15 => {
                let leaf = if random.once_in(2) || self.leaves.is_empty() {
                    random.next()
                } else {
                    mirrored_leaf(self.leaves[0], random.mirror())
                };
                self.leaves.push(leaf);
                let (last, bottom) = (self.leaves.len() - 1, self.lists.len() - 1);
                if random.once_in(2) && !self.lists[bottom].is_empty() {
                    let (other, place) = (random.below(self.lists[bottom].len()), random.below(8));
                    self.lists[bottom][other].links[place] = Some(Link { tag: 0, to: last, beside: 0, width: Width::Due });
                }
            }
            16 => {
                let at = random.below(self.leaves.len().max(1));
                if let Some(leaf) = self.leaves.get_mut(at) {
                    *leaf = if random.once_in(2) { 0 } else { *leaf ^ 1 << random.below(64) };
                }
            }
            17 => self.root = if random.once_in(3) { random.below(10) as u8 } else { random.mirror() as u8 },
            18 => self.lists[k][n].over = 3 << (2 * random.below(8)),
            19 => self.after[k] = (0..random.from_to(1, 2)).map(|_| random.pick(&[0, 0, 1, 3])).collect(),
            _ => {
                // a header of no children, or a record gone
                if random.once_in(2) {
                    self.lists[k][n].links = [None; 8];
                } else {
                    self.lists[k].remove(n);
                }
            }
        }
    }
}
