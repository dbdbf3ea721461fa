//! Rooms and their outlines, whole and damaged.

use super::Random;
use std::rc::Rc;

/// A cell that is not empty. Cells may share children.
#[derive(Clone)]
pub enum Cell {
    Leaf(u64),
    Inner([Option<Rc<Cell>>; 8]),
}

pub struct Room {
    pub depth: u32,
    pub root: Option<Rc<Cell>>,
}

/// A leaf with its voxels turned round along the marked axes.
pub fn mirrored_leaf(leaf: u64, t: u32) -> u64 {
    let mut image = leaf;
    for (axis, step) in [(0, 1), (1, 4), (2, 16)] {
        if t >> axis & 1 == 1 {
            let before = image;
            image = 0;
            for bit in 0..64 {
                let at = bit / step % 4;
                image |= (before >> bit & 1) << (bit - at * step + (3 - at) * step);
            }
        }
    }
    image
}

pub fn mirrored(cell: &Cell, t: u32) -> Rc<Cell> {
    Rc::new(match cell {
        Cell::Leaf(leaf) => Cell::Leaf(mirrored_leaf(*leaf, t)),
        Cell::Inner(children) => Cell::Inner(std::array::from_fn(|i| children[i ^ t as usize].as_ref().map(|c| mirrored(c, t)))),
    })
}

/// The voxels of both.
fn together(a: &Rc<Cell>, b: &Rc<Cell>) -> Rc<Cell> {
    Rc::new(match (&**a, &**b) {
        (Cell::Leaf(x), Cell::Leaf(y)) => Cell::Leaf(x | y),
        (Cell::Inner(x), Cell::Inner(y)) => Cell::Inner(std::array::from_fn(|i| match (&x[i], &y[i]) {
            (Some(p), Some(q)) => Some(together(p, q)),
            (p, q) => p.clone().or(q.clone()),
        })),
        _ => unreachable!("cells of one height"),
    })
}

/// The length of a cell's record.
fn length(cell: &Cell) -> usize {
    match cell {
        Cell::Leaf(_) => 8,
        Cell::Inner(children) => 1 + children.iter().flatten().map(|c| length(c)).sum::<usize>(),
    }
}

fn write(cell: &Cell, out: &mut Vec<u8>) {
    match cell {
        Cell::Leaf(leaf) => out.extend(leaf.to_be_bytes()),
        Cell::Inner(children) => {
            out.push((0..8).map(|i| (children[i].is_some() as u8) << i).sum());
            for child in children.iter().flatten() {
                write(child, out);
            }
        }
    }
}

impl Room {
    pub fn outline(&self) -> Vec<u8> {
        let mut file = vec![0x11, 0, 0, 0, 0, self.depth as u8];
        if let Some(root) = &self.root {
            write(root, &mut file);
        }
        with_length(file)
    }
}

/// The file with its length in its length field.
pub fn with_length(mut file: Vec<u8>) -> Vec<u8> {
    if file.len() >= 5 {
        let length = (file.len() as u32).to_be_bytes();
        file[1..5].copy_from_slice(&length);
    }
    file
}

fn leaf(random: &mut Random, style: usize) -> u64 {
    let bits = match style {
        0 => random.next(),
        1 => 1 << random.below(64),
        2 => 1 << random.below(64) | 1 << random.below(64),
        3 => random.pick(&[u64::MAX, 0x8001, 0xffff, 0x000f_000f_000f_000f, 0x1111_1111_1111_1111, 1, 8, 1 << 63, 0x0660_0660, 0x8421]),
        4 => random.next() & random.next() & random.next(),
        _ => {
            let half = random.next() & random.next();
            let t = random.mirror();
            half | mirrored_leaf(half, t)
        }
    };
    if bits == 0 {
        1
    } else {
        bits
    }
}

/// A cell of about so many leaves at most, no shape in it.
fn loose(random: &mut Random, height: u32, leaves: usize, style: usize) -> Rc<Cell> {
    if height == 2 {
        return Rc::new(Cell::Leaf(leaf(random, style)));
    }
    let count = random.from_to(1, leaves.clamp(1, 8));
    let mut children: [Option<Rc<Cell>>; 8] = Default::default();
    for _ in 0..count {
        let i = random.below(8);
        children[i] = Some(loose(random, height - 1, leaves / count, style));
    }
    Rc::new(Cell::Inner(children))
}

/// A cell put together at each height from a few cells and their images.
fn repeated(random: &mut Random, height: u32, most: usize) -> Rc<Cell> {
    let style = random.below(6);
    let mut few: Vec<Rc<Cell>> = (0..random.from_to(1, 3)).map(|_| Rc::new(Cell::Leaf(leaf(random, style)))).collect();
    for _ in 3..=height {
        few = (0..random.from_to(1, 3))
            .map(|_| {
                let mut children: [Option<Rc<Cell>>; 8] = Default::default();
                let mut size = 0;
                for _ in 0..random.from_to(1, 10) {
                    let t = random.mirror();
                    let child = mirrored(&few[random.below(few.len())], t);
                    let i = random.below(8);
                    if size == 0 || size + length(&child) < most {
                        size += length(&child);
                        children[i] = Some(child);
                    }
                }
                Rc::new(Cell::Inner(children))
            })
            .collect();
    }
    few.remove(0)
}

/// A cell beside its images under one mirror or two.
fn symmetric(random: &mut Random, height: u32, leaves: usize) -> Rc<Cell> {
    let style = random.below(6);
    let mut cell = loose(random, height, leaves, style);
    for _ in 0..random.from_to(1, 2) {
        let t = random.mirror();
        cell = together(&cell, &mirrored(&cell, t));
    }
    cell
}

fn full(height: u32) -> Rc<Cell> {
    if height == 2 {
        return Rc::new(Cell::Leaf(u64::MAX));
    }
    let child = full(height - 1);
    Rc::new(Cell::Inner(std::array::from_fn(|_| Some(child.clone()))))
}

/// A voxel alone, most often in a corner.
fn single(random: &mut Random, height: u32) -> Rc<Cell> {
    let corner = random.below(8);
    let strict = random.once_in(2);
    let mut cell = Rc::new(Cell::Leaf(match strict {
        true => 1 << (3 * (corner & 1) + 12 * (corner >> 1 & 1) + 48 * (corner >> 2)),
        false => 1 << random.below(64),
    }));
    for _ in 3..=height {
        let i = if strict { corner } else { random.below(8) };
        let mut children: [Option<Rc<Cell>>; 8] = Default::default();
        children[i] = Some(cell);
        cell = Rc::new(Cell::Inner(children));
    }
    cell
}

/// A room with an outline of some thousand bytes at most.
pub fn room(random: &mut Random, leaves: usize) -> Room {
    let depth = if random.once_in(4) { random.from_to(2, 16) } else { random.from_to(2, 6) } as u32;
    let style = random.below(6);
    let root = match random.below(16) {
        0 => return Room { depth, root: None },
        1 => single(random, depth),
        2 => {
            let depth = depth.min(if random.once_in(8) { 5 } else { 4 });
            return Room { depth, root: Some(full(depth)) };
        }
        3..=6 => repeated(random, depth, 8 * leaves),
        7..=9 => symmetric(random, depth, leaves / 3 + 1),
        _ => loose(random, depth, leaves, style),
    };
    Room { depth, root: Some(root) }
}

/// A room that has something of another: the same, an image, or a part changed.
pub fn kin(random: &mut Random, of: &Room) -> Room {
    let t = random.mirror();
    let root = of.root.as_ref().map(|root| mirrored(root, t));
    match (random.below(4), root) {
        (0, Some(root)) => {
            let style = random.below(6);
            let other = loose(random, of.depth, 2, style);
            Room { depth: of.depth, root: Some(together(&root, &other)) }
        }
        (1, Some(root)) if of.depth < 16 && length(&root) < 2000 => {
            let mut children: [Option<Rc<Cell>>; 8] = Default::default();
            for _ in 0..random.from_to(1, 4) {
                let t = random.mirror();
                children[random.below(8)] = Some(mirrored(&root, t));
            }
            Room { depth: of.depth + 1, root: Some(Rc::new(Cell::Inner(children))) }
        }
        (_, root) => Room { depth: of.depth, root },
    }
}

/// A room of depth 7 with so many differing cells of height 3, each of eight leaves but the last three: these have 7, 7 and `last`
/// leaves, and so many cells of eight leaves follow.
pub fn wide(random: &mut Random, before: usize, last: usize, after: usize) -> Room {
    let leaves: Vec<Rc<Cell>> = (0..12).map(|_| Rc::new(Cell::Leaf(random.next() | 1))).collect();
    let mut cell = |count: usize| -> Rc<Cell> {
        let child = |i: usize, random: &mut Random| (i < count).then(|| leaves[random.below(12)].clone());
        Rc::new(Cell::Inner(std::array::from_fn(|i| child(i, random))))
    };
    let mut row: Vec<Rc<Cell>> = (0..before).map(|_| cell(8)).collect();
    row.extend([cell(7), cell(7), cell(last)]);
    row.extend((0..after).map(|_| cell(8)));
    for _ in 4..=7 {
        row = row.chunks(8).map(|part| Rc::new(Cell::Inner(std::array::from_fn(|i| part.get(i).cloned())))).collect();
    }
    Room { depth: 7, root: Some(row.remove(0)) }
}

/// A room alone under cells of one child each, up to a depth.
pub fn deeper(random: &mut Random, room: Room, depth: u32) -> Room {
    let under = |cell: Rc<Cell>, random: &mut Random| {
        let mut children: [Option<Rc<Cell>>; 8] = Default::default();
        children[random.below(8)] = Some(cell);
        Rc::new(Cell::Inner(children))
    };
    let root = room.root.map(|root| (room.depth..depth).fold(root, |cell, _| under(cell, random)));
    Room { depth, root }
}

/// A file with some of its bytes wrong, or too few or too many of them.
pub fn damaged(random: &mut Random, file: &[u8]) -> Vec<u8> {
    let mut file = file.to_vec();
    match random.below(10) {
        0 => {
            file.truncate(random.below(file.len() + 1));
            if random.once_in(2) {
                file = with_length(file);
            }
        }
        1 => {
            let more = random.from_to(1, 9);
            file.extend(random.bytes(more));
            if !random.once_in(4) {
                file = with_length(file);
            }
        }
        2 if file.len() > 5 => file[5] = random.pick(&[0, 1, 2, 3, 4, 5, 15, 16, 17, 18, 255]),
        3 if !file.is_empty() => file[0] = random.pick(&[0x10, 0x11, 0x12, 0x21, 0x22, 0]),
        4 if file.len() > 4 => file[random.from_to(1, 4)] ^= 1 << random.below(8),
        5 if file.len() > 6 => {
            // a byte taken out or put in
            let at = random.from_to(6, file.len() - 1);
            if random.once_in(2) {
                file.remove(at);
            } else {
                let byte = random.word() as u8;
                file.insert(at, byte);
            }
            file = with_length(file);
        }
        6 if file.len() > 6 => {
            let at = random.from_to(6, file.len() - 1);
            let end = (at + random.from_to(1, 8)).min(file.len());
            file[at..end].fill(0);
        }
        _ => {
            for _ in 0..random.from_to(1, 2) {
                if file.len() > 6 {
                    let at = random.from_to(6, file.len() - 1);
                    file[at] = match random.below(4) {
                        0 => 0,
                        1 => file[at] ^ 1 << random.below(8),
                        2 => file[at].wrapping_add(1),
                        _ => random.word() as u8,
                    };
                }
            }
        }
    }
    file
}
