//! The differing cells of a room, mirror images counted once: what a store must keep at least, and so its least capacity. Each
//! cell is brought to the smallest of its eight images and looked up by hashing.
use crate::outline::Records;
use std::collections::HashMap;

/// A class of images: its number, the lowest mirror under which the cell is the class's own image, and the mirrors (one bit
/// each) under which the class is its own image.
#[derive(Clone, Copy)]
struct Seen {
    class: u32,
    mirror: u32,
    own: u8,
}

#[derive(Default)]
struct Classes {
    leaves: HashMap<u64, (u32, u8)>,
    cells: [HashMap<[u32; 8], (u32, u8)>; 17],
}

/// How many differing cells a room has at each height, by height.
pub fn of(file: &[u8]) -> [u32; 17] {
    let (depth, records) = Records::of(file);
    let mut classes = Classes::default();
    if let Some(mut records) = records {
        classes.read(&mut records, depth);
    }
    let mut kept: [u32; 17] = std::array::from_fn(|h| classes.cells[h].len() as u32);
    kept[2] = classes.leaves.len() as u32;
    kept
}

/// A leaf mirrored: voxel by voxel where it marks an axis.
pub fn mirrored_leaf(leaf: u64, mirror: u32) -> u64 {
    let mut image = leaf;
    if mirror & 1 != 0 {
        image = image >> 3 & 0x1111_1111_1111_1111
            | image >> 1 & 0x2222_2222_2222_2222
            | image << 1 & 0x4444_4444_4444_4444
            | image << 3 & 0x8888_8888_8888_8888;
    }
    if mirror & 2 != 0 {
        image = image >> 12 & 0x000F_000F_000F_000F
            | image >> 4 & 0x00F0_00F0_00F0_00F0
            | image << 4 & 0x0F00_0F00_0F00_0F00
            | image << 12 & 0xF000_F000_F000_F000;
    }
    if mirror & 4 != 0 {
        image = image >> 48 | image >> 16 & 0xFFFF_0000 | (image & 0xFFFF_0000) << 16 | image << 48;
    }
    image
}

/// Of eight images the smallest, the first mirror that gives it, and the mirrors that leave the first image as it is.
fn smallest<T: Ord + Copy>(images: [T; 8]) -> (T, u32, u8) {
    let least = *images.iter().min().unwrap();
    let mirror = images.iter().position(|image| *image == least).unwrap() as u32;
    let own = (0..8).fold(0, |own, t| own | u8::from(images[t] == images[0]) << t);
    (least, mirror, own)
}

impl Classes {
    fn read(&mut self, records: &mut Records, h: u32) -> Seen {
        if h == 2 {
            let leaf = records.leaf();
            let (least, mirror, own) =
                smallest(std::array::from_fn(|t| mirrored_leaf(leaf, t as u32)));
            let next = self.leaves.len() as u32;
            let (class, own) = *self.leaves.entry(least).or_insert((next, own));
            return Seen { class, mirror, own };
        }
        let mask = records.mask();
        let mut children = [None; 8];
        for (i, child) in children.iter_mut().enumerate() {
            if mask >> i & 1 == 1 {
                *child = Some(self.read(records, h - 1));
            }
        }
        let (least, mirror, own) = smallest(std::array::from_fn(|t| image(&children, t)));
        let cells = &mut self.cells[h as usize];
        let next = cells.len() as u32;
        let (class, own) = *cells.entry(least).or_insert((next, own));
        Seen { class, mirror, own }
    }
}

/// A cell's image as eight words: for each child 0, or its class and the lowest mirror with the same meaning.
fn image(children: &[Option<Seen>; 8], mirror: usize) -> [u32; 8] {
    std::array::from_fn(|i| match children[i ^ mirror] {
        None => 0,
        Some(Seen {
            class,
            mirror: tag,
            own,
        }) => {
            let meant = tag ^ mirror as u32;
            let lowest = (0..8).find(|t| own >> (t ^ meant) & 1 == 1).unwrap();
            8 * (class + 1) + lowest
        }
    })
}
