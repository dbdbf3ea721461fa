//! Outline files as document 01 gives them: the records read in order, and rooms drawn into one.

/// The front byte, and the bytes before the root's record.
pub const FRONT: u8 = 0x11;
pub const HEAD: usize = 6;

/// The records of an outline, one after the other.
pub struct Records<'a> {
    bytes: &'a [u8],
    at: usize,
}

impl<'a> Records<'a> {
    /// The depth, and the records; none where the room is empty.
    pub fn of(file: &'a [u8]) -> (u32, Option<Records<'a>>) {
        assert!(file.len() >= HEAD && file[0] == FRONT, "not an outline");
        let length = u32::from_be_bytes(file[1..5].try_into().unwrap());
        assert_eq!(length as usize, file.len(), "an outline of another length");
        let depth = u32::from(file[5]);
        assert!((2..=16).contains(&depth), "depth out of range");
        let records = Records {
            bytes: file,
            at: HEAD,
        };
        (depth, (file.len() > HEAD).then_some(records))
    }

    /// A mask.
    pub fn mask(&mut self) -> u8 {
        let mask = self.bytes[self.at];
        self.at += 1;
        mask
    }

    /// A leaf.
    pub fn leaf(&mut self) -> u64 {
        let leaf = u64::from_be_bytes(self.bytes[self.at..self.at + 8].try_into().unwrap());
        self.at += 8;
        leaf
    }
}

/// The file of a room of this depth whose records are given.
pub fn file(depth: u32, records: &[u8]) -> Vec<u8> {
    let mut out = Vec::with_capacity(HEAD + records.len());
    out.push(FRONT);
    out.extend_from_slice(&((HEAD + records.len()) as u32).to_be_bytes());
    out.push(depth as u8);
    out.extend_from_slice(records);
    out
}

/// Writes the record of the cell of height h that has these leaves, given by their corners, and no others.
pub fn write_leaves(out: &mut Vec<u8>, h: u32, leaves: &[([u32; 3], u64)]) {
    if h == 2 {
        out.extend_from_slice(&leaves[0].1.to_be_bytes());
        return;
    }
    let mut children: [Vec<([u32; 3], u64)>; 8] = Default::default();
    for &leaf in leaves {
        let ([x, y, z], h) = (leaf.0, h - 1);
        let i = x >> h & 1 | (y >> h & 1) << 1 | (z >> h & 1) << 2;
        children[i as usize].push(leaf);
    }
    out.push((0..8).fold(0, |mask, i| mask | u8::from(!children[i].is_empty()) << i));
    for child in children.iter().filter(|child| !child.is_empty()) {
        write_leaves(out, h - 1, child);
    }
}

/// Writes the record of the cell of height h at a corner, where `leaf_at` gives the leaf at a corner; whether it is non-empty.
pub fn write_cell(
    out: &mut Vec<u8>,
    h: u32,
    corner: [u32; 3],
    leaf_at: &dyn Fn([u32; 3]) -> u64,
) -> bool {
    if h == 2 {
        let leaf = leaf_at(corner);
        if leaf != 0 {
            out.extend_from_slice(&leaf.to_be_bytes());
        }
        return leaf != 0;
    }
    let at = out.len();
    out.push(0);
    let mut mask = 0u8;
    let half = 1 << (h - 1);
    for i in 0..8u32 {
        let [x, y, z] = corner;
        let child = [
            x + half * (i & 1),
            y + half * (i >> 1 & 1),
            z + half * (i >> 2),
        ];
        if write_cell(out, h - 1, child, leaf_at) {
            mask |= 1 << i;
        }
    }
    out[at] = mask;
    if mask == 0 {
        out.truncate(at);
    }
    mask != 0
}
