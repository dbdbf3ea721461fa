//! The room store, for Rust: safe functions over lent slices. include/rooms.h says the same for C.
//!
//! A room is a cube of voxels; its depth D, from 2 to 16, gives its edge, 2^D voxels. A store keeps up to 64 scenes and each differing cell of
//! theirs once, mirror images included. Any words and bytes may be passed, of any length: a call answers, or names its refusal.
//! A refused call leaves store and output as they were. Nothing is allocated and nothing kept between calls.
//!
//! 'The whole store is tested' below: the header, every scene held, every kept cell (not empty, no bad pointer, its solid count the
//! sum of its children's, a leaf's being its ones), every chain (the kept cells of its key, numbers rising), and that all other
//! words are 0. Questions don't look at chains.
//!
//! ```
//! let mut store = [0; rooms::store_words(32)];
//! rooms::new_store(&mut store, 32)?;
//! let scene = rooms::add(&mut store, &[0x11, 0, 0, 0, 14, 2, 0, 0, 0, 0, 0, 0, 0, 1])?;
//! assert!(rooms::voxel(&store, scene, 0, 0, 0)?.solid);
//! assert_eq!(rooms::voxel(&store, scene, 4, 0, 0), Err(rooms::Refusal::Outside));
//! # Ok::<(), rooms::Refusal>(())
//! ```

pub mod c;
mod refusal;

pub use refusal::Refusal;

use refusal::accepted;

pub const MIN_DEPTH: u32 = 2;
pub const MAX_DEPTH: u32 = 16;
pub const HEADSET_DEPTH: u32 = 10;
pub const MAX_SCENES: u32 = 64;
pub const MAX_CAPACITY: u32 = 65_536;

/// Words of a store that keeps up to `capacity` cells at each height, 1 to `MAX_CAPACITY`: leaves of 2 words, other cells of 10, eight
/// pointers and the solid count; then for each of 15 heights the heads of 256 chains, and a next word for each cell.
pub const fn store_words(capacity: u32) -> usize {
    let capacity = capacity as usize;
    160 + 142 * capacity + 3_840 + 15 * capacity
}

/// Words of scratch that `pack` and `headset_pack` take for a store of this capacity.
pub const fn pack_scratch_words(capacity: u32) -> usize {
    60 * capacity as usize
}

/// Bytes that hold any packed scene of a store of this capacity: header, 15 sizes, a root, and at each height below it at most
/// `capacity` records of at most 34 bytes.
pub const fn packed_max_bytes(capacity: u32) -> usize {
    7 + 60 + 34 + (8 + 34 * 13) * capacity as usize
}

// ---- the store

/// New store: zeroes the first `store_words(capacity)` words, then sets word 0. Refusals: `BadSize`.
pub fn new_store(store: &mut [u32], capacity: u32) -> Result<(), Refusal> {
    accepted(c::rooms_new(store, capacity), ())
}

/// Adds the room of an outline; answers the scene's number, the count of scenes before. Each of its cells is compared with the kept
/// cells of its chain alone: every cell that it matches, under any mirror, is there.
/// Refusals, in order: `DamagedStore` (the whole store is tested), `BadVersion`, `BadLength`, `BadDepth`, `BrokenRules`, `ScenesFull`,
/// `CellsFull`.
pub fn add(store: &mut [u32], file: &[u8]) -> Result<u32, Refusal> {
    let mut scene = 0;
    let number = c::rooms_add(store, file, &mut scene);
    accepted(number, scene)
}

/// A voxel.
#[derive(Clone, Copy, Debug, PartialEq, Eq)]
pub struct Voxel {
    pub solid: bool,
    /// The height of the empty cell that holds it: the absent child that ended the walk, or the whole room in an empty scene; 0 inside a
    /// leaf and for a solid voxel. Every voxel of that cell has the same answer, so all of it may be stepped over at once.
    pub height: u32,
}

/// Whether a voxel is solid, and where it is empty how high an empty cell holds it.
/// Refusals, in order: `DamagedStore` (header), `NoScene`, `DamagedStore` (the scene's two words), `Outside`, `DamagedStore` (a
/// bad pointer in a cell entered).
pub fn voxel(store: &[u32], scene: u32, x: u32, y: u32, z: u32) -> Result<Voxel, Refusal> {
    let (mut solid, mut height) = (0, 0);
    let number = c::rooms_voxel(store, scene, x, y, z, &mut solid, &mut height);
    accepted(number, Voxel { solid: solid == 1, height })
}

/// Sight line from one voxel's centre to another's: the first solid voxel that the segment meets, the two ends left out; `None` where it is
/// clear. A voxel is met where the segment has a point strictly inside it: a touch at a face, an edge or a corner does not block. The
/// ends are never tested, solid or not. No rounding takes part.
/// Refusals, in order: `DamagedStore` (header), `NoScene`, `DamagedStore` (the scene's two words), `Outside` (either end), `DamagedStore`
/// (where `voxel` gives it at a voxel met before the answer, the ends left out).
pub fn sight(store: &[u32], scene: u32, from: [u32; 3], to: [u32; 3]) -> Result<Option<[u32; 3]>, Refusal> {
    let (mut blocked, mut at) = (0, [0; 3]);
    let number = c::rooms_sight(store, scene, from, to, &mut blocked, &mut at);
    accepted(number, (blocked == 1).then_some(at))
}

/// Whether a cell of a height, 0 to D, is non-empty; x, y and z are counted in cells of that height. Refusals: as for a voxel.
pub fn cell(store: &[u32], scene: u32, height: u32, x: u32, y: u32, z: u32) -> Result<bool, Refusal> {
    let mut full = 0;
    let number = c::rooms_cell(store, scene, height, x, y, z, &mut full);
    accepted(number, full == 1)
}

/// The number of solid voxels from the low corner up to the high one, which is outside. Of each cell of height 3 and up that lies wholly
/// inside, the whole room too, the solid count kept with it is taken, and nothing below it is looked at; a leaf is always read.
/// Refusals: as for a voxel; `Outside` where on any axis low is above high, or high above the edge. The last `DamagedStore` is given for
/// a count taken that is above 8^h at height h, and, in a cell entered, for bad pointers to children that share a voxel with the box.
pub fn box_count(store: &[u32], scene: u32, low: [u32; 3], high: [u32; 3]) -> Result<u64, Refusal> {
    let mut count = 0;
    let number = c::rooms_box(store, scene, low, high, &mut count);
    accepted(number, count)
}

/// Whether a box has anything solid.
#[derive(Clone, Copy, Debug, PartialEq, Eq)]
pub struct Anything {
    pub solid: bool,
    /// How many cells were entered for that, the root and leaves among them, one entered twice counted twice; 0 in an empty scene and in
    /// a box without voxels.
    pub entered: u64,
}

/// Is anything in the way: whether any voxel from the low corner up to the high one, which is outside, is solid. Cells are entered from the
/// root on, of each cell's children those that share a voxel with the box, by rising number as the room shows them, each one's own children
/// before the next, up to the first leaf with a solid voxel in the box. Counts kept in the store are not looked at.
/// Refusals: as for a voxel; `Outside` as for a box. The last `DamagedStore` is given, in a cell entered, for bad pointers to children that
/// share a voxel with the box, and for no others.
pub fn anything(store: &[u32], scene: u32, low: [u32; 3], high: [u32; 3]) -> Result<Anything, Refusal> {
    let (mut solid, mut entered) = (0, 0);
    let number = c::rooms_any(store, scene, low, high, &mut solid, &mut entered);
    accepted(number, Anything { solid: solid == 1, entered })
}

/// The cells kept at a height, 2 to 16. Refusals, in order: `DamagedStore` (header), `Outside`.
pub fn kept(store: &[u32], height: u32) -> Result<u32, Refusal> {
    let mut count = 0;
    let number = c::rooms_kept(store, height, &mut count);
    accepted(number, count)
}

// ---- files written

/// Writes a scene's outline; answers its length.
/// Refusals, in order: `DamagedStore` (the whole store is tested), `NoScene`, `OutputShort` (also past 4,294,967,295 bytes).
pub fn outline(store: &[u32], scene: u32, out: &mut [u8]) -> Result<u32, Refusal> {
    let mut length = 0;
    let number = c::rooms_outline(store, scene, out, &mut length);
    accepted(number, length)
}

/// Writes a scene's packed file; answers its length. The scratch needed, `pack_scratch_words`, may hold anything; it is zero
/// afterwards where the answer is `Ok` or `OutputShort`, else as it was.
/// Refusals, in order: `DamagedStore` (the whole store is tested), `NoScene`, `ScratchShort`, `OutputShort`.
pub fn pack(store: &[u32], scene: u32, scratch: &mut [u32], out: &mut [u8]) -> Result<u32, Refusal> {
    let mut length = 0;
    let number = c::rooms_pack(store, scene, scratch, out, &mut length);
    accepted(number, length)
}

/// Writes a scene's packed file for the headset, which reads pointers of 2 bytes only and has room for depth 10; answers its length.
/// Where the answer is `Ok`, it and what is written are those of `pack`. The scratch needed, `pack_scratch_words`, may hold anything;
/// it is zero afterwards where the answer is `Ok`, `TooDeep`, `LongPointer` or `OutputShort`, else as it was.
/// Refusals, in order: `DamagedStore` (the whole store is tested), `NoScene`, `ScratchShort`, `TooDeep` (an empty scene's depth too),
/// `LongPointer` (what `pack` would write has a pointer of 4 bytes), `OutputShort`.
pub fn headset_pack(store: &[u32], scene: u32, scratch: &mut [u32], out: &mut [u8]) -> Result<u32, Refusal> {
    let mut length = 0;
    let number = c::rooms_headset_pack(store, scene, scratch, out, &mut length);
    accepted(number, length)
}

// ---- packed files read: they need no store and no trust

/// Whether a packed file is proper; answers its depth. Scratch has as many bytes as the file and may hold anything; so many are
/// zero afterwards where the answer is `Ok` or `BrokenRules`, else as they were.
/// Refusals, in order: `ScratchShort`, `BadVersion`, `BadLength`, `BadDepth`, `BrokenRules`.
pub fn check(file: &[u8], scratch: &mut [u8]) -> Result<u32, Refusal> {
    let mut depth = 0;
    let number = c::rooms_check(file, scratch, &mut depth);
    accepted(number, depth)
}

/// Whether a packed file meets the headset's profile: it is proper, its depth is at most `HEADSET_DEPTH`, and none of its pointers
/// takes 4 bytes; answers its depth. Scratch has as many bytes as the file and may hold anything; so many are zero afterwards where the
/// answer is `Ok`, `BrokenRules`, `TooDeep` or `LongPointer`, else as they were.
/// Refusals, in order: `ScratchShort`, `BadVersion`, `BadLength`, `BadDepth`, `BrokenRules`, `TooDeep`, `LongPointer`.
pub fn headset_check(file: &[u8], scratch: &mut [u8]) -> Result<u32, Refusal> {
    let mut depth = 0;
    let number = c::rooms_headset_check(file, scratch, &mut depth);
    accepted(number, depth)
}

/// A voxel of packed bytes.
#[derive(Clone, Copy, Debug, PartialEq, Eq)]
pub struct Found {
    pub solid: bool,
    /// How many records that took, the top one and a leaf among them.
    pub records: u32,
    /// As in `Voxel`.
    pub height: u32,
}

/// A voxel of a packed file. On a proper file no point inside is refused.
/// Refusals, in order: `BadVersion`, `BadLength`, `BadDepth`, `Outside`, `BrokenRules`.
pub fn packed_voxel(file: &[u8], x: u32, y: u32, z: u32) -> Result<Found, Refusal> {
    let (mut solid, mut records, mut height) = (0, 0, 0);
    let number = c::rooms_packed_voxel(file, x, y, z, &mut solid, &mut records, &mut height);
    accepted(number, Found { solid: solid == 1, records, height })
}

/// A packed file opened for many questions: its bytes beside the numbers of its header.
#[derive(Clone, Copy, Debug)]
pub struct Opened<'a> {
    bytes: &'a [u8],
    numbers: [u32; 16],
}

/// Opens a packed file: byte 6 and the sizes are tested.
/// Refusals, in order: `BadVersion`, `BadLength`, `BadDepth`, `BrokenRules`.
pub fn open(file: &[u8]) -> Result<Opened<'_>, Refusal> {
    let mut numbers = [0; 16];
    let number = c::rooms_open(file, &mut numbers);
    accepted(number, Opened { bytes: file, numbers })
}

impl Opened<'_> {
    /// The room's depth.
    pub fn depth(&self) -> u32 {
        self.numbers[0]
    }

    /// Where the list of a height, 2 to 16, begins in the bytes; 0 above the depth and for an empty scene.
    pub fn start(&self, height: u32) -> Option<u32> {
        match height {
            MIN_DEPTH..=MAX_DEPTH => Some(self.numbers[height as usize - 1]),
            _ => None,
        }
    }

    /// A voxel. Refusals, in order: `Outside`, `BrokenRules` (on its path).
    pub fn voxel(&self, x: u32, y: u32, z: u32) -> Result<Found, Refusal> {
        let (mut solid, mut records, mut height) = (0, 0, 0);
        let number = c::rooms_ask(self.bytes, &self.numbers, x, y, z, &mut solid, &mut records, &mut height);
        accepted(number, Found { solid: solid == 1, records, height })
    }
}

// ---- detail

/// What is wished for.
#[derive(Clone, Copy, Debug, PartialEq)]
pub enum Wish {
    /// Every voxel.
    EveryVoxel,
    /// A widest edge, 1 to 2^40.
    WidestEdge(f64),
    /// A distance, 0 to 2^40, with its factor, 2^-30 to 2^30.
    Distance { distance: f64, factor: f64 },
}

/// The height at which to draw a room of this depth: 0, or the greatest h <= depth with 2^h <= edge, or the greatest h <= depth
/// with 2^h times factor <= distance (0 if none). Refusals, in order: `BadDepth`, `BadWish`.
pub fn detail(depth: u32, wish: Wish) -> Result<u32, Refusal> {
    let (kind, a, b) = match wish {
        Wish::EveryVoxel => (0, 0.0, 0.0),
        Wish::WidestEdge(edge) => (1, edge, 0.0),
        Wish::Distance { distance, factor } => (2, distance, factor),
    };
    let mut height = 0;
    let number = c::rooms_detail(depth, kind, a, b, &mut height);
    accepted(number, height)
}
