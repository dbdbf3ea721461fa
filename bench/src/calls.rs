//! The proved library's calls for C: the only unsafe code of the library's use. A slice is a pointer, then a length.
use crate::boxes::Region;
use crate::questions::Point;

#[rustfmt::skip]
extern "C" {
    fn rooms_new(store: *mut u32, words: usize, capacity: u32) -> u32;
    fn rooms_add(store: *mut u32, words: usize, file: *const u8, bytes: usize, scene: *mut u32) -> u32;
    fn rooms_voxel(store: *const u32, words: usize, scene: u32, x: u32, y: u32, z: u32,
        solid: *mut u32, height: *mut u32) -> u32;
    fn rooms_sight(store: *const u32, words: usize, scene: u32, fromx: u32, fromy: u32, fromz: u32,
        tox: u32, toy: u32, toz: u32, blocked: *mut u32, x: *mut u32, y: *mut u32, z: *mut u32) -> u32;
    fn rooms_cell(store: *const u32, words: usize, scene: u32, height: u32, x: u32, y: u32, z: u32, full: *mut u32) -> u32;
    fn rooms_box(store: *const u32, words: usize, scene: u32, lowx: u32, lowy: u32, lowz: u32,
        highx: u32, highy: u32, highz: u32, count: *mut u64) -> u32;
    fn rooms_any(store: *const u32, words: usize, scene: u32, lowx: u32, lowy: u32, lowz: u32,
        highx: u32, highy: u32, highz: u32, solid: *mut u32, entered: *mut u64) -> u32;
    fn rooms_kept(store: *const u32, words: usize, height: u32, count: *mut u32) -> u32;
    fn rooms_outline(store: *const u32, words: usize, scene: u32, out: *mut u8, room: usize, length: *mut u32) -> u32;
    fn rooms_pack(store: *const u32, words: usize, scene: u32, scratch: *mut u32, lent: usize,
        out: *mut u8, room: usize, length: *mut u32) -> u32;
    fn rooms_check(file: *const u8, bytes: usize, scratch: *mut u8, lent: usize, depth: *mut u32) -> u32;
    fn rooms_packed_voxel(file: *const u8, bytes: usize, x: u32, y: u32, z: u32,
        solid: *mut u32, records: *mut u32, height: *mut u32) -> u32;
    fn rooms_open(file: *const u8, bytes: usize, numbers: *mut u32, room: usize) -> u32;
    fn rooms_ask(file: *const u8, bytes: usize, numbers: *const u32, held: usize, x: u32, y: u32, z: u32,
        solid: *mut u32, records: *mut u32, height: *mut u32) -> u32;
}

/// An answer, or the refusal's number.
pub type Answer<T> = Result<T, u32>;

#[inline]
fn answer<T>(number: u32, value: T) -> Answer<T> {
    if number == 0 {
        Ok(value)
    } else {
        Err(number)
    }
}

/// The words of a store of this capacity, and the words of scratch that packing takes.
pub fn store_words(capacity: u32) -> usize {
    let capacity = capacity as usize;
    160 + 142 * capacity + 3_840 + 15 * capacity
}

pub fn pack_words(capacity: u32) -> usize {
    60 * capacity as usize
}

pub fn new(store: &mut [u32], capacity: u32) -> Answer<()> {
    answer(
        unsafe { rooms_new(store.as_mut_ptr(), store.len(), capacity) },
        (),
    )
}

pub fn add(store: &mut [u32], file: &[u8]) -> Answer<u32> {
    let mut scene = 0;
    let (words, bytes) = (store.len(), file.len());
    let number = unsafe { rooms_add(store.as_mut_ptr(), words, file.as_ptr(), bytes, &mut scene) };
    answer(number, scene)
}

/// Whether a voxel is solid, and the height of the empty cell that holds it.
#[inline]
pub fn voxel(store: &[u32], scene: u32, x: u32, y: u32, z: u32) -> Answer<(bool, u32)> {
    let (mut solid, mut height) = (0, 0);
    let (from, words) = (store.as_ptr(), store.len());
    let number = unsafe { rooms_voxel(from, words, scene, x, y, z, &mut solid, &mut height) };
    answer(number, (solid == 1, height))
}

/// The first solid voxel that the segment between two voxels' centres meets, the ends left out.
#[inline]
pub fn sight(store: &[u32], scene: u32, from: Point, to: Point) -> Answer<Option<Point>> {
    let (mut blocked, mut x, mut y, mut z) = (0, 0, 0, 0);
    let ([a, b, c], [d, e, f]) = (from, to);
    let words = store.len();
    let number = unsafe {
        rooms_sight(
            store.as_ptr(),
            words,
            scene,
            a,
            b,
            c,
            d,
            e,
            f,
            &mut blocked,
            &mut x,
            &mut y,
            &mut z,
        )
    };
    answer(number, (blocked == 1).then_some([x, y, z]))
}

#[inline]
pub fn cell(store: &[u32], scene: u32, height: u32, x: u32, y: u32, z: u32) -> Answer<bool> {
    let mut full = 0;
    let words = store.len();
    let number = unsafe { rooms_cell(store.as_ptr(), words, scene, height, x, y, z, &mut full) };
    answer(number, full == 1)
}

#[inline]
pub fn count(store: &[u32], scene: u32, region: Region) -> Answer<u64> {
    let mut count = 0;
    let Region {
        low: [a, b, c],
        high: [d, e, f],
    } = region;
    let words = store.len();
    let number = unsafe { rooms_box(store.as_ptr(), words, scene, a, b, c, d, e, f, &mut count) };
    answer(number, count)
}

/// Whether a box holds anything solid, and the cells entered to tell.
#[inline]
pub fn anything(store: &[u32], scene: u32, region: Region) -> Answer<(bool, u64)> {
    let (mut solid, mut entered) = (0, 0);
    let Region {
        low: [a, b, c],
        high: [d, e, f],
    } = region;
    let (from, words) = (store.as_ptr(), store.len());
    let (yes, many) = (&mut solid, &mut entered);
    let number = unsafe { rooms_any(from, words, scene, a, b, c, d, e, f, yes, many) };
    answer(number, (solid == 1, entered))
}

pub fn kept(store: &[u32], height: u32) -> Answer<u32> {
    let mut count = 0;
    let number = unsafe { rooms_kept(store.as_ptr(), store.len(), height, &mut count) };
    answer(number, count)
}

pub fn outline(store: &[u32], scene: u32, out: &mut [u8]) -> Answer<usize> {
    let mut length = 0;
    let (words, room) = (store.len(), out.len());
    let to = out.as_mut_ptr();
    let number = unsafe { rooms_outline(store.as_ptr(), words, scene, to, room, &mut length) };
    answer(number, length as usize)
}

pub fn pack(store: &[u32], scene: u32, scratch: &mut [u32], out: &mut [u8]) -> Answer<usize> {
    let mut length = 0;
    let (words, lent, room) = (store.len(), scratch.len(), out.len());
    let (with, to) = (scratch.as_mut_ptr(), out.as_mut_ptr());
    let number = unsafe {
        rooms_pack(
            store.as_ptr(),
            words,
            scene,
            with,
            lent,
            to,
            room,
            &mut length,
        )
    };
    answer(number, length as usize)
}

pub fn check(file: &[u8], scratch: &mut [u8]) -> Answer<u32> {
    let mut depth = 0;
    let (bytes, lent) = (file.len(), scratch.len());
    let with = scratch.as_mut_ptr();
    let number = unsafe { rooms_check(file.as_ptr(), bytes, with, lent, &mut depth) };
    answer(number, depth)
}

/// Whether a voxel of a packed scene is solid, the records read, and the height of the empty cell that holds it.
#[inline]
pub fn packed_voxel(file: &[u8], x: u32, y: u32, z: u32) -> Answer<(bool, u32, u32)> {
    let (mut solid, mut records, mut height) = (0, 0, 0);
    let bytes = file.len();
    let number = unsafe {
        rooms_packed_voxel(
            file.as_ptr(),
            bytes,
            x,
            y,
            z,
            &mut solid,
            &mut records,
            &mut height,
        )
    };
    answer(number, (solid == 1, records, height))
}

/// The numbers that an opened scene holds beside its bytes: its depth and where each list starts.
pub type Numbers = [u32; 16];

pub fn open(file: &[u8]) -> Answer<Numbers> {
    let mut numbers = [0; 16];
    let number = unsafe {
        rooms_open(
            file.as_ptr(),
            file.len(),
            numbers.as_mut_ptr(),
            numbers.len(),
        )
    };
    answer(number, numbers)
}

#[inline]
pub fn ask(file: &[u8], numbers: &Numbers, x: u32, y: u32, z: u32) -> Answer<(bool, u32, u32)> {
    let (mut solid, mut records, mut height) = (0, 0, 0);
    let (from, held) = (numbers.as_ptr(), numbers.len());
    let bytes = file.len();
    let number = unsafe {
        rooms_ask(
            file.as_ptr(),
            bytes,
            from,
            held,
            x,
            y,
            z,
            &mut solid,
            &mut records,
            &mut height,
        )
    };
    answer(number, (solid == 1, records, height))
}
