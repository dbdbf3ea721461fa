//! Document 01 written once more, in plain Rust, slow and clear: its thirteen calls on slices, with what document 02 adds to them
//! (its request 2: the height of the empty cell; its request 3: sight lines; its request 1: the solid count kept with each inner
//! cell; its request 5: is anything in the way; its request 10: chains, by which equal cells are found; its request 4: popularity counts
//! pointers; its request 12: the headset profile). It shares no code with the proved store; the tests compare the two.
//!
//! A call answers its values, or a refusal: its number and which clause of document 01 it was. Lent memory is changed as the
//! page says. Where the page's words would take for ever (does a cell match itself; is a leaf an image of one before it; has a cell anything
//! in a box), what was found once is remembered; nothing else is done for speed.

use std::collections::{HashMap, HashSet};

pub type Words = [u32];
pub type Bytes = [u8];
type Point = [u64; 3];

const MAX_LENGTH: u128 = 4_294_967_295;

/// A refusal: its number, and the clause that it comes from.
#[derive(Clone, Copy, Debug, PartialEq, Eq)]
pub struct Refused {
    pub number: u32,
    pub clause: &'static str,
}

pub type Answer<T> = Result<T, Refused>;

fn refused(number: u32, clause: &'static str) -> Refused {
    Refused { number, clause }
}

/// Nothing where a clause holds, else its refusal.
fn need(holds: bool, number: u32, clause: &'static str) -> Answer<()> {
    if holds {
        Ok(())
    } else {
        Err(refused(number, clause))
    }
}

// ---- mirrors

fn mirror(t: u32, edge: u64, v: Point) -> Point {
    let mut w = v;
    for axis in 0..3 {
        if t >> axis & 1 == 1 {
            w[axis] = edge - 1 - v[axis];
        }
    }
    w
}

/// A box (low <= v < high) mirrored in a cube.
fn mirror_box(t: u32, edge: u64, low: Point, high: Point) -> (Point, Point) {
    let (mut l, mut h) = (low, high);
    for axis in 0..3 {
        if t >> axis & 1 == 1 {
            l[axis] = edge - high[axis];
            h[axis] = edge - low[axis];
        }
    }
    (l, h)
}

fn leaf_bit(leaf: u64, v: Point) -> bool {
    leaf >> (v[0] + 4 * v[1] + 16 * v[2]) & 1 == 1
}

fn mirror_leaf(t: u32, leaf: u64) -> u64 {
    let mut image = 0;
    for z in 0..4 {
        for y in 0..4 {
            for x in 0..4 {
                if leaf_bit(leaf, mirror(t, 4, [x, y, z])) {
                    image |= 1 << (x + 4 * y + 16 * z);
                }
            }
        }
    }
    image
}

/// The number of the child that holds a voxel, and the voxel in it.
fn child_of(edge: u64, v: Point) -> (usize, Point) {
    let half = edge / 2;
    let i = v[0] / half + 2 * (v[1] / half) + 4 * (v[2] / half);
    (i as usize, [v[0] % half, v[1] % half, v[2] % half])
}

fn corner(half: u64, i: usize) -> Point {
    [(i as u64 & 1) * half, (i as u64 >> 1 & 1) * half, (i as u64 >> 2 & 1) * half]
}

// ---- the store

/// The words of header, scenes, leaves and cells.
fn lists(c: u64) -> u64 {
    160 + 142 * c
}

/// All words: behind the lists the heads of 256 chains for each height, and a next word for each cell.
fn used(c: u64) -> u64 {
    lists(c) + 3_840 + 15 * c
}

fn tag(p: u32) -> u32 {
    p >> 29
}

fn low29(p: u32) -> u32 {
    p & 0x1fff_ffff
}

/// The number of the kept cell that a pointer names.
fn number(p: u32) -> usize {
    low29(p) as usize - 1
}

fn pointer(tag: u32, number: usize) -> u32 {
    tag << 29 | (number as u32 + 1)
}

fn header_ok(w: &Words) -> bool {
    if w.is_empty() || w[0] < 1 || w[0] > 65_536 || (w.len() as u64) < used(w[0] as u64) {
        return false;
    }
    w[1] <= 64 && (2..=16).all(|h| w[h] <= w[0]) && (17..32).all(|i| w[i] == 0)
}

fn place(w: &Words, h: usize, n: usize) -> usize {
    let c = w[0] as usize;
    if h == 2 {
        160 + 2 * n
    } else {
        160 + 2 * c + 10 * ((h - 3) * c + n)
    }
}

fn leaf_at(w: &Words, n: usize) -> u64 {
    let at = place(w, 2, n);
    (w[at] as u64) << 32 | w[at + 1] as u64
}

fn cell_at(w: &Words, h: usize, n: usize) -> [u32; 8] {
    let at = place(w, h, n);
    let mut c = [0; 8];
    c.copy_from_slice(&w[at..at + 8]);
    c
}

/// The solid count kept with a cell of height 3 and up: two words behind its eight pointers, high first.
fn count_at(w: &Words, h: usize, n: usize) -> u64 {
    let at = place(w, h, n) + 8;
    (w[at] as u64) << 32 | w[at + 1] as u64
}

/// What a child of height h gives to its parent's count: a leaf its ones, any other its own count, none nothing.
fn share(w: &Words, h: usize, p: u32) -> u64 {
    match (p, h) {
        (0, _) => 0,
        (_, 2) => leaf_at(w, number(p)).count_ones() as u64,
        _ => count_at(w, h, number(p)),
    }
}

/// The sum of eight children's shares, as a whole number.
fn shares(w: &Words, h: usize, cell: [u32; 8]) -> u128 {
    cell.iter().map(|&p| share(w, h - 1, p) as u128).sum()
}

// ---- chains: a head and a next word are a cell's number plus 1, or 0

/// Where the head of chain k of height h stands.
fn head_place(w: &Words, h: usize, k: usize) -> usize {
    lists(w[0] as u64) as usize + 256 * (h - 2) + k
}

/// Where the next word of cell n of height h stands.
fn next_place(w: &Words, h: usize, n: usize) -> usize {
    lists(w[0] as u64) as usize + 3_840 + (h - 2) * w[0] as usize + n
}

/// A leaf's chain: its number of ones.
fn leaf_chain(leaf: u64) -> usize {
    leaf.count_ones() as usize
}

/// An inner cell's chain: the top byte of its key, the sum of (number plus 1) times 2,654,435,761 over its pointers, modulo 2^32. Mirroring
/// changes the pointers' places and tags, so not the key.
fn cell_chain(cell: [u32; 8]) -> usize {
    let key = cell.iter().map(|&p| low29(p) as u64 * 2_654_435_761 % (1 << 32)).sum::<u64>() % (1 << 32);
    (key >> 24) as usize
}

/// The chain of kept cell n of height h.
fn chain(w: &Words, h: usize, n: usize) -> usize {
    if h == 2 {
        leaf_chain(leaf_at(w, n))
    } else {
        cell_chain(cell_at(w, h, n))
    }
}

/// The numbers of the cells of chain k of height h, rising, in a store whose chains are right.
fn along(w: &Words, h: usize, k: usize) -> Vec<usize> {
    let mut numbers = Vec::new();
    let mut next = w[head_place(w, h, k)];
    while next != 0 {
        let n = next as usize - 1;
        numbers.push(n);
        next = w[next_place(w, h, n)];
    }
    numbers
}

/// Puts kept cell n of height h, the greatest number there, at the end of its chain.
fn link(w: &mut Words, h: usize, n: usize) {
    let k = chain(w, h, n);
    let at = match along(w, h, k).last() {
        None => head_place(w, h, k),
        Some(&last) => next_place(w, h, last),
    };
    w[at] = n as u32 + 1;
}

/// The heads and next words of height h are those of its kept cells: each chain has the cells of its key, numbers rising; unused numbers
/// have next words of 0.
fn chains(w: &Words, h: usize) -> Answer<()> {
    let (count, c) = (w[h] as usize, w[0] as usize);
    let mut heads = [0; 256];
    let mut nexts = vec![0; c];
    for n in (0..count).rev() {
        // all greater numbers are in their chains: this one goes before them
        let k = chain(w, h, n);
        nexts[n] = heads[k];
        heads[k] = n as u32 + 1;
    }
    let (head, next) = (head_place(w, h, 0), next_place(w, h, 0));
    need(w[head..head + 256] == heads, 2, "chain head")?;
    need(w[next..next + count] == nexts[..count], 2, "next word")?;
    need(w[next + count..next + c] == nexts[count..], 2, "unused next word")
}

/// A pointer that claims to name a cell of the height pointed to and does not.
fn bad(w: &Words, h: usize, p: u32) -> bool {
    p != 0 && !(low29(p) >= 1 && low29(p) <= w[h])
}

fn depth_ok(d: u32) -> bool {
    (2..=16).contains(&d)
}

fn scene(w: &Words, n: usize) -> (u32, u32) {
    (w[32 + 2 * n], w[33 + 2 * n])
}

fn scene_ok(w: &Words, n: usize) -> bool {
    let (d, p) = scene(w, n);
    depth_ok(d) && !bad(w, d as usize, p)
}

/// The whole store's test of add, outline and pack: header, scenes, every used cell with its count, nothing in unused words, and the
/// chains.
fn whole_store(w: &Words) -> Answer<()> {
    need(header_ok(w), 2, "header")?;
    let c = w[0] as usize;
    let held = w[1] as usize;
    need((0..held).all(|n| scene_ok(w, n)), 2, "scene")?;
    need(zero(&w[32 + 2 * held..160]), 2, "unused scene words")?;
    for h in 2..=16 {
        let count = w[h] as usize;
        for n in 0..count {
            if h == 2 {
                need(leaf_at(w, n) != 0, 2, "empty leaf")?;
            } else {
                let cell = cell_at(w, h, n);
                need(!zero(&cell), 2, "empty cell")?;
                need(!cell.iter().any(|&p| bad(w, h - 1, p)), 2, "pointer")?;
                need(count_at(w, h, n) as u128 == shares(w, h, cell), 2, "count")?;
            }
        }
        need(zero(&w[place(w, h, count)..place(w, h, c)]), 2, "unused words")?;
    }
    for h in 2..=16 {
        chains(w, h)?;
    }
    Ok(())
}

fn zero(words: &[u32]) -> bool {
    words.iter().all(|&x| x == 0)
}

/// New store: 1.
pub fn new_store(w: &mut Words, c: u32) -> Answer<()> {
    need((1..=65_536).contains(&c), 1, "capacity")?;
    need(w.len() as u64 >= used(c as u64), 1, "words")?;
    w[..used(c as u64) as usize].fill(0);
    w[0] = c;
    Ok(())
}

// ---- questions: 2 (header), 9, 2 (the scene's two words), 10, 2 (walk)

/// The scene's depth and root pointer.
fn asked(w: &Words, n: u32) -> Answer<(usize, u32)> {
    need(header_ok(w), 2, "header")?;
    need(n < w[1], 9, "scene")?;
    need(scene_ok(w, n as usize), 2, "scene")?;
    let (d, p) = scene(w, n as usize);
    Ok((d as usize, p))
}

/// The eight pointers of a cell entered, none of them bad.
fn entered(w: &Words, h: usize, n: usize) -> Answer<[u32; 8]> {
    let cell = cell_at(w, h, n);
    need(!cell.iter().any(|&q| bad(w, h - 1, q)), 2, "walk")?;
    Ok(cell)
}

/// Under a pointer to height h: solid, and the height of the absent child that ended the walk, 0 in a leaf.
fn voxel_under(w: &Words, h: usize, p: u32, v: Point) -> Answer<(u32, u32)> {
    if p == 0 {
        return Ok((0, h as u32));
    }
    let edge = 1u64 << h;
    let v = mirror(tag(p), edge, v);
    let n = number(p);
    if h == 2 {
        return Ok((leaf_bit(leaf_at(w, n), v) as u32, 0));
    }
    let cell = entered(w, h, n)?;
    let (i, u) = child_of(edge, v);
    voxel_under(w, h - 1, cell[i], u)
}

/// Voxel: 1 for solid, 0 for empty; the height of the empty cell that holds it, D for an empty scene.
pub fn voxel(w: &Words, n: u32, x: u32, y: u32, z: u32) -> Answer<(u32, u32)> {
    let (d, p) = asked(w, n)?;
    let v = [x as u64, y as u64, z as u64];
    need(v.iter().all(|&c| c < 1 << d), 10, "point")?;
    voxel_under(w, d, p, v)
}

/// The voxels that the segment between two voxels' centres meets, one after another, both ends among them.
///
/// On the doubled grid centres are odd and faces even. With a distance of n between its ends on an axis, the segment crosses n faces there, at
/// the odd multiples of 1 / 2n of its length; with a length of twice the product of the distances that are not 0 each crossing lies at a
/// whole number. There the segment lies on a face, so in no voxel. From one crossing to the next it lies in one voxel, that of the
/// point halfway.
fn met(from: Point, to: Point) -> impl Iterator<Item = Point> {
    let distances: [i128; 3] = std::array::from_fn(|axis| from[axis].abs_diff(to[axis]) as i128);
    let length = 2 * distances.iter().filter(|&&n| n > 0).product::<i128>();
    let crossing_after = move |moment: i128| {
        let on_axis = |&n: &i128| {
            let part = length / (2 * n);
            let multiple = moment / part + 1;
            part * (multiple + (multiple + 1) % 2)
        };
        distances.iter().filter(|&&n| n > 0).map(on_axis).min().unwrap_or(length)
    };
    let voxel_at = move |moment: i128, length: i128| -> Point {
        std::array::from_fn(|axis| {
            let (a, b) = (from[axis] as i128, to[axis] as i128);
            (((2 * a + 1) * length + 2 * (b - a) * moment) / (2 * length)) as u64
        })
    };
    let mut moment = 0;
    std::iter::from_fn(move || {
        if moment == length {
            return None;
        }
        let before = moment;
        moment = crossing_after(moment).min(length);
        Some(voxel_at(before + moment, 2 * length))
    })
}

/// Sight line: the first solid voxel that the segment meets, the ends left out.
pub fn sight(w: &Words, n: u32, from: [u32; 3], to: [u32; 3]) -> Answer<Option<[u32; 3]>> {
    let (d, p) = asked(w, n)?;
    let (from, to) = (from.map(u64::from), to.map(u64::from));
    need(from.iter().all(|&c| c < 1 << d), 10, "from")?;
    need(to.iter().all(|&c| c < 1 << d), 10, "to")?;
    for v in met(from, to).filter(|&v| v != from && v != to) {
        if voxel_under(w, d, p, v)?.0 == 1 {
            return Ok(Some(v.map(|c| c as u32)));
        }
    }
    Ok(None)
}

/// The cube of height `stop` with this low corner, under a pointer of height h.
fn cell_under(w: &Words, h: usize, p: u32, stop: usize, low: Point) -> Answer<u32> {
    if p == 0 {
        return Ok(0);
    }
    if h == stop && h >= 2 {
        return Ok(1);
    }
    let edge = 1u64 << h;
    let size = 1u64 << stop;
    let high = [low[0] + size, low[1] + size, low[2] + size];
    let (low, high) = mirror_box(tag(p), edge, low, high);
    let n = number(p);
    if h == 2 {
        let leaf = leaf_at(w, n);
        let full = (low[0]..high[0]).any(|x| (low[1]..high[1]).any(|y| (low[2]..high[2]).any(|z| leaf_bit(leaf, [x, y, z]))));
        return Ok(full as u32);
    }
    let cell = entered(w, h, n)?;
    let (i, u) = child_of(edge, low);
    cell_under(w, h - 1, cell[i], stop, u)
}

/// Cell: 1 for non-empty, 0 for empty.
pub fn cell(w: &Words, n: u32, h: u32, x: u32, y: u32, z: u32) -> Answer<u32> {
    let (d, p) = asked(w, n)?;
    need(h as usize <= d, 10, "height")?;
    let h = h as usize;
    let v = [x as u64, y as u64, z as u64];
    need(v.iter().all(|&c| c < 1 << (d - h)), 10, "point")?;
    cell_under(w, d, p, h, v.map(|c| c << h))
}

fn box_under(w: &Words, h: usize, p: u32, low: Point, high: Point) -> Answer<u64> {
    if p == 0 || (0..3).any(|a| low[a] >= high[a]) {
        return Ok(0);
    }
    let edge = 1u64 << h;
    let n = number(p);
    if h >= 3 && low == [0; 3] && high == [edge; 3] {
        // wholly inside: its count is taken, the cell not entered
        let count = count_at(w, h, n);
        need(count <= 8u64.pow(h as u32), 2, "count taken")?;
        return Ok(count);
    }
    let (low, high) = mirror_box(tag(p), edge, low, high);
    box_in(w, h, n, low, high)
}

fn box_in(w: &Words, h: usize, n: usize, low: Point, high: Point) -> Answer<u64> {
    if h == 2 {
        let leaf = leaf_at(w, n);
        let mut sum = 0;
        for x in low[0]..high[0] {
            for y in low[1]..high[1] {
                for z in low[2]..high[2] {
                    sum += leaf_bit(leaf, [x, y, z]) as u64;
                }
            }
        }
        return Ok(sum);
    }
    let parts = parts_of(h, cell_at(w, h, n), low, high);
    need(!parts.iter().any(|&(p, _, _)| bad(w, h - 1, p)), 2, "walk")?;
    let mut sum = 0;
    for (p, l, g) in parts {
        sum += box_under(w, h - 1, p, l, g)?;
    }
    Ok(sum)
}

/// The children of a cell of height h that share a voxel with a box in it, by rising number: the pointer, and the part of the box in it.
fn parts_of(h: usize, children: [u32; 8], low: Point, high: Point) -> Vec<(u32, Point, Point)> {
    let half = 1u64 << (h - 1);
    (0..8)
        .map(|i| {
            let c = corner(half, i);
            let cut = |x: u64, a: usize| x.clamp(c[a], c[a] + half) - c[a];
            (children[i], [cut(low[0], 0), cut(low[1], 1), cut(low[2], 2)], [cut(high[0], 0), cut(high[1], 1), cut(high[2], 2)])
        })
        .filter(|(_, l, h)| (0..3).all(|a| l[a] < h[a]))
        .collect()
}

/// 10 of a box in a room of depth d.
fn box_fits(d: usize, low: [u32; 3], high: [u32; 3]) -> Answer<()> {
    need((0..3).all(|a| low[a] <= high[a]), 10, "low above high")?;
    need((0..3).all(|a| high[a] as u64 <= 1 << d), 10, "box")
}

/// Box: the solid voxels from the low corner up to the high one, which is outside.
pub fn box_count(w: &Words, n: u32, low: [u32; 3], high: [u32; 3]) -> Answer<u64> {
    let (d, p) = asked(w, n)?;
    box_fits(d, low, high)?;
    box_under(w, d, p, low.map(u64::from), high.map(u64::from))
}

/// How many cells were entered where a cell, by height, number and mirror, has nothing solid in a box in it. (Memory of what was found, or
/// the page's words would take for ever: what is found there, and on the way, hangs on nothing else.)
type Nothings = HashMap<(usize, usize, u32, Point, Point), u64>;

/// Cell n of height h is entered, which the room shows under mirror t: has it anything solid in this box, and how many cells were
/// entered for that, itself among them.
fn any_in(w: &Words, h: usize, n: usize, t: u32, low: Point, high: Point, known: &mut Nothings) -> Answer<(bool, u64)> {
    let key = (h, n, t, low, high);
    if let Some(&entered) = known.get(&key) {
        return Ok((false, entered));
    }
    let mut entered = 1;
    if h == 2 {
        let leaf = mirror_leaf(t, leaf_at(w, n));
        let solid = (low[0]..high[0]).any(|x| (low[1]..high[1]).any(|y| (low[2]..high[2]).any(|z| leaf_bit(leaf, [x, y, z]))));
        return Ok((solid, entered));
    }
    // child i of a mirrored cell is the mirrored child (i xor t)
    let cell = cell_at(w, h, n);
    let parts = parts_of(h, std::array::from_fn(|i| cell[i ^ t as usize]), low, high);
    need(!parts.iter().any(|&(p, _, _)| bad(w, h - 1, p)), 2, "walk")?;
    for (p, l, g) in parts.into_iter().filter(|&(p, _, _)| p != 0) {
        let (solid, more) = any_in(w, h - 1, number(p), tag(p) ^ t, l, g, known)?;
        entered += more;
        if solid {
            return Ok((true, entered));
        }
    }
    known.insert(key, entered);
    Ok((false, entered))
}

/// Anything in the way: whether a voxel from the low corner up to the high one, which is outside, is solid, and the cells entered up to
/// that answer.
pub fn anything(w: &Words, n: u32, low: [u32; 3], high: [u32; 3]) -> Answer<(bool, u64)> {
    let (d, p) = asked(w, n)?;
    box_fits(d, low, high)?;
    if p == 0 || (0..3).any(|a| low[a] == high[a]) {
        return Ok((false, 0));
    }
    any_in(w, d, number(p), tag(p), low.map(u64::from), high.map(u64::from), &mut HashMap::new())
}

/// Kept: 2 (header), 10.
pub fn kept(w: &Words, h: u32) -> Answer<u32> {
    need(header_ok(w), 2, "header")?;
    need((2..=16).contains(&h), 10, "height")?;
    Ok(w[h as usize])
}

// ---- outlines

enum Tree {
    Leaf(u64),
    Node([Option<Box<Tree>>; 8]),
}

/// The record of a cell of height h at a position, and the position after it.
fn read_record(file: &Bytes, h: u32, at: usize) -> Answer<(Tree, usize)> {
    if h == 2 {
        let eight = file.get(at..at + 8).ok_or(refused(6, "leaf cut"))?;
        let leaf = u64::from_be_bytes(eight.try_into().unwrap());
        need(leaf != 0, 6, "leaf zero")?;
        return Ok((Tree::Leaf(leaf), at + 8));
    }
    let mask = *file.get(at).ok_or(refused(6, "mask cut"))?;
    need(mask != 0, 6, "mask zero")?;
    let mut next = at + 1;
    let mut children: [Option<Box<Tree>>; 8] = Default::default();
    for (i, child) in children.iter_mut().enumerate() {
        if mask >> i & 1 == 1 {
            let (t, after) = read_record(file, h - 1, next)?;
            *child = Some(Box::new(t));
            next = after;
        }
    }
    Ok((Tree::Node(children), next))
}

/// 3, 4, 5, 6, or the depth and the root.
fn read_outline(file: &Bytes) -> Answer<(u32, Option<Tree>)> {
    let d = front(file, 0x11, 6)?;
    if file.len() == 6 {
        return Ok((d, None));
    }
    let (root, end) = read_record(file, d, 6)?;
    need(end == file.len(), 6, "bytes follow")?;
    Ok((d, Some(root)))
}

/// The front of a file, outline or packed: 3, 4, 5, or the depth.
fn front(file: &Bytes, version: u8, least: usize) -> Answer<u32> {
    need(!file.is_empty(), 3, "empty")?;
    need(file[0] == version, 3, "version")?;
    need(file.len() >= least, 4, "short")?;
    need(be(&file[1..5]) == file.len() as u64, 4, "length field")?;
    need(depth_ok(file[5] as u32), 5, "depth")?;
    Ok(file[5] as u32)
}

fn be(bytes: &Bytes) -> u64 {
    bytes.iter().fold(0, |n, &b| n << 8 | b as u64)
}

// ---- adding

/// Does kept cell n of height h match itself under t. (Memory of what was asked, or the page's words would take for ever.)
type Selves = HashMap<(usize, usize, u32), bool>;

fn self_match(w: &Words, h: usize, n: usize, t: u32, known: &mut Selves) -> bool {
    if let Some(&b) = known.get(&(h, n, t)) {
        return b;
    }
    let b = if h == 2 {
        let l = leaf_at(w, n);
        l == mirror_leaf(t, l)
    } else {
        let c = cell_at(w, h, n);
        cells_match(w, h, c, c, t, known)
    };
    known.insert((h, n, t), b);
    b
}

/// The match rule for two cells of height h.
fn cells_match(w: &Words, h: usize, a: [u32; 8], b: [u32; 8], t: u32, known: &mut Selves) -> bool {
    (0..8).all(|i| {
        let (p, q) = (a[i], b[i ^ t as usize]);
        (p == 0 && q == 0) || (p != 0 && q != 0 && low29(p) == low29(q) && self_match(w, h - 1, number(p), tag(p) ^ tag(q) ^ t, known))
    })
}

/// A tree of height h added: its pointer, or 8. Each cell is sought along its chain: whatever matches it under some mirror is there.
fn add_tree(w: &mut Words, h: usize, tree: &Tree, known: &mut Selves) -> Answer<u32> {
    match tree {
        Tree::Leaf(leaf) => {
            for n in along(w, 2, leaf_chain(*leaf)) {
                for t in 0..8 {
                    if *leaf == mirror_leaf(t, leaf_at(w, n)) {
                        return Ok(pointer(t, n));
                    }
                }
            }
            let n = room(w, 2)?;
            let at = place(w, 2, n);
            w[at] = (leaf >> 32) as u32;
            w[at + 1] = *leaf as u32;
            w[2] += 1;
            link(w, 2, n);
            Ok(pointer(0, n))
        }
        Tree::Node(children) => {
            let mut cell = [0; 8];
            for i in 0..8 {
                if let Some(child) = &children[i] {
                    cell[i] = add_tree(w, h - 1, child, known)?;
                }
            }
            for n in along(w, h, cell_chain(cell)) {
                for t in 0..8 {
                    if cells_match(w, h, cell, cell_at(w, h, n), t, known) {
                        return Ok(pointer(t, n));
                    }
                }
            }
            let n = room(w, h)?;
            let at = place(w, h, n);
            // the store was tested whole, so no count is over 8^h
            let count = shares(w, h, cell) as u64;
            w[at..at + 8].copy_from_slice(&cell);
            w[at + 8] = (count >> 32) as u32;
            w[at + 9] = count as u32;
            w[h] += 1;
            link(w, h, n);
            Ok(pointer(0, n))
        }
    }
}

/// The next number at a height.
fn room(w: &Words, h: usize) -> Answer<usize> {
    need(w[h] < w[0], 8, if h == 2 { "leaves" } else { "cells" })?;
    Ok(w[h] as usize)
}

/// Add: 2,3,4,5,6,7,8; the scene's number.
pub fn add(w: &mut Words, file: &Bytes) -> Answer<u32> {
    whole_store(w)?;
    let (d, tree) = read_outline(file)?;
    need(w[1] < 64, 7, "scenes")?;
    let before = w.to_vec();
    let root = match &tree {
        None => Ok(0),
        Some(t) => add_tree(w, d as usize, t, &mut HashMap::new()),
    };
    match root {
        Err(r) => {
            w.copy_from_slice(&before);
            Err(r)
        }
        Ok(p) => {
            let n = w[1];
            w[32 + 2 * n as usize] = d;
            w[33 + 2 * n as usize] = p;
            w[1] += 1;
            Ok(n)
        }
    }
}

// ---- outline out

fn record_length(w: &Words, h: usize, n: usize, known: &mut HashMap<(usize, usize), u128>) -> u128 {
    if h == 2 {
        return 8;
    }
    if let Some(&l) = known.get(&(h, n)) {
        return l;
    }
    let cell = cell_at(w, h, n);
    let mut sum = 1;
    for p in cell {
        if p != 0 {
            sum += record_length(w, h - 1, number(p), known);
        }
    }
    known.insert((h, n), sum);
    sum
}

/// The record of what a pointer names, mirrored by t besides: child i of a mirrored cell is the mirrored child (i xor t).
fn write_record(w: &Words, h: usize, p: u32, t: u32, out: &mut Vec<u8>) {
    let m = tag(p) ^ t;
    let n = number(p);
    if h == 2 {
        out.extend(mirror_leaf(m, leaf_at(w, n)).to_be_bytes());
        return;
    }
    let cell = cell_at(w, h, n);
    let child = |i: usize| cell[i ^ m as usize];
    out.push((0..8).map(|i| ((child(i) != 0) as u8) << i).sum());
    for i in 0..8 {
        if child(i) != 0 {
            write_record(w, h - 1, child(i), m, out);
        }
    }
}

/// Outline out: 2, 9, 12; the length written.
pub fn outline(w: &Words, n: u32, out: &mut Bytes) -> Answer<u32> {
    whole_store(w)?;
    need(n < w[1], 9, "scene")?;
    let (d, p) = scene(w, n as usize);
    let length = 6 + if p == 0 { 0 } else { record_length(w, d as usize, number(p), &mut HashMap::new()) };
    need(length <= MAX_LENGTH, 12, "length field")?;
    need(length <= out.len() as u128, 12, "output")?;
    let mut file = vec![0x11];
    file.extend((length as u32).to_be_bytes());
    file.push(d as u8);
    if p != 0 {
        write_record(w, d as usize, p, 0, &mut file);
    }
    out[..file.len()].copy_from_slice(&file);
    Ok(length as u32)
}

// ---- packing

fn code(place: u32) -> u32 {
    if place <= 8191 {
        1
    } else {
        2
    }
}

fn packed_scene(w: &Words, d: usize, p: u32) -> Vec<u8> {
    let mut file = vec![0x22, 0, 0, 0, 0, d as u8, if p == 0 { 8 } else { tag(p) as u8 }];
    if p != 0 {
        // from the root down: the cells of each height in their order
        let mut lists: HashMap<usize, Vec<usize>> = HashMap::new();
        lists.insert(d, vec![number(p)]);
        for h in (2..d).rev() {
            // every pointer from the height above counts
            let mut popularity: HashMap<usize, u32> = HashMap::new();
            for &n in &lists[&(h + 1)] {
                for &q in cell_at(w, h + 1, n).iter().filter(|&&q| q != 0) {
                    *popularity.entry(number(q)).or_insert(0) += 1;
                }
            }
            let mut order: Vec<usize> = popularity.keys().copied().collect();
            order.sort_by_key(|q| (std::cmp::Reverse(popularity[q]), *q));
            lists.insert(h, order);
        }
        // from the leaves up: where each record stands, and the bytes
        let mut places: HashMap<(usize, usize), u32> = HashMap::new();
        let mut sizes: HashMap<usize, u32> = HashMap::new();
        let mut bytes: HashMap<usize, Vec<u8>> = HashMap::new();
        for h in 2..=d {
            let mut list = Vec::new();
            for (i, &n) in lists[&h].iter().enumerate() {
                if h == 2 {
                    places.insert((2, n), i as u32);
                    list.extend(leaf_at(w, n).to_be_bytes());
                    continue;
                }
                places.insert((h, n), list.len() as u32 / 2);
                let cell = cell_at(w, h, n);
                let mut header = 0u16;
                let mut rest = Vec::new();
                for (i, &q) in cell.iter().enumerate() {
                    if q == 0 {
                        continue;
                    }
                    let at = places[&(h - 1, number(q))];
                    header |= (code(at) as u16) << (2 * i);
                    if code(at) == 1 {
                        rest.extend(((tag(q) as u16) << 13 | at as u16).to_be_bytes());
                    } else {
                        rest.extend((tag(q) << 29 | at).to_be_bytes());
                    }
                }
                list.extend(header.to_be_bytes());
                list.extend(rest);
            }
            sizes.insert(h, if h == 2 { lists[&2].len() as u32 } else { list.len() as u32 / 2 });
            bytes.insert(h, list);
        }
        for h in (2..=d).rev() {
            file.extend(sizes[&h].to_be_bytes());
        }
        for h in (2..=d).rev() {
            file.extend(&bytes[&h]);
        }
    }
    let length = (file.len() as u32).to_be_bytes();
    file[1..5].copy_from_slice(&length);
    file
}

/// 2, 9, 11, or the packed file of a scene; from there on scratch is zero, whatever else is answered.
fn packing(w: &Words, n: u32, scratch: &mut Words) -> Answer<Vec<u8>> {
    whole_store(w)?;
    need(n < w[1], 9, "scene")?;
    let size = 60 * w[0] as usize;
    need(scratch.len() >= size, 11, "scratch")?;
    scratch[..size].fill(0);
    let (d, p) = scene(w, n as usize);
    Ok(packed_scene(w, d as usize, p))
}

/// 12, or the file put into the output and its length.
fn put(file: &Bytes, out: &mut Bytes) -> Answer<u32> {
    need(file.len() <= out.len(), 12, "output")?;
    out[..file.len()].copy_from_slice(file);
    Ok(file.len() as u32)
}

/// Pack: 2,9,11,12; the length written.
pub fn pack(w: &Words, n: u32, scratch: &mut Words, out: &mut Bytes) -> Answer<u32> {
    let file = packing(w, n, scratch)?;
    put(&file, out)
}

/// Headset packing: 2,9,11,14,15,12; the length written. What pack would write is read as any packed file is.
pub fn headset_pack(w: &Words, n: u32, scratch: &mut Words, out: &mut Bytes) -> Answer<u32> {
    let file = packing(w, n, scratch)?;
    Packed::front(&file).expect("what is packed has a front").fits_headset()?;
    put(&file, out)
}

// ---- packed bytes

#[derive(Clone, Copy, Default)]
struct Link {
    code: u32,
    tag: u32,
    place: u32,
}

struct Packed<'a> {
    file: &'a Bytes,
    depth: usize,
    root: u8,
}

type Known = HashMap<(usize, u64, u32), bool>;

impl<'a> Packed<'a> {
    /// 3, 4, 5, or the file by its first bytes.
    fn front(file: &'a Bytes) -> Answer<Packed<'a>> {
        let depth = front(file, 0x22, 7)? as usize;
        Ok(Packed { file, depth, root: file[6] })
    }

    fn empty(&self) -> bool {
        self.root == 8
    }

    /// Byte 6: a mirror, or the mark of an empty scene in a file that ends with it; and the sizes against the length.
    fn head(&self) -> Answer<()> {
        need(self.root <= 8, 6, "byte 6")?;
        if self.empty() {
            return need(self.file.len() == 7, 6, "byte 6 is 8");
        }
        let sizes = 4 * (self.depth - 1);
        need(self.file.len() >= 7 + sizes, 6, "sizes cut")?;
        let body: u64 = (2..=self.depth).map(|h| self.size(h) * self.unit(h)).sum();
        need(7 + sizes as u64 + body == self.file.len() as u64, 6, "sizes")
    }

    fn unit(&self, h: usize) -> u64 {
        if h == 2 {
            8
        } else {
            2
        }
    }

    fn size(&self, h: usize) -> u64 {
        let at = 7 + 4 * (self.depth - h);
        be(&self.file[at..at + 4])
    }

    fn start(&self, h: usize) -> u64 {
        7 + 4 * (self.depth as u64 - 1) + (h + 1..=self.depth).map(|g| self.size(g) * self.unit(g)).sum::<u64>()
    }

    fn list(&self, h: usize) -> &'a Bytes {
        let from = self.start(h) as usize;
        &self.file[from..from + (self.size(h) * self.unit(h)) as usize]
    }

    /// The eight links of the record at a place, and its half-words.
    fn record(&self, h: usize, place: u64) -> Answer<([Link; 8], u64)> {
        let list = self.list(h);
        let at = 2 * place as usize;
        let header = be(list.get(at..at + 2).ok_or(refused(6, "header cut"))?) as u32;
        need(header != 0, 6, "header zero")?;
        need((0..8).all(|i| header >> (2 * i) & 3 != 3), 6, "code 3")?;
        let mut links = [Link::default(); 8];
        let mut next = at + 2;
        for (i, link) in links.iter_mut().enumerate() {
            let code = header >> (2 * i) & 3;
            let v = be(list.get(next..next + 2 * code as usize).ok_or(refused(6, "record cut"))?) as u32;
            next += 2 * code as usize;
            *link = match code {
                0 => Link::default(),
                1 => Link { code, tag: v >> 13, place: v & 0x1fff },
                _ => Link { code, tag: v >> 29, place: v & 0x1fff_ffff },
            };
        }
        Ok((links, ((next - at) / 2) as u64))
    }

    fn leaf(&self, n: u64) -> u64 {
        be(&self.list(2)[8 * n as usize..8 * n as usize + 8])
    }

    /// From the record at a place, seen under a mirror: solid, the records read, and the height of the absent child that ended the walk,
    /// 0 in a leaf.
    fn walk(&self, h: usize, place: u64, t: u32, v: Point) -> Answer<(u32, u32, u32)> {
        let edge = 1u64 << h;
        let v = mirror(t, edge, v);
        if h == 2 {
            // a leaf's room in its list: only the root of a file of depth 2 can miss it
            need(place < self.size(2), 6, "no leaf")?;
            need(self.leaf(place) != 0, 6, "leaf zero")?;
            return Ok((leaf_bit(self.leaf(place), v) as u32, 1, 0));
        }
        let (links, _) = self.record(h, place)?;
        let (i, u) = child_of(edge, v);
        let link = links[i];
        if link.code == 0 {
            return Ok((0, 1, h as u32 - 1));
        }
        need((link.place as u64) < self.size(h - 1), 6, "place outside")?;
        need(link.code == code(link.place), 6, "width")?;
        let (solid, read, height) = self.walk(h - 1, link.place as u64, link.tag, u)?;
        Ok((solid, read + 1, height))
    }

    /// The places at which records start, where the list divides into whole records.
    fn starts(&self, h: usize) -> Answer<Vec<u64>> {
        if h == 2 {
            return Ok((0..self.size(2)).collect());
        }
        let mut at = 0;
        let mut all = Vec::new();
        while at < self.size(h) {
            let (_, halves) = self.record(h, at)?;
            all.push(at);
            at += halves;
        }
        Ok(all)
    }

    fn self_match(&self, h: usize, place: u64, t: u32, known: &mut Known) -> bool {
        if let Some(&b) = known.get(&(h, place, t)) {
            return b;
        }
        let b = if h == 2 {
            self.leaf(place) == mirror_leaf(t, self.leaf(place))
        } else {
            let (links, _) = self.record(h, place).unwrap();
            self.records_match(h, &links, &links, t, known)
        };
        known.insert((h, place, t), b);
        b
    }

    /// The match rule for two records of height h, 3 and up.
    fn records_match(&self, h: usize, a: &[Link; 8], b: &[Link; 8], t: u32, known: &mut Known) -> bool {
        (0..8).all(|i| {
            let (x, y) = (a[i], b[i ^ t as usize]);
            (x.code == 0 && y.code == 0)
                || (x.code != 0 && y.code != 0 && x.place == y.place && self.self_match(h - 1, x.place as u64, x.tag ^ y.tag ^ t, known))
        })
    }

    /// Is this tag the lowest with the same meaning?
    fn lowest(&self, h: usize, place: u64, tag: u32, known: &mut Known) -> bool {
        !(0..tag).any(|u| self.self_match(h, place, u ^ tag, known))
    }

    /// A file is proper when: the rules in the page's order.
    fn proper(&self) -> Answer<()> {
        self.head()?;
        if self.empty() {
            return Ok(());
        }
        let mut starts: HashMap<usize, Vec<u64>> = HashMap::new();
        for h in 2..=self.depth {
            starts.insert(h, self.starts(h)?);
        }
        need(starts[&self.depth].len() == 1, 6, "one record on top")?;
        need(starts[&2].iter().all(|&n| self.leaf(n) != 0), 6, "leaf zero")?;

        // how many pointers one height up name a record
        let mut named: HashMap<(usize, u64), u32> = HashMap::new();
        for h in 3..=self.depth {
            let below: HashSet<u64> = starts[&(h - 1)].iter().copied().collect();
            for &s in &starts[&h] {
                let (links, _) = self.record(h, s)?;
                for l in links.iter().filter(|l| l.code != 0) {
                    need(below.contains(&(l.place as u64)), 6, "names no start")?;
                    need(l.code == code(l.place), 6, "width")?;
                    *named.entry((h - 1, l.place as u64)).or_insert(0) += 1;
                }
            }
        }
        for h in 2..self.depth {
            need(starts[&h].iter().all(|&s| named.contains_key(&(h, s))), 6, "not named")?;
        }

        // the images of the leaves before
        let mut images = HashSet::new();
        for &n in &starts[&2] {
            need(!images.contains(&self.leaf(n)), 6, "two leaves match")?;
            images.extend((0..8).map(|t| mirror_leaf(t, self.leaf(n))));
        }
        let mut known = HashMap::new();
        for h in 3..=self.depth {
            let mut before = Vec::new();
            for &s in &starts[&h] {
                let (links, _) = self.record(h, s)?;
                let matched = before.iter().any(|other| (0..8).any(|t| self.records_match(h, &links, other, t, &mut known)));
                need(!matched, 6, "two cells match")?;
                before.push(links);
            }
        }
        for h in 3..=self.depth {
            for &s in &starts[&h] {
                let (links, _) = self.record(h, s)?;
                for l in links.iter().filter(|l| l.code != 0) {
                    need(self.lowest(h - 1, l.place as u64, l.tag, &mut known), 6, "tag not lowest")?;
                }
            }
        }
        need(self.lowest(self.depth, 0, self.root as u32, &mut known), 6, "root's tag not lowest")?;
        for h in 2..self.depth {
            let counts: Vec<u32> = starts[&h].iter().map(|&s| named[&(h, s)]).collect();
            need(counts.windows(2).all(|p| p[0] >= p[1]), 6, "order rises")?;
        }
        Ok(())
    }

    /// The headset's profile, for a file whose lists divide into whole records: 14, 15. It has room for depth 10 and reads short pointers
    /// only.
    fn fits_headset(&self) -> Answer<()> {
        need(self.depth <= 10, 14, "depth above 10")?;
        if self.empty() {
            return Ok(());
        }
        for h in 3..=self.depth {
            for s in self.starts(h)? {
                let (links, _) = self.record(h, s)?;
                need(!links.iter().any(|l| l.code == 2), 15, "long pointer")?;
            }
        }
        Ok(())
    }
}

/// 11,3,4,5,6, or a proper file; from 6 on scratch is zero, whatever else is answered.
fn checked<'a>(file: &'a Bytes, scratch: &mut Bytes) -> Answer<Packed<'a>> {
    need(scratch.len() >= file.len(), 11, "scratch")?;
    let p = Packed::front(file)?;
    scratch[..file.len()].fill(0);
    p.proper()?;
    Ok(p)
}

/// Packed check: 11,3,4,5,6; the depth.
pub fn check(file: &Bytes, scratch: &mut Bytes) -> Answer<u32> {
    let p = checked(file, scratch)?;
    Ok(p.depth as u32)
}

/// Headset check: 11,3,4,5,6,14,15; the depth.
pub fn headset_check(file: &Bytes, scratch: &mut Bytes) -> Answer<u32> {
    let p = checked(file, scratch)?;
    p.fits_headset()?;
    Ok(p.depth as u32)
}

/// Packed voxel: 3,4,5,10,6; solid, records read, the height of the empty cell that holds it, D for an empty scene.
pub fn packed_voxel(file: &Bytes, x: u32, y: u32, z: u32) -> Answer<(u32, u32, u32)> {
    let p = Packed::front(file)?;
    let v = [x as u64, y as u64, z as u64];
    need(v.iter().all(|&c| c < 1 << p.depth), 10, "point")?;
    p.head()?;
    if p.empty() {
        return Ok((0, 0, p.depth as u32));
    }
    p.walk(p.depth, 0, p.root as u32, v)
}

/// Opening: 3,4,5,6; the numbers of the header: depth, then list starts by height, 0 above the depth and for an empty scene.
fn header(file: &Bytes) -> Answer<[u32; 16]> {
    let p = Packed::front(file)?;
    p.head()?;
    let mut numbers = [0; 16];
    numbers[0] = p.depth as u32;
    if !p.empty() {
        for h in 2..=p.depth {
            numbers[h - 1] = p.start(h) as u32;
        }
    }
    Ok(numbers)
}

/// Opening, the numbers written: 12 for fewer than 16 comes after the page's refusals.
pub fn open(file: &Bytes, numbers: &mut Words) -> Answer<()> {
    let found = header(file)?;
    need(numbers.len() >= 16, 12, "numbers")?;
    numbers[..16].copy_from_slice(&found);
    Ok(())
}

/// A question on an opened scene: 6 where its bytes open to other numbers or not at all, then as packed voxel.
pub fn ask(file: &Bytes, numbers: &Words, x: u32, y: u32, z: u32) -> Answer<(u32, u32, u32)> {
    need(numbers.len() >= 16, 6, "numbers")?;
    let found = header(file).map_err(|_| refused(6, "doesn't open"))?;
    need(found == numbers[..16], 6, "other numbers")?;
    packed_voxel(file, x, y, z)
}

// ---- detail

/// Detail: 5,13; the height. Kind 0 is every voxel, 1 a widest edge a, 2 a distance a with its factor b; another is no wish. A
/// power of two up to 2^16 times a factor in its range is exact in f64.
pub fn detail(depth: u32, kind: u32, a: f64, b: f64) -> Answer<u32> {
    need(depth_ok(depth), 5, "depth")?;
    need(kind <= 2, 13, "kind")?;
    let (two30, two40) = ((1u64 << 30) as f64, (1u64 << 40) as f64);
    let powers = || (0..=depth).map(|h| (h, (1u64 << h) as f64));
    if kind == 1 {
        need((1.0..=two40).contains(&a), 13, "edge")?;
        return Ok(powers().filter(|&(_, s)| s <= a).map(|(h, _)| h).max().unwrap());
    }
    if kind == 2 {
        need((0.0..=two40).contains(&a), 13, "distance")?;
        need((1.0 / two30..=two30).contains(&b), 13, "factor")?;
        return Ok(powers().filter(|&(_, s)| s * b <= a).map(|(h, _)| h).max().unwrap_or(0));
    }
    Ok(0)
}
