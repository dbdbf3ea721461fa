//! Rooms of depth 16 with little in them, for sight lines alone: many voxels and few cells, and along a wall as many of the one as of
//! the other.
use crate::lines::Line;
use crate::outline;
use crate::questions::Numbers;

const DEPTH: u32 = 16;
const EDGE: u32 = 1 << DEPTH;

/// The rooms and their lines, by name.
pub const NAMES: [&str; 3] = ["corners", "along a wall", "beside a wall"];

/// A room's outline, and the lines through it.
pub fn room(name: &str) -> Option<(Vec<u8>, Vec<Line>)> {
    match name {
        "corners" => Some((corners(), past_corners())),
        "along a wall" => Some((wall(), along(1, 3))),
        "beside a wall" => Some((wall(), along(4, 7))),
        _ => None,
    }
}

fn file(leaves: &[([u32; 3], u64)]) -> Vec<u8> {
    let mut records = Vec::new();
    outline::write_leaves(&mut records, DEPTH, leaves);
    outline::file(DEPTH, &records)
}

/// The corner of the room's leaf number i, of the eight in its corners.
fn corner(i: u32) -> [u32; 3] {
    [0, 1, 2].map(|axis| (i >> axis & 1) * (EDGE - 4))
}

/// One solid voxel in each of the eight corner leaves: the one in the room's corner.
fn corners() -> Vec<u8> {
    let leaf = |i: u32| 1 << (3 * (i & 1) + 12 * (i >> 1 & 1) + 48 * (i >> 2));
    let leaves: Vec<_> = (0..8).map(|i| (corner(i), leaf(i))).collect();
    file(&leaves)
}

/// From each of those leaves to each other, between voxels one or two away from the solid ones: the lines pass these.
fn past_corners() -> Vec<Line> {
    let mut numbers = Numbers::new(6);
    let mut beside = |i: u32| {
        let away = [(); 3].map(|_| 1 + numbers.below(2));
        [0, 1, 2].map(|axis| match i >> axis & 1 {
            0 => away[axis],
            _ => EDGE - 1 - away[axis],
        })
    };
    let mut lines = Vec::new();
    for i in 0..8 {
        for j in (0..8).filter(|&j| j != i) {
            lines.push((beside(i), beside(j)));
        }
    }
    lines
}

/// A wall of one leaf's height along all of x: of each leaf there the voxels with y = 0.
fn wall() -> Vec<u8> {
    let leaves: Vec<_> = (0..EDGE / 4)
        .map(|n| ([4 * n, 0, 0], 0x000F_000F_000F_000F))
        .collect();
    file(&leaves)
}

/// Lines from end to end of the wall, there and back, that stay between two distances from it.
fn along(near: u32, far: u32) -> Vec<Line> {
    let ends = |y: u32, z: u32, to_y: u32, to_z: u32| ([0, y, z], [EDGE - 1, to_y, to_z]);
    let mut lines = vec![
        ends(near, 0, near, 0),
        ends(near, 0, far, 3),
        ends(far, 1, near, 2),
        ends(far, 3, far, 3),
    ];
    lines.extend(lines.clone().into_iter().map(|(from, to)| (to, from)));
    lines
}
