//! Rooms of the bench's own, by integer arithmetic: walls, floor and ceiling, pipes along x and y repeated over the room,
//! brackets in mirrored pairs, and, where wished, voxels dropped and added as a scan would.
use crate::outline;

/// A room of this depth; `noise` thousandths of the solid voxels are dropped, and a quarter as many added.
pub fn room(depth: u32, noise: u32) -> Vec<u8> {
    let edge = 1i64 << depth;
    let mut records = Vec::new();
    outline::write_cell(&mut records, depth, [0; 3], &|corner| {
        let mut leaf = 0u64;
        for bit in 0..64 {
            let x = i64::from(corner[0] + bit % 4);
            let y = i64::from(corner[1] + bit / 4 % 4);
            let z = i64::from(corner[2] + bit / 16);
            let chance = scatter(x + edge * (y + edge * z)) % 4000;
            let solid = if built(edge, x, y, z) {
                chance >= 4 * noise
            } else {
                chance < noise && built(edge, x, y, z - 1)
            };
            leaf |= u64::from(solid) << bit;
        }
        leaf
    });
    outline::file(depth, &records)
}

/// A number that looks like chance.
fn scatter(n: i64) -> u32 {
    let mixed = (n as u64).wrapping_mul(0x9E37_79B9_7F4A_7C15);
    let again = (mixed ^ mixed >> 29).wrapping_mul(0xBF58_476D_1CE4_E5B9);
    (again >> 33) as u32
}

/// Whether the room as built is solid there. Everything is mirrored about the middle of x and of y.
fn built(edge: i64, x: i64, y: i64, z: i64) -> bool {
    let (a, b) = (x.min(edge - 1 - x), y.min(edge - 1 - y));
    let shell = z < 2 || z >= edge - 2 || a < 1 || b < 1;
    shell || pipe(b, z, 24, 7) || pipe(a, z - 12, 40, 5) || bracket(a, b, z)
}

/// Hollow pipes along one axis: one in every square of edge `step` of the two others, from `step` on.
fn pipe(u: i64, v: i64, step: i64, radius: i64) -> bool {
    if u < step || v < step || u / step % 3 == 2 {
        return false;
    }
    let (p, q) = (2 * (u % step) - step, 2 * (v % step) - step);
    let square = p * p + q * q;
    let (outer, inner) = (4 * radius * radius, 4 * (radius - 2) * (radius - 2));
    inner < square && square <= outer
}

/// Brackets: an angle of two plates, in mirrored pairs along both axes.
fn bracket(a: i64, b: i64, z: i64) -> bool {
    let (p, q) = (a % 32, b % 48);
    let (p, q) = (p.min(31 - p), q.min(47 - q));
    let near = (8..14).contains(&p) && (10..18).contains(&q) && (4..20).contains(&(z % 64));
    near && (p == 8 || z % 64 == 4 || p - 8 == z % 64 - 4)
}
