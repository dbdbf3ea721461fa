//! A first answer in Rust: adds document 01's first sample room to a store, asks it, packs it, and checks and asks the packed file.

use rooms::{Refusal, Wish};

const CAPACITY: u32 = 32;

/// A room of depth 3 as an outline: a mask with two children, and a leaf of one voxel each.
const OUTLINE: [u8; 23] = [
    0x11, 0, 0, 0, 0x17, 3,    // front byte, length of the file, depth
    0x03, // the root's mask: children 0 and 1
    0, 0, 0, 0, 0, 0, 0, 1, // voxel (0, 0, 0) of the first leaf
    0, 0, 0, 0, 0, 0, 0, 8, // voxel (3, 0, 0) of the second, which is the room's (7, 0, 0)
];

fn main() -> Result<(), Refusal> {
    // All memory is lent: a store, scratch for packing and for checking, room for the packed file.
    let mut store = vec![0; rooms::store_words(CAPACITY)];
    let mut pack_scratch = vec![0; rooms::pack_scratch_words(CAPACITY)];
    let mut out = vec![0; rooms::packed_max_bytes(CAPACITY)];

    rooms::new_store(&mut store, CAPACITY)?;
    let scene = rooms::add(&mut store, &OUTLINE)?;
    println!("scene {scene}");

    let voxel = rooms::voxel(&store, scene, 7, 0, 0)?;
    println!("voxel 7 0 0: {}", if voxel.solid { "solid" } else { "empty" });
    let voxel = rooms::voxel(&store, scene, 0, 5, 0)?;
    println!("voxel 0 5 0: {}, height {}", if voxel.solid { "solid" } else { "empty" }, voxel.height);
    match rooms::sight(&store, scene, [0, 0, 0], [7, 0, 0])? {
        Some([x, y, z]) => println!("sight line 0 0 0 to 7 0 0: blocked at {x} {y} {z}"),
        None => println!("sight line 0 0 0 to 7 0 0: clear"),
    }
    let full = rooms::cell(&store, scene, 2, 0, 1, 0)?;
    println!("cell of height 2 at 0 1 0: {}", if full { "non-empty" } else { "empty" });
    println!("solid in the whole room: {}", rooms::box_count(&store, scene, [0, 0, 0], [8, 8, 8])?);
    let way = rooms::anything(&store, scene, [1, 0, 0], [7, 8, 8])?;
    println!("box 1 0 0 to 7 8 8: {}, cells entered {}", if way.solid { "something in the way" } else { "free" }, way.entered);
    println!("leaves kept: {}", rooms::kept(&store, 2)?);

    let length = rooms::pack(&store, scene, &mut pack_scratch, &mut out)?;
    let packed = &out[..length as usize];
    print!("packed {length}:");
    for byte in packed {
        print!(" {byte:02x}");
    }
    println!();

    let mut check_scratch = vec![0; packed.len()];
    let depth = rooms::check(packed, &mut check_scratch)?;
    println!("check: proper, depth {depth}");
    let found = rooms::open(packed)?.voxel(4, 0, 0)?;
    println!("packed voxel 4 0 0: {}, records {}", if found.solid { "solid" } else { "empty" }, found.records);
    println!("widest edge 7.5: height {}", rooms::detail(depth, Wish::WidestEdge(7.5))?);

    if let Err(refusal) = rooms::voxel(&store, scene, 8, 0, 0) {
        println!("voxel 8 0 0: refused by {}", refusal.number());
    }
    Ok(())
}
