//! The proved library's calls.

use crate::calls::Calls;

pub struct Library;

impl Calls for Library {
    fn new_store(&mut self, store: &mut [u32], capacity: u32) -> u32 {
        rooms::c::rooms_new(store, capacity)
    }
    fn add(&mut self, store: &mut [u32], file: &[u8], scene: &mut u32) -> u32 {
        rooms::c::rooms_add(store, file, scene)
    }
    fn voxel(&mut self, store: &[u32], scene: u32, [x, y, z]: [u32; 3], solid: &mut u32, height: &mut u32) -> u32 {
        rooms::c::rooms_voxel(store, scene, x, y, z, solid, height)
    }
    fn sight(&mut self, store: &[u32], scene: u32, from: [u32; 3], to: [u32; 3], blocked: &mut u32, at: &mut [u32; 3]) -> u32 {
        rooms::c::rooms_sight(store, scene, from, to, blocked, at)
    }
    fn cell(&mut self, store: &[u32], scene: u32, height: u32, [x, y, z]: [u32; 3], full: &mut u32) -> u32 {
        rooms::c::rooms_cell(store, scene, height, x, y, z, full)
    }
    fn box_count(&mut self, store: &[u32], scene: u32, low: [u32; 3], high: [u32; 3], count: &mut u64) -> u32 {
        rooms::c::rooms_box(store, scene, low, high, count)
    }
    fn anything(&mut self, store: &[u32], scene: u32, low: [u32; 3], high: [u32; 3], solid: &mut u32, entered: &mut u64) -> u32 {
        rooms::c::rooms_any(store, scene, low, high, solid, entered)
    }
    fn kept(&mut self, store: &[u32], height: u32, count: &mut u32) -> u32 {
        rooms::c::rooms_kept(store, height, count)
    }
    fn outline(&mut self, store: &[u32], scene: u32, out: &mut [u8], length: &mut u32) -> u32 {
        rooms::c::rooms_outline(store, scene, out, length)
    }
    fn pack(&mut self, store: &[u32], scene: u32, scratch: &mut [u32], out: &mut [u8], length: &mut u32) -> u32 {
        rooms::c::rooms_pack(store, scene, scratch, out, length)
    }
    fn headset_pack(&mut self, store: &[u32], scene: u32, scratch: &mut [u32], out: &mut [u8], length: &mut u32) -> u32 {
        rooms::c::rooms_headset_pack(store, scene, scratch, out, length)
    }
    fn check(&mut self, file: &[u8], scratch: &mut [u8], depth: &mut u32) -> u32 {
        rooms::c::rooms_check(file, scratch, depth)
    }
    fn headset_check(&mut self, file: &[u8], scratch: &mut [u8], depth: &mut u32) -> u32 {
        rooms::c::rooms_headset_check(file, scratch, depth)
    }
    fn packed_voxel(&mut self, file: &[u8], [x, y, z]: [u32; 3], solid: &mut u32, records: &mut u32, height: &mut u32) -> u32 {
        rooms::c::rooms_packed_voxel(file, x, y, z, solid, records, height)
    }
    fn open(&mut self, file: &[u8], numbers: &mut [u32]) -> u32 {
        rooms::c::rooms_open(file, numbers)
    }
    fn ask(&mut self, file: &[u8], numbers: &[u32], [x, y, z]: [u32; 3], solid: &mut u32, records: &mut u32, height: &mut u32) -> u32 {
        rooms::c::rooms_ask(file, numbers, x, y, z, solid, records, height)
    }
    fn detail(&mut self, depth: u32, kind: u32, a: f64, b: f64, height: &mut u32) -> u32 {
        rooms::c::rooms_detail(depth, kind, a, b, height)
    }
}
