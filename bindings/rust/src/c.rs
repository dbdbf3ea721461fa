//! The seventeen C calls of include/rooms.h over slices: the answer's number is returned, values go to out parameters,
//! zeros on a refusal. Each is safe: a slice and a reference are all that the library asks for, of any content and length, and
//! `&mut` overlaps with nothing. The only `unsafe` of this crate is here.

/// The declarations themselves, as include/rooms.h has them: for a test that hands over null pointers of length 0.
#[doc(hidden)]
pub mod declared {
    extern "C" {
        pub fn rooms_new(store: *mut u32, store_words: usize, capacity: u32) -> u32;
        pub fn rooms_add(store: *mut u32, store_words: usize, file: *const u8, file_bytes: usize, scene: *mut u32) -> u32;
        pub fn rooms_voxel(
            store: *const u32,
            store_words: usize,
            scene: u32,
            x: u32,
            y: u32,
            z: u32,
            solid: *mut u32,
            height: *mut u32,
        ) -> u32;
        pub fn rooms_sight(
            store: *const u32,
            store_words: usize,
            scene: u32,
            from_x: u32,
            from_y: u32,
            from_z: u32,
            to_x: u32,
            to_y: u32,
            to_z: u32,
            blocked: *mut u32,
            x: *mut u32,
            y: *mut u32,
            z: *mut u32,
        ) -> u32;
        pub fn rooms_cell(store: *const u32, store_words: usize, scene: u32, height: u32, x: u32, y: u32, z: u32, full: *mut u32) -> u32;
        pub fn rooms_box(
            store: *const u32,
            store_words: usize,
            scene: u32,
            low_x: u32,
            low_y: u32,
            low_z: u32,
            high_x: u32,
            high_y: u32,
            high_z: u32,
            count: *mut u64,
        ) -> u32;
        pub fn rooms_any(
            store: *const u32,
            store_words: usize,
            scene: u32,
            low_x: u32,
            low_y: u32,
            low_z: u32,
            high_x: u32,
            high_y: u32,
            high_z: u32,
            solid: *mut u32,
            entered: *mut u64,
        ) -> u32;
        pub fn rooms_kept(store: *const u32, store_words: usize, height: u32, count: *mut u32) -> u32;
        pub fn rooms_outline(store: *const u32, store_words: usize, scene: u32, out: *mut u8, out_bytes: usize, length: *mut u32) -> u32;
        pub fn rooms_pack(
            store: *const u32,
            store_words: usize,
            scene: u32,
            scratch: *mut u32,
            scratch_words: usize,
            out: *mut u8,
            out_bytes: usize,
            length: *mut u32,
        ) -> u32;
        pub fn rooms_headset_pack(
            store: *const u32,
            store_words: usize,
            scene: u32,
            scratch: *mut u32,
            scratch_words: usize,
            out: *mut u8,
            out_bytes: usize,
            length: *mut u32,
        ) -> u32;
        pub fn rooms_check(file: *const u8, file_bytes: usize, scratch: *mut u8, scratch_bytes: usize, depth: *mut u32) -> u32;
        pub fn rooms_headset_check(file: *const u8, file_bytes: usize, scratch: *mut u8, scratch_bytes: usize, depth: *mut u32) -> u32;
        pub fn rooms_packed_voxel(
            file: *const u8,
            file_bytes: usize,
            x: u32,
            y: u32,
            z: u32,
            solid: *mut u32,
            records: *mut u32,
            height: *mut u32,
        ) -> u32;
        pub fn rooms_open(file: *const u8, file_bytes: usize, numbers: *mut u32, numbers_words: usize) -> u32;
        pub fn rooms_ask(
            file: *const u8,
            file_bytes: usize,
            numbers: *const u32,
            numbers_words: usize,
            x: u32,
            y: u32,
            z: u32,
            solid: *mut u32,
            records: *mut u32,
            height: *mut u32,
        ) -> u32;
        pub fn rooms_detail(depth: u32, kind: u32, a: f64, b: f64, height: *mut u32) -> u32;
    }
}

pub fn rooms_new(store: &mut [u32], capacity: u32) -> u32 {
    unsafe { declared::rooms_new(store.as_mut_ptr(), store.len(), capacity) }
}

pub fn rooms_add(store: &mut [u32], file: &[u8], scene: &mut u32) -> u32 {
    unsafe { declared::rooms_add(store.as_mut_ptr(), store.len(), file.as_ptr(), file.len(), scene) }
}

pub fn rooms_voxel(store: &[u32], scene: u32, x: u32, y: u32, z: u32, solid: &mut u32, height: &mut u32) -> u32 {
    unsafe { declared::rooms_voxel(store.as_ptr(), store.len(), scene, x, y, z, solid, height) }
}

pub fn rooms_sight(store: &[u32], scene: u32, from: [u32; 3], to: [u32; 3], blocked: &mut u32, at: &mut [u32; 3]) -> u32 {
    let [x, y, z] = at;
    unsafe { declared::rooms_sight(store.as_ptr(), store.len(), scene, from[0], from[1], from[2], to[0], to[1], to[2], blocked, x, y, z) }
}

pub fn rooms_cell(store: &[u32], scene: u32, height: u32, x: u32, y: u32, z: u32, full: &mut u32) -> u32 {
    unsafe { declared::rooms_cell(store.as_ptr(), store.len(), scene, height, x, y, z, full) }
}

pub fn rooms_box(store: &[u32], scene: u32, low: [u32; 3], high: [u32; 3], count: &mut u64) -> u32 {
    unsafe { declared::rooms_box(store.as_ptr(), store.len(), scene, low[0], low[1], low[2], high[0], high[1], high[2], count) }
}

pub fn rooms_any(store: &[u32], scene: u32, low: [u32; 3], high: [u32; 3], solid: &mut u32, entered: &mut u64) -> u32 {
    unsafe { declared::rooms_any(store.as_ptr(), store.len(), scene, low[0], low[1], low[2], high[0], high[1], high[2], solid, entered) }
}

pub fn rooms_kept(store: &[u32], height: u32, count: &mut u32) -> u32 {
    unsafe { declared::rooms_kept(store.as_ptr(), store.len(), height, count) }
}

pub fn rooms_outline(store: &[u32], scene: u32, out: &mut [u8], length: &mut u32) -> u32 {
    unsafe { declared::rooms_outline(store.as_ptr(), store.len(), scene, out.as_mut_ptr(), out.len(), length) }
}

pub fn rooms_pack(store: &[u32], scene: u32, scratch: &mut [u32], out: &mut [u8], length: &mut u32) -> u32 {
    unsafe {
        declared::rooms_pack(store.as_ptr(), store.len(), scene, scratch.as_mut_ptr(), scratch.len(), out.as_mut_ptr(), out.len(), length)
    }
}

pub fn rooms_headset_pack(store: &[u32], scene: u32, scratch: &mut [u32], out: &mut [u8], length: &mut u32) -> u32 {
    unsafe {
        declared::rooms_headset_pack(
            store.as_ptr(),
            store.len(),
            scene,
            scratch.as_mut_ptr(),
            scratch.len(),
            out.as_mut_ptr(),
            out.len(),
            length,
        )
    }
}

pub fn rooms_check(file: &[u8], scratch: &mut [u8], depth: &mut u32) -> u32 {
    unsafe { declared::rooms_check(file.as_ptr(), file.len(), scratch.as_mut_ptr(), scratch.len(), depth) }
}

pub fn rooms_headset_check(file: &[u8], scratch: &mut [u8], depth: &mut u32) -> u32 {
    unsafe { declared::rooms_headset_check(file.as_ptr(), file.len(), scratch.as_mut_ptr(), scratch.len(), depth) }
}

pub fn rooms_packed_voxel(file: &[u8], x: u32, y: u32, z: u32, solid: &mut u32, records: &mut u32, height: &mut u32) -> u32 {
    unsafe { declared::rooms_packed_voxel(file.as_ptr(), file.len(), x, y, z, solid, records, height) }
}

pub fn rooms_open(file: &[u8], numbers: &mut [u32]) -> u32 {
    unsafe { declared::rooms_open(file.as_ptr(), file.len(), numbers.as_mut_ptr(), numbers.len()) }
}

#[allow(clippy::too_many_arguments)]
pub fn rooms_ask(file: &[u8], numbers: &[u32], x: u32, y: u32, z: u32, solid: &mut u32, records: &mut u32, height: &mut u32) -> u32 {
    unsafe { declared::rooms_ask(file.as_ptr(), file.len(), numbers.as_ptr(), numbers.len(), x, y, z, solid, records, height) }
}

pub fn rooms_detail(depth: u32, kind: u32, a: f64, b: f64, height: &mut u32) -> u32 {
    unsafe { declared::rooms_detail(depth, kind, a, b, height) }
}
