//! The seventeen calls as C has them: the number returned, values in out parameters. `Twin` is document 01 once more, `library::Library` the
//! proved library; the tests run both on the same memory.

use crate::twin::{self, Answer};

pub trait Calls {
    fn new_store(&mut self, store: &mut [u32], capacity: u32) -> u32;
    fn add(&mut self, store: &mut [u32], file: &[u8], scene: &mut u32) -> u32;
    fn voxel(&mut self, store: &[u32], scene: u32, at: [u32; 3], solid: &mut u32, height: &mut u32) -> u32;
    fn sight(&mut self, store: &[u32], scene: u32, from: [u32; 3], to: [u32; 3], blocked: &mut u32, at: &mut [u32; 3]) -> u32;
    fn cell(&mut self, store: &[u32], scene: u32, height: u32, at: [u32; 3], full: &mut u32) -> u32;
    fn box_count(&mut self, store: &[u32], scene: u32, low: [u32; 3], high: [u32; 3], count: &mut u64) -> u32;
    fn anything(&mut self, store: &[u32], scene: u32, low: [u32; 3], high: [u32; 3], solid: &mut u32, entered: &mut u64) -> u32;
    fn kept(&mut self, store: &[u32], height: u32, count: &mut u32) -> u32;
    fn outline(&mut self, store: &[u32], scene: u32, out: &mut [u8], length: &mut u32) -> u32;
    fn pack(&mut self, store: &[u32], scene: u32, scratch: &mut [u32], out: &mut [u8], length: &mut u32) -> u32;
    fn headset_pack(&mut self, store: &[u32], scene: u32, scratch: &mut [u32], out: &mut [u8], length: &mut u32) -> u32;
    fn check(&mut self, file: &[u8], scratch: &mut [u8], depth: &mut u32) -> u32;
    fn headset_check(&mut self, file: &[u8], scratch: &mut [u8], depth: &mut u32) -> u32;
    fn packed_voxel(&mut self, file: &[u8], at: [u32; 3], solid: &mut u32, records: &mut u32, height: &mut u32) -> u32;
    fn open(&mut self, file: &[u8], numbers: &mut [u32]) -> u32;
    fn ask(&mut self, file: &[u8], numbers: &[u32], at: [u32; 3], solid: &mut u32, records: &mut u32, height: &mut u32) -> u32;
    fn detail(&mut self, depth: u32, kind: u32, a: f64, b: f64, height: &mut u32) -> u32;
}

/// The twin; `clause` says which clause of documents 01 and 02 refused the last call.
#[derive(Default)]
pub struct Twin {
    pub clause: &'static str,
}

impl Twin {
    /// The answer's number; its value, or on a refusal zero, goes to the out parameter.
    fn tell<T: Default>(&mut self, answer: Answer<T>, out: &mut T) -> u32 {
        match answer {
            Ok(value) => {
                self.clause = "";
                *out = value;
                0
            }
            Err(refusal) => {
                self.clause = refusal.clause;
                *out = T::default();
                refusal.number
            }
        }
    }

    /// The same for a voxel of packed bytes: solid, records, height.
    fn tell_found(&mut self, answer: Answer<(u32, u32, u32)>, solid: &mut u32, records: &mut u32, height: &mut u32) -> u32 {
        let mut found = (0, 0, 0);
        let number = self.tell(answer, &mut found);
        (*solid, *records, *height) = found;
        number
    }
}

impl Calls for Twin {
    fn new_store(&mut self, store: &mut [u32], capacity: u32) -> u32 {
        self.tell(twin::new_store(store, capacity), &mut ())
    }
    fn add(&mut self, store: &mut [u32], file: &[u8], scene: &mut u32) -> u32 {
        self.tell(twin::add(store, file), scene)
    }
    fn voxel(&mut self, store: &[u32], scene: u32, [x, y, z]: [u32; 3], solid: &mut u32, height: &mut u32) -> u32 {
        let mut both = (0, 0);
        let number = self.tell(twin::voxel(store, scene, x, y, z), &mut both);
        (*solid, *height) = both;
        number
    }
    fn sight(&mut self, store: &[u32], scene: u32, from: [u32; 3], to: [u32; 3], blocked: &mut u32, at: &mut [u32; 3]) -> u32 {
        let mut first = None;
        let number = self.tell(twin::sight(store, scene, from, to), &mut first);
        *blocked = first.is_some() as u32;
        *at = first.unwrap_or_default();
        number
    }
    fn cell(&mut self, store: &[u32], scene: u32, height: u32, [x, y, z]: [u32; 3], full: &mut u32) -> u32 {
        self.tell(twin::cell(store, scene, height, x, y, z), full)
    }
    fn box_count(&mut self, store: &[u32], scene: u32, low: [u32; 3], high: [u32; 3], count: &mut u64) -> u32 {
        self.tell(twin::box_count(store, scene, low, high), count)
    }
    fn anything(&mut self, store: &[u32], scene: u32, low: [u32; 3], high: [u32; 3], solid: &mut u32, entered: &mut u64) -> u32 {
        let mut both = (false, 0);
        let number = self.tell(twin::anything(store, scene, low, high), &mut both);
        (*solid, *entered) = (both.0 as u32, both.1);
        number
    }
    fn kept(&mut self, store: &[u32], height: u32, count: &mut u32) -> u32 {
        self.tell(twin::kept(store, height), count)
    }
    fn outline(&mut self, store: &[u32], scene: u32, out: &mut [u8], length: &mut u32) -> u32 {
        self.tell(twin::outline(store, scene, out), length)
    }
    fn pack(&mut self, store: &[u32], scene: u32, scratch: &mut [u32], out: &mut [u8], length: &mut u32) -> u32 {
        self.tell(twin::pack(store, scene, scratch, out), length)
    }
    fn headset_pack(&mut self, store: &[u32], scene: u32, scratch: &mut [u32], out: &mut [u8], length: &mut u32) -> u32 {
        self.tell(twin::headset_pack(store, scene, scratch, out), length)
    }
    fn check(&mut self, file: &[u8], scratch: &mut [u8], depth: &mut u32) -> u32 {
        self.tell(twin::check(file, scratch), depth)
    }
    fn headset_check(&mut self, file: &[u8], scratch: &mut [u8], depth: &mut u32) -> u32 {
        self.tell(twin::headset_check(file, scratch), depth)
    }
    fn packed_voxel(&mut self, file: &[u8], [x, y, z]: [u32; 3], solid: &mut u32, records: &mut u32, height: &mut u32) -> u32 {
        self.tell_found(twin::packed_voxel(file, x, y, z), solid, records, height)
    }
    fn open(&mut self, file: &[u8], numbers: &mut [u32]) -> u32 {
        self.tell(twin::open(file, numbers), &mut ())
    }
    fn ask(&mut self, file: &[u8], numbers: &[u32], [x, y, z]: [u32; 3], solid: &mut u32, records: &mut u32, height: &mut u32) -> u32 {
        self.tell_found(twin::ask(file, numbers, x, y, z), solid, records, height)
    }
    fn detail(&mut self, depth: u32, kind: u32, a: f64, b: f64, height: &mut u32) -> u32 {
        self.tell(twin::detail(depth, kind, a, b), height)
    }
}
