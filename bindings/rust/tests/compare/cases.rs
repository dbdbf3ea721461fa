//! One case of each call: the library and the twin on the same memory, full of noise where the call writes, and the safe function
//! beside them.

use crate::calls::{Calls, Twin};
use crate::generator::stores;
use crate::lent::{hex, Lent, GUARD};
use crate::library::Library;
use crate::Compare;
use rooms::{Anything, Found, Refusal, Voxel, Wish};
use std::fmt::Debug;

/// What a voxel's answer is counted as.
fn kind(solid: u32, height: u32) -> &'static str {
    match (solid, height) {
        (1, _) => "solid",
        (_, 0) => "empty, in a leaf",
        _ => "empty, in an empty cell",
    }
}

/// A way of packing: the library's call, the twin's and the safe function.
struct Packing {
    call: &'static str,
    library: Pack<Library>,
    twin: Pack<Twin>,
    safe: SafePack,
}

type Pack<T> = fn(&mut T, &[u32], u32, &mut [u32], &mut [u8], &mut u32) -> u32;
type SafePack = fn(&[u32], u32, &mut [u32], &mut [u8]) -> Result<u32, Refusal>;

const PACK: Packing = Packing { call: "pack", library: Library::pack, twin: Twin::pack, safe: rooms::pack };
const HEADSET_PACK: Packing =
    Packing { call: "headset_pack", library: Library::headset_pack, twin: Twin::headset_pack, safe: rooms::headset_pack };

/// A way of checking, likewise.
struct Checking {
    call: &'static str,
    library: Check<Library>,
    twin: Check<Twin>,
    safe: SafeCheck,
}

type Check<T> = fn(&mut T, &[u8], &mut [u8], &mut u32) -> u32;
type SafeCheck = fn(&[u8], &mut [u8]) -> Result<u32, Refusal>;

const CHECK: Checking = Checking { call: "check", library: Library::check, twin: Twin::check, safe: rooms::check };
const HEADSET_CHECK: Checking =
    Checking { call: "headset_check", library: Library::headset_check, twin: Twin::headset_check, safe: rooms::headset_check };

impl Compare {
    pub fn lend_words(&mut self, slice: &[u32]) -> Lent<u32> {
        let guards = self.random.words(2 * GUARD);
        Lent::new(slice, &guards)
    }

    pub fn lend_bytes(&mut self, slice: &[u8]) -> Lent<u8> {
        let guards = self.random.bytes(2 * GUARD);
        Lent::new(slice, &guards)
    }

    pub fn noise_words(&mut self, length: usize) -> Lent<u32> {
        let slice = self.random.words(length);
        self.lend_words(&slice)
    }

    pub fn noise_bytes(&mut self, length: usize) -> Lent<u8> {
        let slice = self.random.bytes(length);
        self.lend_bytes(&slice)
    }

    /// A case is counted; where the two differ, all that is known of it is said and the test ends.
    pub fn judge<V: PartialEq + Debug>(
        &mut self,
        call: &'static str,
        library: (u32, V),
        twin: (u32, V),
        same_memory: bool,
        input: impl FnOnce() -> String,
    ) -> u32 {
        self.cases += 1;
        let number = twin.0;
        *self.numbers.entry((call, number)).or_insert(0) += 1;
        *self.clauses.entry((call, number, self.twin.clause)).or_insert(0) += 1;
        if library != twin || !same_memory {
            println!("DIFFERENCE in {call}, seed {} episode {}", self.seed, self.episode);
            println!("library {library:?}, twin {twin:?} ({}), memory the same: {same_memory}", self.twin.clause);
            println!("{}", input());
            std::process::exit(1);
        }
        number
    }

    /// What an accepted call answered, counted.
    pub fn note(&mut self, call: &'static str, number: u32, what: &'static str) {
        if number == 0 {
            *self.notes.entry((call, what)).or_insert(0) += 1;
        }
    }

    /// The safe function answers what the call did.
    pub fn agree<T: PartialEq + Debug>(&self, call: &str, number: u32, value: T, answer: Result<T, Refusal>) {
        let expected = if number == 0 { Ok(value) } else { Err(number) };
        let answer = answer.map_err(Refusal::number);
        if answer != expected {
            println!(
                "DIFFERENCE between the C call and the safe function {call}: {expected:?}, {answer:?}; seed {} episode {}",
                self.seed, self.episode
            );
            std::process::exit(1);
        }
    }

    /// Another voxel of the same empty cell has the same answer.
    fn alike<V: PartialEq + Debug>(&self, call: &str, [at, other]: [[u32; 3]; 2], here: (u32, V), there: (u32, V)) {
        if here != there {
            println!("DIFFERENCE in one empty cell, {call}: {here:?} at {at:?}, {there:?} at {other:?}");
            println!("seed {} episode {}", self.seed, self.episode);
            std::process::exit(1);
        }
    }

    pub fn new_store(&mut self, store: &mut Lent<u32>, capacity: u32) -> u32 {
        let before = store.clone();
        let mut mine = store.clone();
        let here = self.library.new_store(mine.slice_mut(), capacity);
        let there = self.twin.new_store(store.slice_mut(), capacity);
        let number = self.judge("new", (here, ()), (there, ()), mine == *store, || format!("capacity {capacity} words {}", before.length));
        let mut third = before.slice().to_vec();
        self.agree("new_store", number, (), rooms::new_store(&mut third, capacity));
        assert!(third == store.slice());
        number
    }

    pub fn add(&mut self, store: &mut Lent<u32>, file: &[u8]) -> u32 {
        let before = store.clone();
        let mut mine = store.clone();
        let file = self.lend_bytes(file);
        let file_mine = file.clone();
        let (mut a, mut b) = (self.random.word(), self.random.word());
        let here = self.library.add(mine.slice_mut(), file_mine.slice(), &mut a);
        let there = self.twin.add(store.slice_mut(), file.slice(), &mut b);
        let same = mine == *store && file_mine == file;
        let number = self.judge("add", (here, a), (there, b), same, || {
            format!(
                "store {}\nfile {}\nafter, library {}\nafter, twin {}",
                hex(before.slice()),
                hex(file.slice()),
                hex(mine.slice()),
                hex(store.slice())
            )
        });
        if number == 0 {
            let root = store.slice()[33 + 2 * a as usize];
            let kept = store.slice()[2..17] != before.slice()[2..17];
            self.note(
                "add",
                number,
                match (root, kept) {
                    (0, _) => "an empty scene",
                    (_, true) => "cells kept",
                    (p, false) if p >> 29 == 0 => "no cell kept, root as it was",
                    _ => "no cell kept, root mirrored",
                },
            );
        }
        if self.random.once_in(4) {
            let mut third = before.slice().to_vec();
            self.agree("add", number, a, rooms::add(&mut third, file.slice()));
            assert!(third == store.slice());
        }
        number
    }

    pub fn voxel(&mut self, store: &Lent<u32>, scene: u32, at: [u32; 3]) -> u32 {
        let mine = store.clone();
        let (mut a, mut b) = ([self.random.word(), 7], [self.random.word(), 8]);
        let [solid, height] = &mut a;
        let here = self.library.voxel(mine.slice(), scene, at, solid, height);
        let [solid, height] = &mut b;
        let there = self.twin.voxel(store.slice(), scene, at, solid, height);
        let number =
            self.judge("voxel", (here, a), (there, b), mine == *store, || format!("store {}\nscene {scene} at {at:?}", hex(store.slice())));
        self.note("voxel", number, kind(a[0], a[1]));
        let voxel = Voxel { solid: a[0] == 1, height: a[1] };
        self.agree("voxel", number, voxel, rooms::voxel(store.slice(), scene, at[0], at[1], at[2]));
        if a[1] > 0 {
            let other = self.random.in_cell(at, a[1]);
            let [solid, height] = &mut b;
            let there = self.library.voxel(mine.slice(), scene, other, solid, height);
            self.alike("voxel", [at, other], (here, a), (there, b));
        }
        number
    }

    /// Answers whether the line is clear.
    fn sight(&mut self, store: &Lent<u32>, scene: u32, from: [u32; 3], to: [u32; 3]) -> bool {
        let mine = store.clone();
        let mut noise = || (self.random.word(), [self.random.word(), 7, 8]);
        let (mut a, mut b) = (noise(), noise());
        let here = self.library.sight(mine.slice(), scene, from, to, &mut a.0, &mut a.1);
        let there = self.twin.sight(store.slice(), scene, from, to, &mut b.0, &mut b.1);
        let number = self.judge("sight", (here, a), (there, b), mine == *store, || {
            format!("store {}\nscene {scene} from {from:?} to {to:?}", hex(store.slice()))
        });
        let beside = (0..3).all(|axis| from[axis].abs_diff(to[axis]) < 2);
        self.note(
            "sight",
            number,
            match (a.0, beside) {
                (1, _) => "blocked",
                (_, false) => "clear",
                (_, true) => "clear, the ends the same or touching",
            },
        );
        self.agree("sight", number, (a.0 == 1).then_some(a.1), rooms::sight(store.slice(), scene, from, to));
        number == 0 && a.0 == 0
    }

    /// A line there and back: clear both ways or neither.
    pub fn sight_both(&mut self, store: &Lent<u32>, scene: u32, from: [u32; 3], to: [u32; 3]) {
        let there = self.sight(store, scene, from, to);
        let back = self.sight(store, scene, to, from);
        if there != back {
            println!("DIFFERENCE between a line there and back: from {from:?} to {to:?} clear {there}, the other way {back}");
            println!("seed {} episode {}", self.seed, self.episode);
            std::process::exit(1);
        }
    }

    pub fn cell(&mut self, store: &Lent<u32>, scene: u32, height: u32, at: [u32; 3]) -> u32 {
        let mine = store.clone();
        let (mut a, mut b) = (self.random.word(), self.random.word());
        let here = self.library.cell(mine.slice(), scene, height, at, &mut a);
        let there = self.twin.cell(store.slice(), scene, height, at, &mut b);
        let number = self.judge("cell", (here, a), (there, b), mine == *store, || {
            format!("store {}\nscene {scene} height {height} at {at:?}", hex(store.slice()))
        });
        self.note("cell", number, if a == 1 { "non-empty" } else { "empty" });
        self.agree("cell", number, a == 1, rooms::cell(store.slice(), scene, height, at[0], at[1], at[2]));
        number
    }

    /// Answers the count.
    fn box_count(&mut self, store: &Lent<u32>, scene: u32, low: [u32; 3], high: [u32; 3]) -> Option<u64> {
        let mine = store.clone();
        let (mut a, mut b) = (self.random.next(), self.random.next());
        let here = self.library.box_count(mine.slice(), scene, low, high, &mut a);
        let there = self.twin.box_count(store.slice(), scene, low, high, &mut b);
        let number = self.judge("box", (here, a), (there, b), mine == *store, || {
            format!("store {}\nscene {scene} low {low:?} high {high:?}", hex(store.slice()))
        });
        self.note(
            "box",
            number,
            if a == 0 {
                "none solid"
            } else if a == 1 {
                "one solid"
            } else {
                "more solid"
            },
        );
        self.agree("box_count", number, a, rooms::box_count(store.slice(), scene, low, high));
        (number == 0).then_some(a)
    }

    /// Answers whether there is anything.
    pub fn anything(&mut self, store: &Lent<u32>, scene: u32, low: [u32; 3], high: [u32; 3]) -> Option<bool> {
        let mine = store.clone();
        let mut noise = || (self.random.word(), self.random.next());
        let (mut a, mut b) = (noise(), noise());
        let here = self.library.anything(mine.slice(), scene, low, high, &mut a.0, &mut a.1);
        let there = self.twin.anything(store.slice(), scene, low, high, &mut b.0, &mut b.1);
        let number = self.judge("any", (here, a), (there, b), mine == *store, || {
            format!("store {}\nscene {scene} low {low:?} high {high:?}", hex(store.slice()))
        });
        let straight = stores::scene(store.slice(), scene).map_or(0, |(depth, _)| depth as u64 - 1);
        self.note(
            "any",
            number,
            match a {
                (1, entered) if entered == straight => "yes, in the first leaf",
                (1, _) => "yes, after other cells",
                (_, 0) => "no, no cell entered",
                (_, 1) => "no, the root entered",
                _ => "no, more cells entered",
            },
        );
        self.agree("anything", number, Anything { solid: a.0 == 1, entered: a.1 }, rooms::anything(store.slice(), scene, low, high));
        (number == 0).then_some(a.0 == 1)
    }

    /// A box counted, and asked whether it holds anything. Where the store is undamaged as a whole the two say the same of it.
    pub fn box_both(&mut self, store: &Lent<u32>, scene: u32, low: [u32; 3], high: [u32; 3]) {
        let count = self.box_count(store, scene, low, high);
        let solid = self.anything(store, scene, low, high);
        let (Some(count), Some(solid)) = (count, solid) else { return };
        if solid != (count > 0) && self.twin.outline(store.slice(), scene, &mut [], &mut 0) != 2 {
            println!("DIFFERENCE between a count and anything in the way: {count} solid, anything {solid}");
            println!("scene {scene} low {low:?} high {high:?}, seed {} episode {}", self.seed, self.episode);
            std::process::exit(1);
        }
    }

    pub fn kept(&mut self, store: &Lent<u32>, height: u32) -> u32 {
        let mine = store.clone();
        let (mut a, mut b) = (self.random.word(), self.random.word());
        let here = self.library.kept(mine.slice(), height, &mut a);
        let there = self.twin.kept(store.slice(), height, &mut b);
        let number = self.judge("kept", (here, a), (there, b), mine == *store, || format!("store {}\nheight {height}", hex(store.slice())));
        self.agree("kept", number, a, rooms::kept(store.slice(), height));
        number
    }

    /// Answers the bytes written.
    pub fn outline(&mut self, store: &Lent<u32>, scene: u32, room: usize) -> Option<Vec<u8>> {
        let mine = store.clone();
        let mut out = self.noise_bytes(room);
        let mut out_mine = out.clone();
        let (mut a, mut b) = (self.random.word(), self.random.word());
        let here = self.library.outline(mine.slice(), scene, out_mine.slice_mut(), &mut a);
        let there = self.twin.outline(store.slice(), scene, out.slice_mut(), &mut b);
        let same = mine == *store && out_mine == out;
        let number =
            self.judge("outline", (here, a), (there, b), same, || format!("store {}\nscene {scene} room {room}", hex(store.slice())));
        if self.random.once_in(4) {
            let mut third = vec![0; room];
            self.agree("outline", number, a, rooms::outline(store.slice(), scene, &mut third));
            assert!(third[..a as usize] == out.slice()[..a as usize]);
        }
        (number == 0).then(|| out.slice()[..a as usize].to_vec())
    }

    /// Answers the bytes written.
    pub fn pack(&mut self, store: &Lent<u32>, scene: u32, words: usize, room: usize) -> Option<Vec<u8>> {
        self.packing(&PACK, store, scene, words, room)
    }

    /// Answers the bytes written.
    pub fn headset_pack(&mut self, store: &Lent<u32>, scene: u32, words: usize, room: usize) -> Option<Vec<u8>> {
        self.packing(&HEADSET_PACK, store, scene, words, room)
    }

    fn packing(&mut self, by: &Packing, store: &Lent<u32>, scene: u32, words: usize, room: usize) -> Option<Vec<u8>> {
        let mine = store.clone();
        let mut scratch = self.noise_words(words);
        let mut scratch_mine = scratch.clone();
        let mut out = self.noise_bytes(room);
        let mut out_mine = out.clone();
        let (mut a, mut b) = (self.random.word(), self.random.word());
        let here = (by.library)(&mut self.library, mine.slice(), scene, scratch_mine.slice_mut(), out_mine.slice_mut(), &mut a);
        let there = (by.twin)(&mut self.twin, store.slice(), scene, scratch.slice_mut(), out.slice_mut(), &mut b);
        let same = mine == *store && out_mine == out && scratch_mine == scratch;
        let number = self.judge(by.call, (here, a), (there, b), same, || {
            format!("store {}\nscene {scene} scratch {words} room {room}", hex(store.slice()))
        });
        if self.random.once_in(4) {
            let mut third = vec![0; room];
            self.agree(by.call, number, a, (by.safe)(store.slice(), scene, &mut vec![9; words], &mut third));
            assert!(third[..a as usize] == out.slice()[..a as usize]);
        }
        (number == 0).then(|| out.slice()[..a as usize].to_vec())
    }

    pub fn check(&mut self, file: &[u8], room: usize) -> u32 {
        self.checking(&CHECK, file, room)
    }

    pub fn headset_check(&mut self, file: &[u8], room: usize) -> u32 {
        self.checking(&HEADSET_CHECK, file, room)
    }

    fn checking(&mut self, by: &Checking, file: &[u8], room: usize) -> u32 {
        let file = self.lend_bytes(file);
        let file_mine = file.clone();
        let mut scratch = self.noise_bytes(room);
        let mut scratch_mine = scratch.clone();
        let (mut a, mut b) = (self.random.word(), self.random.word());
        let here = (by.library)(&mut self.library, file_mine.slice(), scratch_mine.slice_mut(), &mut a);
        let there = (by.twin)(&mut self.twin, file.slice(), scratch.slice_mut(), &mut b);
        let same = file_mine == file && scratch_mine == scratch;
        let number = self.judge(by.call, (here, a), (there, b), same, || format!("file {}\nscratch {room}", hex(file.slice())));
        if self.random.once_in(4) {
            self.agree(by.call, number, a, (by.safe)(file.slice(), &mut vec![9; room]));
        }
        number
    }

    pub fn packed_voxel(&mut self, file: &[u8], at: [u32; 3]) -> u32 {
        let file = self.lend_bytes(file);
        let mine = file.clone();
        let (mut a, mut b) = ([self.random.word(), 7, 9], [self.random.word(), 8, 10]);
        let [solid, records, height] = &mut a;
        let here = self.library.packed_voxel(mine.slice(), at, solid, records, height);
        let [solid, records, height] = &mut b;
        let there = self.twin.packed_voxel(file.slice(), at, solid, records, height);
        let number = self.judge("packed_voxel", (here, a), (there, b), mine == file, || format!("file {}\nat {at:?}", hex(file.slice())));
        self.note("packed_voxel", number, kind(a[0], a[2]));
        let found = Found { solid: a[0] == 1, records: a[1], height: a[2] };
        self.agree("packed_voxel", number, found, rooms::packed_voxel(file.slice(), at[0], at[1], at[2]));
        if a[2] > 0 {
            let other = self.random.in_cell(at, a[2]);
            let [solid, records, height] = &mut b;
            let there = self.library.packed_voxel(mine.slice(), other, solid, records, height);
            self.alike("packed_voxel", [at, other], (here, a), (there, b));
        }
        number
    }

    /// Answers the numbers written.
    pub fn open(&mut self, file: &[u8], room: usize) -> Option<Vec<u32>> {
        let file = self.lend_bytes(file);
        let mine = file.clone();
        let mut numbers = self.noise_words(room);
        let mut numbers_mine = numbers.clone();
        let here = self.library.open(mine.slice(), numbers_mine.slice_mut());
        let there = self.twin.open(file.slice(), numbers.slice_mut());
        let same = mine == file && numbers_mine == numbers;
        let number = self.judge("open", (here, ()), (there, ()), same, || {
            format!(
                "file {}\nroom {room}\nnumbers, library {}\nnumbers, twin {}",
                hex(file.slice()),
                hex(numbers_mine.slice()),
                hex(numbers.slice())
            )
        });
        if room >= 16 {
            let told = |numbers: &[u32]| -> Vec<u32> { numbers[..16].to_vec() };
            let answer =
                rooms::open(file.slice()).map(|o| std::iter::once(o.depth()).chain((2..=16).map(|h| o.start(h).unwrap())).collect());
            self.agree("open", number, told(numbers.slice()), answer);
        }
        (number == 0).then(|| numbers.slice().to_vec())
    }

    pub fn ask(&mut self, file: &[u8], numbers: &[u32], at: [u32; 3]) -> u32 {
        let file = self.lend_bytes(file);
        let mine = file.clone();
        let numbers = self.lend_words(numbers);
        let numbers_mine = numbers.clone();
        let (mut a, mut b) = ([self.random.word(), 7, 9], [self.random.word(), 8, 10]);
        let [solid, records, height] = &mut a;
        let here = self.library.ask(mine.slice(), numbers_mine.slice(), at, solid, records, height);
        let [solid, records, height] = &mut b;
        let there = self.twin.ask(file.slice(), numbers.slice(), at, solid, records, height);
        let same = mine == file && numbers_mine == numbers;
        let clause = self.twin.clause;
        let number = self.judge("ask", (here, a), (there, b), same, || {
            format!("file {}\nnumbers {}\nat {at:?}", hex(file.slice()), hex(numbers.slice()))
        });
        self.note("ask", number, kind(a[0], a[2]));
        if !["numbers", "doesn't open", "other numbers"].contains(&clause) {
            let found = Found { solid: a[0] == 1, records: a[1], height: a[2] };
            let answer = rooms::open(file.slice()).and_then(|o| o.voxel(at[0], at[1], at[2]));
            self.agree("Opened::voxel", number, found, answer);
        }
        number
    }

    pub fn detail(&mut self, depth: u32, kind: u32, a: f64, b: f64) -> u32 {
        let (mut x, mut y) = (self.random.word(), self.random.word());
        let here = self.library.detail(depth, kind, a, b, &mut x);
        let there = self.twin.detail(depth, kind, a, b, &mut y);
        let number = self.judge("detail", (here, x), (there, y), true, || {
            format!("depth {depth} kind {kind} a {a:e} ({:x}) b {b:e} ({:x})", a.to_bits(), b.to_bits())
        });
        let wish = match kind {
            0 => Wish::EveryVoxel,
            1 => Wish::WidestEdge(a),
            2 => Wish::Distance { distance: a, factor: b },
            _ => return number,
        };
        self.agree("detail", number, x, rooms::detail(depth, wish));
        number
    }
}
