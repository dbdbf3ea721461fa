//! Episodes: each makes a store or a file of some kind and asks it everything that suits it.

use crate::generator::packed::Draft;
use crate::generator::rooms::{damaged, deeper, kin, room, wide, with_length, Room};
use crate::generator::{stores, Random};
use crate::lent::Lent;
use crate::Compare;

impl Compare {
    /// A new store over noise.
    fn fresh(&mut self, capacity: usize) -> Lent<u32> {
        let spare = self.random.below(4);
        let mut store = self.noise_words(stores::used(capacity) + spare);
        self.new_store(&mut store, capacity as u32);
        store
    }

    /// Rooms added one after the other, asked, written, packed and checked; broken outlines among them.
    fn rooms(&mut self) {
        let capacity = self.random.pick(&[1, 1, 2, 2, 3, 4, 5, 7, 10, 16, 30]);
        let mut store = self.fresh(capacity);
        let leaves = self.random.pick(&[1, 3, 10, 30]);
        let mut earlier: Vec<Room> = Vec::new();
        for _ in 0..self.random.from_to(2, 12) {
            let next = match earlier.len() {
                n if n > 0 && self.random.once_in(3) => {
                    let n = self.random.below(n);
                    kin(&mut self.random, &earlier[n])
                }
                _ => room(&mut self.random, leaves),
            };
            let file = next.outline();
            if self.random.once_in(3) {
                let broken = damaged(&mut self.random, &file);
                self.add(&mut store, &broken);
            }
            self.add(&mut store, &file);
            earlier.push(next);
            self.ask_store(&store, 1);
        }
        self.ask_store(&store, 4);
        for _ in 0..4 {
            self.ask_outline(&store);
            if let Some(file) = self.ask_pack(&store) {
                let points = self.solid(&file);
                self.ask_packed(&file, 4, &points);
            }
            self.ask_headset_pack(&store);
        }
    }

    /// Small rooms up to 64 scenes and past them, most of them of a family.
    fn many(&mut self) {
        let capacity = self.random.from_to(4, 24);
        let mut store = self.fresh(capacity);
        let mut family: Vec<Room> = Vec::new();
        let mut file = room(&mut self.random, 2).outline();
        for n in 0..90 {
            let broken = n > 50 && self.random.once_in(5);
            let next = if broken { damaged(&mut self.random, &file) } else { file.clone() };
            self.add(&mut store, &next);
            let next = if family.is_empty() || self.random.once_in(6) {
                room(&mut self.random, 2)
            } else {
                let n = self.random.below(family.len());
                kin(&mut self.random, &family[n])
            };
            file = next.outline();
            if file.len() < 1_000 {
                family.push(next);
            }
            if self.random.once_in(8) {
                self.ask_store(&store, 1);
            }
        }
        for _ in 0..4 {
            self.ask_store(&store, 2);
            self.ask_outline(&store);
            self.ask_pack(&store);
            self.ask_headset_pack(&store);
        }
    }

    /// An outline broken in many ways, against one store.
    fn outlines(&mut self) {
        let capacity = self.random.from_to(2, 6);
        let store = self.fresh(capacity);
        let file = room(&mut self.random, 6).outline();
        for _ in 0..60 {
            let mut one = store.clone();
            let mut broken = damaged(&mut self.random, &file);
            if self.random.once_in(4) {
                broken = damaged(&mut self.random, &broken);
            }
            self.add(&mut one, &broken);
        }
    }

    /// A store with words changed, one or two at a time, asked everything.
    fn damaged_stores(&mut self) {
        let capacity = self.random.from_to(1, 6);
        let mut store = self.fresh(capacity);
        for _ in 0..self.random.from_to(1, 5) {
            let file = room(&mut self.random, 6).outline();
            self.add(&mut store, &file);
        }
        if self.random.once_in(2) {
            let made = stores::by_hand(&mut self.random, capacity, 2);
            store = self.lend_words(&made);
        }
        let file = room(&mut self.random, 3).outline();
        for _ in 0..14 {
            let mut words = store.slice().to_vec();
            if self.random.once_in(8) {
                stores::empty_a_cell(&mut self.random, &mut words);
            }
            if self.random.once_in(4) {
                stores::wrong_count(&mut self.random, &mut words);
            }
            if self.random.once_in(30) {
                stores::wrapping_counts(&mut self.random, &mut words);
            }
            if self.random.once_in(8) {
                stores::header_end(&mut self.random, &mut words);
            }
            for _ in 0..self.random.pick(&[0, 1, 1, 1, 2, 3]) {
                stores::damage(&mut self.random, &mut words);
            }
            // damage that chains tell of, or that they don't
            if self.random.once_in(2) {
                stores::chain_up(&mut words);
            }
            if self.random.once_in(10) {
                let length = self.random.pick(&[0, 1, 31, 32, 159, 160, stores::lists(capacity), stores::used(capacity) - 1]);
                words.truncate(length);
            }
            let mut one = self.lend_words(&words);
            self.ask_store(&one, 2);
            for _ in 0..3 {
                self.ask_sight(&one);
            }
            self.ask_kept(&one);
            self.ask_outline(&one);
            self.ask_pack(&one);
            self.ask_headset_pack(&one);
            self.add(&mut one, &file);
        }
    }

    /// Stores put together by hand: cells that match, tags that are not the lowest, cells that no scene reaches.
    fn by_hand(&mut self) {
        let capacity = self.random.from_to(1, 9);
        let spare = self.random.below(4);
        let made = stores::by_hand(&mut self.random, capacity, spare);
        let mut store = self.lend_words(&made);
        self.ask_store(&store, 4);
        for _ in 0..3 {
            let file = room(&mut self.random, 5).outline();
            self.add(&mut store, &file);
            self.ask_outline(&store);
            if let Some(file) = self.ask_pack(&store) {
                self.ask_packed(&file, 3, &[]);
            }
            self.ask_headset_pack(&store);
            // an outline of the store's own, added again
            let scene = self.some_scene(&store);
            if let Some(file) = self.outline(&store, scene, 3_000) {
                self.add(&mut store, &file);
            }
        }
        self.ask_store(&store, 2);
    }

    /// A full room of depth 16: boxes of whole cells, and a length past 32 bits.
    fn full(&mut self) {
        let made = stores::full_by_hand(&mut self.random);
        let store = self.lend_words(&made);
        for n in 0..3 {
            let depth = 16 - n;
            let edge = 1u32 << depth;
            self.box_both(&store, n, [0; 3], [edge; 3]);
            self.box_both(&store, n, [0, edge / 2, 0], [edge / 2, edge, edge / 2]);
            self.box_both(&store, n, [edge - 1; 3], [edge; 3]);
            self.box_both(&store, n, [0, edge / 4, 0], [edge, edge / 2, 3 * (edge / 4)]);
            self.box_both(&store, n, [5, 0, 9], [6, 3, 100]);
            for _ in 0..4 {
                let at = self.random.point(depth);
                self.voxel(&store, n, at);
                self.cell(&store, n, 2, at.map(|c| c / 4));
                let to = self.random.point(depth);
                self.sight_both(&store, n, at, to);
            }
            self.outline(&store, n, 30_000);
            let room = self.random.from_to(100, 400);
            if let Some(file) = self.pack(&store, n, 60, room) {
                self.ask_packed(&file, 3, &[]);
            }
            self.headset_pack(&store, n, 60, room);
        }
    }

    fn noise(&mut self) {
        for _ in 0..12 {
            let words = stores::noise(&mut self.random);
            let mut store = self.lend_words(&words);
            self.ask_store(&store, 1);
            self.ask_kept(&store);
            self.ask_outline(&store);
            self.ask_pack(&store);
            self.ask_headset_pack(&store);
            let file = room(&mut self.random, 3).outline();
            self.add(&mut store, &file);
            let length = self.random.from_to(0, 40);
            let mut bytes = self.random.bytes(length);
            for (i, front) in [(0, 0x22), (5, self.random.from_to(2, 5) as u8), (6, self.random.below(9) as u8)] {
                if i < length && !self.random.once_in(6) {
                    bytes[i] = front;
                }
            }
            if !self.random.once_in(4) {
                bytes = with_length(bytes);
            }
            self.ask_packed(&bytes, 2, &[]);
            self.add(&mut store, &bytes);
        }
    }

    /// A packed file changed in many ways: rule by rule, and byte by byte.
    fn packed_files(&mut self) {
        let capacity = self.random.from_to(3, 16);
        let mut store = self.fresh(capacity);
        let leaves = self.random.pick(&[2, 6, 12]);
        let mut file = None;
        for _ in 0..6 {
            let outline = room(&mut self.random, leaves).outline();
            if self.add(&mut store, &outline) == 0 {
                let scene = store.slice()[1] - 1;
                file = self.pack(&store, scene, 60 * capacity, 20_000);
                if file.as_ref().is_some_and(|f| f.len() > 30) {
                    break;
                }
            }
        }
        let Some(file) = file else { return };
        let points = self.solid(&file);
        self.ask_packed(&file, 4, &points);
        if let Some(draft) = Draft::read(&file) {
            assert!(draft.write() == file, "a packed file taken apart and written again is the same");
            for _ in 0..40 {
                let mut draft = draft.clone();
                for _ in 0..self.random.pick(&[1, 1, 1, 2, 3]) {
                    draft.change(&mut self.random);
                }
                let changed = draft.write();
                self.ask_packed(&changed, 2, &points);
            }
        }
        for _ in 0..25 {
            let mut changed = damaged(&mut self.random, &file);
            if self.random.once_in(5) {
                changed = damaged(&mut self.random, &changed);
            }
            // the sizes, on their own
            if self.random.once_in(5) && changed.len() > 15 {
                let at = self.random.from_to(7, 14);
                changed[at] = self.random.pick(&[0, 1, 0x20, 0x80, 0xff, changed[at].wrapping_add(1)]);
            }
            self.ask_packed(&changed, 2, &points);
        }
    }

    /// Lists with records at places 8,191 and 8,192 and past them: short and long pointers. The headset takes short ones only, and some of
    /// these rooms are too deep for it.
    fn far(&mut self) {
        let last = self.random.pick(&[2, 3]);
        let (before, after) = (908, self.random.below(14));
        let depth = self.random.pick(&[7, 7, 8, 10, 11]);
        let room = wide(&mut self.random, before, last, after);
        let outline = deeper(&mut self.random, room, depth).outline();
        let mut store = self.fresh(1_000);
        self.add(&mut store, &outline);
        self.outline(&store, 0, outline.len());
        self.headset_pack(&store, 0, 60_000, 65_536);
        let Some(file) = self.pack(&store, 0, 60_000, 65_536) else { return };
        for _ in 0..3 {
            let (words, room) = (60_000 - self.random.below(2), file.len() - self.random.below(2));
            self.headset_pack(&store, 0, words, room);
        }
        self.check(&file, file.len());
        self.headset_check(&file, file.len());
        let numbers = self.open(&file, 16).unwrap();
        let points = self.solid(&file);
        for _ in 0..200 {
            let at = self.packed_point(depth, &points);
            self.packed_voxel(&file, at);
            self.ask(&file, &numbers, at);
        }
        let draft = Draft::read(&file).unwrap();
        for _ in 0..8 {
            let mut draft = draft.clone();
            draft.change(&mut self.random);
            let changed = draft.write();
            let at = self.packed_point(depth, &points);
            self.packed_voxel(&changed, at);
            self.check(&changed, changed.len());
            let room = changed.len() - self.random.below(4) / 3;
            self.headset_check(&changed, room);
        }
    }

    /// Stores by hand with a list of about that length at some height: what is packed has a long pointer, or just none. Some have as many
    /// leaves, and so long pointers at two heights.
    fn long_pointers(&mut self) {
        let height = if self.random.once_in(6) { 2 } else { self.random.from_to(3, 6) };
        let mut words = stores::wide_by_hand(&mut self.random, height);
        let scratch = 60 * words[0] as usize;
        for n in 0..5 {
            let store = self.lend_words(&words);
            let scene = if n == 0 { 0 } else { self.random.below(3) as u32 };
            let (spare, room) = (self.random.below(3), 120_000);
            let file = self.pack(&store, scene, scratch + spare, room).unwrap();
            self.headset_pack(&store, scene, scratch + spare, room);
            let (less, room) = (self.random.below(2), file.len() - self.random.below(2));
            self.headset_pack(&store, scene, scratch - less, room);
            if n < 3 {
                self.headset_check(&file, file.len());
            }
            // a half-word more or less in its list; of a leaf's parent, where the leaves are many
            stores::resize_a_cell(&mut self.random, &mut words, height.max(3));
        }
    }

    /// Lines through rooms in which a pointer or two are bad: before the answer, behind it, beside the line, on the walk to an end.
    fn lines(&mut self) {
        let mut store = self.fresh(90);
        for _ in 0..3 {
            let file = room(&mut self.random, 40).outline();
            self.add(&mut store, &file);
        }
        for _ in 0..10 {
            let mut words = store.slice().to_vec();
            for _ in 0..self.random.below(3) {
                stores::bad_pointer(&mut self.random, &mut words);
            }
            let one = self.lend_words(&words);
            for _ in 0..8 {
                self.ask_sight(&one);
            }
        }
    }

    /// Boxes in rooms with a wrong count or two, and bad pointers below counts: the answer shows which counts are taken.
    fn counts(&mut self) {
        let mut store = self.fresh(60);
        for _ in 0..3 {
            let file = room(&mut self.random, 25).outline();
            self.add(&mut store, &file);
        }
        for _ in 0..10 {
            let mut words = store.slice().to_vec();
            for _ in 0..self.random.below(4) {
                stores::wrong_count(&mut self.random, &mut words);
            }
            if self.random.once_in(2) {
                stores::bad_pointer(&mut self.random, &mut words);
            }
            let one = self.lend_words(&words);
            for _ in 0..12 {
                self.ask_box(&one);
            }
            self.ask_outline(&one);
        }
    }

    /// Stores with long chains, written by the calls and by hand: rooms added along them, then a chain or two made wrong. Add, outline and
    /// pack refuse, questions answer as before.
    fn chains(&mut self) {
        let capacity = self.random.pick(&[4, 9, 20, 60]);
        let mut store = self.fresh(capacity);
        if self.random.once_in(2) {
            let made = stores::long_chains(&mut self.random, capacity);
            store = self.lend_words(&made);
        }
        let leaves = self.random.pick(&[3, 10, 25]);
        for _ in 0..4 {
            let file = room(&mut self.random, leaves).outline();
            self.add(&mut store, &file);
            let scene = self.some_scene(&store);
            if let Some(file) = self.outline(&store, scene, 3_000) {
                self.add(&mut store, &file);
            }
        }
        self.ask_pack(&store);
        self.ask_headset_pack(&store);
        let file = room(&mut self.random, 2).outline();
        for _ in 0..12 {
            let mut words = store.slice().to_vec();
            for _ in 0..self.random.pick(&[1, 1, 1, 2]) {
                stores::wrong_chain(&mut self.random, &mut words);
            }
            let mut one = self.lend_words(&words);
            self.ask_store(&one, 1);
            self.ask_kept(&one);
            self.ask_outline(&one);
            self.ask_pack(&one);
            self.ask_headset_pack(&one);
            self.add(&mut one, &file);
        }
    }

    /// Boxes asked for anything in rooms in which a pointer or two are bad and counts are wrong: before the answer, behind it, beside the box.
    fn ways(&mut self) {
        let mut store = self.fresh(70);
        for _ in 0..3 {
            let file = room(&mut self.random, 30).outline();
            self.add(&mut store, &file);
        }
        for _ in 0..10 {
            let mut words = store.slice().to_vec();
            for _ in 0..self.random.below(3) {
                stores::bad_pointer(&mut self.random, &mut words);
            }
            if self.random.once_in(4) {
                stores::empty_a_cell(&mut self.random, &mut words);
            }
            if self.random.once_in(4) {
                stores::wrong_count(&mut self.random, &mut words);
            }
            let one = self.lend_words(&words);
            for _ in 0..6 {
                self.ask_box(&one);
                self.ask_past(&one);
            }
        }
    }

    /// Rooms up to depth 16 that have next to nothing in cells upon cells: many of them entered, of few that are kept.
    fn hollow(&mut self) {
        let made = stores::hollow_by_hand(&mut self.random);
        let store = self.lend_words(&made);
        for n in 0..4 {
            let (depth, _) = stores::scene(store.slice(), n).unwrap();
            let edge = 1u32 << depth;
            self.box_both(&store, n, [0; 3], [edge; 3]);
            for _ in 0..6 {
                let height = self.random.below(depth as usize + 1) as u32;
                let at = self.some_voxel(&store, n).map(|c| c.min(edge - 1) >> height << height);
                self.box_both(&store, n, at, at.map(|c| c + (1 << height)));
            }
            // faces off the grid cut many cells, so in small rooms only
            if depth < 7 {
                for _ in 0..6 {
                    let low = [(); 3].map(|_| self.random.below(edge as usize) as u32);
                    let high = low.map(|c| self.random.from_to(c as usize, edge as usize) as u32);
                    self.box_both(&store, n, low, high);
                }
            }
        }
    }

    /// Deep rooms with little in them: lines from end to end, and long ones through something solid.
    fn long_lines(&mut self) {
        let mut store = self.fresh(60);
        for _ in 0..3 {
            let mut next = room(&mut self.random, 3);
            while next.depth < 12 {
                next = room(&mut self.random, 3);
            }
            let edge = 1 << next.depth;
            if self.add(&mut store, &next.outline()) != 0 {
                continue;
            }
            let scene = store.slice()[1] - 1;
            let end = |random: &mut Random| random.pick(&[0, 1, edge / 2, edge - 2, edge - 1]);
            let (from, to) = ([(); 3].map(|_| end(&mut self.random)), [(); 3].map(|_| end(&mut self.random)));
            self.sight_both(&store, scene, from, to);
            let (depth, root) = stores::scene(store.slice(), scene).unwrap();
            let Some(solid) = stores::solid(&mut self.random, store.slice(), depth as usize, root) else { continue };
            for most in [edge / 5, edge / 50] {
                // by the same steps from the solid voxel in both directions, as far as the room goes
                let step = [(); 3].map(|_| self.random.below(2 * most as usize + 1) as i64 - most as i64);
                let after = |n: i64| -> [i64; 3] { std::array::from_fn(|axis| solid[axis] as i64 + n * step[axis]) };
                let inside = |n: &i64| after(*n).iter().all(|c| (0..edge as i64).contains(c));
                let (back, forth) = ((-50..=0).find(inside).unwrap(), (0..=50).rev().find(inside).unwrap());
                self.sight_both(&store, scene, after(back).map(|c| c as u32), after(forth).map(|c| c as u32));
            }
        }
    }

    /// Rooms with hundreds of cells.
    fn large(&mut self) {
        let capacity = self.random.pick(&[60, 150, 400]);
        let mut store = self.fresh(capacity);
        for _ in 0..3 {
            let file = room(&mut self.random, 300).outline();
            self.add(&mut store, &file);
            self.ask_store(&store, 3);
        }
        for _ in 0..2 {
            self.ask_outline(&store);
            if let Some(file) = self.ask_pack(&store) {
                let points = self.solid(&file);
                self.ask_packed(&file, 10, &points);
                let changed = damaged(&mut self.random, &file);
                self.ask_packed(&changed, 2, &points);
            }
            self.ask_headset_pack(&store);
        }
    }

    fn new_stores(&mut self) {
        for _ in 0..40 {
            let capacity = self.random.from_to(1, 12);
            let length = match self.random.below(4) {
                0 => self.random.pick(&[stores::lists(capacity), stores::used(capacity) - 1, stores::used(capacity) - 1]),
                1 => self.random.below(4_400),
                _ => stores::used(capacity) + self.random.below(3),
            };
            let asked = match self.random.below(6) {
                // for the last but one the words are 4,221 modulo 2^32
                0 => self.random.pick(&[0, 65_536, 65_537, 1 << 31, u32::MAX, 27_356_481, 1 << 26]),
                _ => capacity as u32,
            };
            let mut store = self.noise_words(length);
            self.new_store(&mut store, asked);
        }
    }

    /// The greatest capacity, with enough words and with one too few.
    fn greatest(&mut self) {
        let most = stores::used(65_536);
        for length in [most - 1, most, most + 1] {
            let mut store = Lent::new(&vec![0x5a5a_5a5a; length], &[1, 2, 3, 4, 5, 6]);
            for capacity in [65_537, 65_536] {
                self.new_store(&mut store, capacity);
            }
            if length == most {
                let file = room(&mut self.random, 20).outline();
                self.add(&mut store, &file);
                self.ask_store(&store, 1);
                self.ask_outline(&store);
            }
        }
    }

    fn details(&mut self) {
        for _ in 0..120 {
            let depth =
                if self.random.once_in(8) { self.random.pick(&[0, 1, 17, 18, 255, u32::MAX]) } else { self.random.from_to(2, 16) as u32 };
            let kind = if self.random.once_in(20) { self.random.pick(&[3, 4, 256, u32::MAX]) } else { self.random.below(3) as u32 };
            let (a, b) = self.random.wish();
            self.detail(depth, kind, a, b);
        }
    }

    /// An episode by its number, from the seed and that number alone.
    pub fn episode(&mut self, episode: u64) {
        self.episode = episode;
        self.random = Random::new(self.seed.wrapping_add(episode.wrapping_mul(0x1000_0000_01b3)));
        match episode {
            0 => self.greatest(),
            _ if episode % 300 == 1 => self.far(),
            _ if episode % 300 == 2 => self.long_lines(),
            _ if episode % 40 == 3 => self.long_pointers(),
            _ => match self.random.below(40) {
                0..=7 => self.rooms(),
                8 => self.chains(),
                9 => self.ways(),
                10..=11 => self.many(),
                12..=14 => self.outlines(),
                15..=20 => self.damaged_stores(),
                21..=23 => self.by_hand(),
                24 => self.counts(),
                25 => self.lines(),
                26 if self.random.once_in(2) => self.hollow(),
                26 => self.full(),
                27..=28 => self.noise(),
                29..=35 => self.packed_files(),
                36 => self.large(),
                37 => self.new_stores(),
                _ => self.details(),
            },
        }
    }
}
