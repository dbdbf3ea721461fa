//! Slices of length 0 with a null pointer, as include/rooms.h allows: each call answers as it does for any slice of no elements.

use rooms::c::declared::*;
use std::ptr::{null, null_mut};

#[test]
fn null_pointers_of_length_0() {
    let mut store = vec![7; rooms::store_words(1)];
    let words = store.len();
    rooms::new_store(&mut store, 1).unwrap();
    rooms::add(&mut store, &[0x11, 0, 0, 0, 6, 2]).unwrap();
    let empty_scene = [0x22, 0, 0, 0, 7, 2, 8];
    let (mut a, mut b, mut c, mut d) = (9, 9, 9, 9);
    let mut scratch = vec![7; rooms::pack_scratch_words(1)];
    let store = store.as_mut_ptr();
    let file = empty_scene.as_ptr();
    unsafe {
        assert_eq!(rooms_new(null_mut(), 0, 1), 1);
        assert_eq!((rooms_add(null_mut(), 0, null(), 0, &mut a), a), (2, 0));
        assert_eq!((rooms_add(store, words, null(), 0, &mut a), a), (3, 0));
        assert_eq!((rooms_voxel(null(), 0, 0, 0, 0, 0, &mut a, &mut b), a, b), (2, 0, 0));
        b = 9;
        let sight = rooms_sight(null(), 0, 0, 0, 0, 0, 1, 1, 1, &mut a, &mut b, &mut c, &mut d);
        assert_eq!((sight, a, b, c, d), (2, 0, 0, 0, 0));
        assert_eq!((rooms_cell(null(), 0, 0, 2, 0, 0, 0, &mut a), a), (2, 0));
        let mut count = 9;
        assert_eq!((rooms_box(null(), 0, 0, 0, 0, 0, 1, 1, 1, &mut count), count), (2, 0));
        (a, count) = (9, 9);
        assert_eq!((rooms_any(null(), 0, 0, 0, 0, 0, 1, 1, 1, &mut a, &mut count), a, count), (2, 0, 0));
        assert_eq!((rooms_kept(null(), 0, 2, &mut a), a), (2, 0));
        assert_eq!((rooms_outline(store, words, 0, null_mut(), 0, &mut a), a), (12, 0));
        assert_eq!((rooms_pack(store, words, 0, null_mut(), 0, null_mut(), 0, &mut a), a), (11, 0));
        assert_eq!((rooms_headset_pack(null(), 0, 0, null_mut(), 0, null_mut(), 0, &mut a), a), (2, 0));
        assert_eq!((rooms_headset_pack(store, words, 0, null_mut(), 0, null_mut(), 0, &mut a), a), (11, 0));
        a = 9;
        let short = rooms_headset_pack(store, words, 0, scratch.as_mut_ptr(), scratch.len(), null_mut(), 0, &mut a);
        assert_eq!((short, a), (12, 0));
        assert!(scratch.iter().all(|&word| word == 0));
        assert_eq!((rooms_check(null(), 0, null_mut(), 0, &mut a), a), (3, 0));
        assert_eq!((rooms_check(file, 7, null_mut(), 0, &mut a), a), (11, 0));
        assert_eq!((rooms_headset_check(null(), 0, null_mut(), 0, &mut a), a), (3, 0));
        assert_eq!((rooms_headset_check(file, 7, null_mut(), 0, &mut a), a), (11, 0));
        (b, c) = (9, 9);
        assert_eq!((rooms_packed_voxel(null(), 0, 0, 0, 0, &mut a, &mut b, &mut c), a, b, c), (3, 0, 0, 0));
        assert_eq!(rooms_open(null(), 0, null_mut(), 0), 3);
        assert_eq!(rooms_open(file, 7, null_mut(), 0), 12);
        (a, b, c) = (9, 9, 9);
        assert_eq!((rooms_ask(file, 7, null(), 0, 0, 0, 0, &mut a, &mut b, &mut c), a, b, c), (6, 0, 0, 0));
    }
}
