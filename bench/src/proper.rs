//! Packed files made byte by byte that keep every rule of a proper file, for the check: with so many records, ordinary ones or
//! such as a search for equal records by a simple key would stumble over.
use crate::classes::mirrored_leaf;
use crate::questions::Numbers;
use std::collections::HashSet;

#[derive(Clone, Copy, PartialEq)]
pub enum Kind {
    /// Leaves of any number of ones, each named once.
    Clean,
    /// All leaves with 32 ones.
    EqualOnes,
    /// All cells of height 3 with the same eight children, in other places or under another mirror.
    EqualChildren,
}

/// A list: its bytes, and each record's place.
struct List {
    bytes: Vec<u8>,
    places: Vec<u32>,
}

/// A packed file of about so many records, never more, with how many it has.
pub fn file(kind: Kind, records: usize) -> (Vec<u8>, usize) {
    let mut below = widest(records, if kind == Kind::EqualChildren { 8 } else { 0 });
    let mut lists = Vec::new();
    if kind == Kind::EqualChildren {
        let eight = leaf_list(8, |ones| ones == 11);
        let same = inner_list(
            &same_children(below)
                .map(|(order, tag)| {
                    let tags = |i: usize| if i == 7 { tag } else { 0 };
                    (0..8).map(|i| (tags(i), eight.places[order[i]])).collect()
                })
                .collect::<Vec<_>>(),
        );
        lists.extend([eight, same]);
    } else {
        lists.push(leaf_list(below, |ones| kind == Kind::Clean || ones == 32));
    }
    while below > 1 {
        let children = &lists[lists.len() - 1].places;
        let each = children
            .chunks(8)
            .map(|some| some.iter().map(|&place| (0, place)).collect());
        let list = inner_list(&each.collect::<Vec<_>>());
        below = list.places.len();
        lists.push(list);
    }
    let count = lists.iter().map(|list| list.places.len()).sum();
    (packed(&lists), count)
}

/// The widest list such that it, the lists that name it eight by eight up to one root, and `more` leaves have so many records.
fn widest(records: usize, more: usize) -> usize {
    let total = |n: usize| {
        let (mut sum, mut list) = (more, n);
        while list > 1 {
            sum += list;
            list = list.div_ceil(8);
        }
        sum + 1
    };
    (2..records).rev().find(|&n| total(n) <= records).unwrap()
}

/// Leaves no two of which match under a mirror, of wished numbers of ones.
fn leaf_list(count: usize, wished: impl Fn(u32) -> bool) -> List {
    let mut numbers = Numbers::new(5);
    let mut known = HashSet::new();
    let mut list = List {
        bytes: Vec::new(),
        places: Vec::new(),
    };
    while list.places.len() < count {
        let leaf = numbers.next();
        let images: [u64; 8] = std::array::from_fn(|t| mirrored_leaf(leaf, t as u32));
        let differ = images[1..].iter().all(|image| *image != leaf);
        if differ && wished(leaf.count_ones()) && known.insert(*images.iter().min().unwrap()) {
            list.places.push(list.places.len() as u32);
            list.bytes.extend_from_slice(&leaf.to_be_bytes());
        }
    }
    list
}

/// Orders of eight children with a tag for the last: no two such cells match, since tags agree in most places and the children
/// are no mirror images of themselves.
fn same_children(count: usize) -> impl Iterator<Item = ([usize; 8], u32)> {
    (0..count).map(|n| {
        let mut left: Vec<usize> = (0..8).collect();
        let mut rest = n % 40320;
        let order = std::array::from_fn(|i| {
            let child = left.remove(rest % (8 - i));
            rest /= 8 - i;
            child
        });
        (order, (n / 40320) as u32)
    })
}

/// A list of inner records, each of pointers (tag and place) in its first places.
fn inner_list(records: &[Vec<(u32, u32)>]) -> List {
    let mut list = List {
        bytes: Vec::new(),
        places: Vec::new(),
    };
    for pointers in records {
        list.places.push((list.bytes.len() / 2) as u32);
        let code = |place: u32| if place <= 8191 { 1u16 } else { 2 };
        let codes = (0..)
            .zip(pointers)
            .map(|(i, &(_, place))| code(place) << (2 * i));
        list.bytes
            .extend_from_slice(&codes.sum::<u16>().to_be_bytes());
        for &(tag, place) in pointers {
            match code(place) {
                1 => list
                    .bytes
                    .extend_from_slice(&((tag << 13 | place) as u16).to_be_bytes()),
                _ => list
                    .bytes
                    .extend_from_slice(&(tag << 29 | place).to_be_bytes()),
            }
        }
    }
    list
}

/// The file of these lists, leaves first, under mirror 0.
fn packed(lists: &[List]) -> Vec<u8> {
    let length = 7 + lists.iter().map(|list| 4 + list.bytes.len()).sum::<usize>();
    let mut file = vec![0x22];
    file.extend_from_slice(&(length as u32).to_be_bytes());
    file.extend_from_slice(&[lists.len() as u8 + 1, 0]);
    for (k, list) in lists.iter().enumerate().rev() {
        let unit = if k == 0 { 8 } else { 2 };
        file.extend_from_slice(&((list.bytes.len() / unit) as u32).to_be_bytes());
    }
    for list in lists.iter().rev() {
        file.extend_from_slice(&list.bytes);
    }
    file
}
