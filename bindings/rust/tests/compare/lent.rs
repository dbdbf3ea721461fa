//! Lent memory, and how it is shown.

use std::fmt::{LowerHex, Write};

/// Lent memory: the slice, with guards before and behind.
#[derive(Clone, PartialEq)]
pub struct Lent<T> {
    pub all: Vec<T>,
    pub length: usize,
}

/// Elements before the slice, and as many behind it.
pub const GUARD: usize = 3;

impl<T: Copy> Lent<T> {
    pub fn new(slice: &[T], guards: &[T]) -> Lent<T> {
        let mut all = guards[..GUARD].to_vec();
        all.extend_from_slice(slice);
        all.extend_from_slice(&guards[GUARD..]);
        Lent { all, length: slice.len() }
    }

    pub fn slice(&self) -> &[T] {
        &self.all[GUARD..GUARD + self.length]
    }

    pub fn slice_mut(&mut self) -> &mut [T] {
        &mut self.all[GUARD..GUARD + self.length]
    }
}

/// Words or bytes in hex, runs of one value as a count.
pub fn hex<T: Copy + PartialEq + LowerHex>(slice: &[T]) -> String {
    let mut text = format!("[{}]", slice.len());
    let mut i = 0;
    while i < slice.len() {
        let run = slice[i..].iter().take_while(|&&x| x == slice[i]).count();
        match run {
            1 => write!(text, " {:x}", slice[i]).unwrap(),
            _ => write!(text, " {:x}*{run}", slice[i]).unwrap(),
        }
        i += run;
    }
    text
}
