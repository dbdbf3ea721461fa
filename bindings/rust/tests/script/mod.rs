//! The player of scripts of calls: docs/replay.md has the commands and their lines.

use crate::calls::Calls;
use std::fmt::Write;

const MOST_SCRIPT: usize = 262_144;
const MOST_STORE: u32 = 262_144;
const MOST_SCRATCH: u32 = 131_072;
const MOST_BYTES: u32 = 65_536;

/// What lent memory holds before a call.
fn filled_bytes(n: u32) -> Vec<u8> {
    (0..n).map(|i| (7 * i + 3) as u8).collect()
}

fn filled_words(n: u32) -> Vec<u32> {
    (0..n).map(|i| 2_654_435_761u32.wrapping_mul(i).wrapping_add(12_345)).collect()
}

fn sum(bytes: &[u8]) -> u64 {
    bytes.iter().fold(1, |h, &b| (h * 1_000_003 + b as u64 + 1) % 2_147_483_647)
}

fn sum_words(words: &[u32]) -> u64 {
    sum(&words.iter().flat_map(|w| w.to_be_bytes()).collect::<Vec<u8>>())
}

/// What is left of a script.
struct Script<'a> {
    rest: &'a [u8],
}

impl<'a> Script<'a> {
    fn take(&mut self, n: usize) -> Option<&'a [u8]> {
        let part = self.rest.get(..n)?;
        self.rest = &self.rest[n..];
        Some(part)
    }

    fn byte(&mut self) -> Option<u8> {
        Some(self.take(1)?[0])
    }

    fn word(&mut self) -> Option<u32> {
        Some(u32::from_be_bytes(self.take(4)?.try_into().unwrap()))
    }

    fn float(&mut self) -> Option<f64> {
        Some(f64::from_bits(u64::from_be_bytes(self.take(8)?.try_into().unwrap())))
    }

    fn point(&mut self) -> Option<[u32; 3]> {
        Some([self.word()?, self.word()?, self.word()?])
    }

    /// A number up to a limit.
    fn up_to(&mut self, most: u32) -> Option<u32> {
        self.word().filter(|&n| n <= most)
    }
}

/// What a script of calls prints, behind what stands in `out`.
pub fn play(script: &[u8], calls: &mut impl Calls, out: &mut String) {
    if script.len() > MOST_SCRIPT || commands(&mut Script { rest: script }, calls, out).is_none() {
        out.push_str("stop\n");
    }
}

fn commands(script: &mut Script, calls: &mut impl Calls, out: &mut String) -> Option<()> {
    let mut store: Vec<u32> = Vec::new();
    let mut file: Vec<u8> = Vec::new();
    while !script.rest.is_empty() {
        // the out parameters; each call writes its own
        let (mut value, mut records, mut height, mut count) = (u32::MAX, u32::MAX, u32::MAX, u64::MAX);
        match script.byte()? {
            b'N' => {
                let (capacity, words) = (script.word()?, script.up_to(MOST_STORE)?);
                store = filled_words(words);
                let number = calls.new_store(&mut store, capacity);
                writeln!(out, "new {number} store {}", sum_words(&store)).unwrap();
            }
            b'A' => {
                let length = script.word()? as usize;
                let number = calls.add(&mut store, script.take(length)?, &mut value);
                writeln!(out, "add {number} {value} store {}", sum_words(&store)).unwrap();
            }
            b'V' => {
                let number = calls.voxel(&store, script.word()?, script.point()?, &mut value, &mut height);
                writeln!(out, "voxel {number} {value} {height}").unwrap();
            }
            b'S' => {
                let mut at = [u32::MAX; 3];
                let number = calls.sight(&store, script.word()?, script.point()?, script.point()?, &mut value, &mut at);
                let [x, y, z] = at;
                writeln!(out, "sight {number} {value} {x} {y} {z}").unwrap();
            }
            b'C' => {
                let number = calls.cell(&store, script.word()?, script.word()?, script.point()?, &mut value);
                writeln!(out, "cell {number} {value}").unwrap();
            }
            b'B' => {
                let number = calls.box_count(&store, script.word()?, script.point()?, script.point()?, &mut count);
                writeln!(out, "box {number} {count}").unwrap();
            }
            b'Y' => {
                let number = calls.anything(&store, script.word()?, script.point()?, script.point()?, &mut value, &mut count);
                writeln!(out, "any {number} {value} {count}").unwrap();
            }
            b'K' => {
                let number = calls.kept(&store, script.word()?, &mut value);
                writeln!(out, "kept {number} {value}").unwrap();
            }
            b'O' => {
                let scene = script.word()?;
                let mut room = filled_bytes(script.up_to(MOST_BYTES)?);
                let number = calls.outline(&store, scene, &mut room, &mut value);
                writeln!(out, "outline {number} {value} out {}", sum(&room)).unwrap();
            }
            b'P' => {
                let scene = script.word()?;
                let mut scratch = filled_words(script.up_to(MOST_SCRATCH)?);
                let mut room = filled_bytes(script.up_to(MOST_BYTES)?);
                let number = calls.pack(&store, scene, &mut scratch, &mut room, &mut value);
                if number == 0 {
                    file = room[..value as usize].to_vec();
                }
                writeln!(out, "pack {number} {value} scratch {} out {}", sum_words(&scratch), sum(&room)).unwrap();
            }
            b'Q' => {
                let scene = script.word()?;
                let mut scratch = filled_words(script.up_to(MOST_SCRATCH)?);
                let mut room = filled_bytes(script.up_to(MOST_BYTES)?);
                let number = calls.headset_pack(&store, scene, &mut scratch, &mut room, &mut value);
                if number == 0 {
                    file = room[..value as usize].to_vec();
                }
                writeln!(out, "slim {number} {value} scratch {} out {}", sum_words(&scratch), sum(&room)).unwrap();
            }
            b'L' => {
                let length = script.up_to(MOST_BYTES)? as usize;
                file = script.take(length)?.to_vec();
            }
            b'X' => {
                let (at, byte) = (script.word()? as usize, script.byte()?);
                if at < file.len() {
                    file[at] = byte;
                }
            }
            b'c' => {
                let mut scratch = filled_bytes(script.up_to(MOST_BYTES)?);
                let number = calls.check(&file, &mut scratch, &mut value);
                writeln!(out, "check {number} {value} scratch {}", sum(&scratch)).unwrap();
            }
            b'h' => {
                let mut scratch = filled_bytes(script.up_to(MOST_BYTES)?);
                let number = calls.headset_check(&file, &mut scratch, &mut value);
                writeln!(out, "headset {number} {value} scratch {}", sum(&scratch)).unwrap();
            }
            b'v' => {
                let number = calls.packed_voxel(&file, script.point()?, &mut value, &mut records, &mut height);
                writeln!(out, "packed {number} {value} {records} {height}").unwrap();
            }
            b'q' => {
                let point = script.point()?;
                let mut numbers = [0; 16];
                let number = calls.open(&file, &mut numbers);
                writeln!(out, "open {number} {}", numbers[0]).unwrap();
                if number == 0 {
                    let number = calls.ask(&file, &numbers, point, &mut value, &mut records, &mut height);
                    writeln!(out, "ask {number} {value} {records} {height}").unwrap();
                }
            }
            b'D' => {
                let (depth, kind) = (script.word()?, script.byte()?);
                let (a, b) = (script.float()?, script.float()?);
                if kind > 2 {
                    return None;
                }
                let number = calls.detail(depth, kind as u32, a, b, &mut value);
                writeln!(out, "detail {number} {value}").unwrap();
            }
            b'W' => {
                let (at, word) = (script.word()? as usize, script.word()?);
                if at < store.len() {
                    store[at] = word;
                }
            }
            b'H' => writeln!(out, "store {}", sum_words(&store)).unwrap(),
            _ => return None,
        }
    }
    Some(())
}
