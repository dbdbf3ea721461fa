//! The refusals of document 01's table, and those that document 02 adds.

use std::error::Error;
use std::fmt;

/// Why a call was refused; its number in the table is `number()`.
#[derive(Clone, Copy, Debug, PartialEq, Eq, Hash)]
#[repr(u32)]
pub enum Refusal {
    /// New store: capacity out of range or too few words.
    BadSize = 1,
    /// Damaged store.
    DamagedStore = 2,
    /// File empty or wrong version byte.
    BadVersion = 3,
    /// The file is shorter than its head, or its bytes 1 to 4 don't say its length.
    BadLength = 4,
    /// Depth not 2 to 16.
    BadDepth = 5,
    /// The file breaks a rule of its kind that the call tests.
    BrokenRules = 6,
    /// 64 scenes held.
    ScenesFull = 7,
    /// A height would keep more cells than the capacity.
    CellsFull = 8,
    /// No such scene.
    NoScene = 9,
    /// Point, height or box outside, or low above high.
    Outside = 10,
    /// Scratch too short.
    ScratchShort = 11,
    /// Output too short.
    OutputShort = 12,
    /// Wish out of range, NaN or infinite.
    BadWish = 13,
    /// A depth above 10, the headset's.
    TooDeep = 14,
    /// A pointer of 4 bytes, where the headset reads those of 2 only.
    LongPointer = 15,
}

impl Refusal {
    /// All fifteen, by number.
    pub const ALL: [Refusal; 15] = [
        Refusal::BadSize,
        Refusal::DamagedStore,
        Refusal::BadVersion,
        Refusal::BadLength,
        Refusal::BadDepth,
        Refusal::BrokenRules,
        Refusal::ScenesFull,
        Refusal::CellsFull,
        Refusal::NoScene,
        Refusal::Outside,
        Refusal::ScratchShort,
        Refusal::OutputShort,
        Refusal::BadWish,
        Refusal::TooDeep,
        Refusal::LongPointer,
    ];

    /// Its number in the table, 1 to 15.
    pub fn number(self) -> u32 {
        self as u32
    }
}

impl fmt::Display for Refusal {
    fn fmt(&self, f: &mut fmt::Formatter<'_>) -> fmt::Result {
        f.write_str(match self {
            Refusal::BadSize => "new store: capacity out of range or too few words",
            Refusal::DamagedStore => "damaged store",
            Refusal::BadVersion => "file empty or wrong version byte",
            Refusal::BadLength => "the file is shorter than its head, or its bytes 1 to 4 don't say its length",
            Refusal::BadDepth => "depth not 2 to 16",
            Refusal::BrokenRules => "the file breaks a rule of its kind that the call tests",
            Refusal::ScenesFull => "64 scenes held",
            Refusal::CellsFull => "a height would keep more cells than the capacity",
            Refusal::NoScene => "no such scene",
            Refusal::Outside => "point, height or box outside, or low above high",
            Refusal::ScratchShort => "scratch too short",
            Refusal::OutputShort => "output too short",
            Refusal::BadWish => "wish out of range, NaN or infinite",
            Refusal::TooDeep => "depth above 10, the headset's",
            Refusal::LongPointer => "a pointer of 4 bytes: the headset reads those of 2 only",
        })
    }
}

impl Error for Refusal {}

/// The value where the number is 0, else the refusal of that number.
pub(crate) fn accepted<T>(number: u32, value: T) -> Result<T, Refusal> {
    if number == 0 {
        return Ok(value);
    }
    Err(Refusal::ALL[number as usize - 1])
}
