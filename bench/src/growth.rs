//! How the check's work grows with the records of a file: clean files and hostile ones, ten times larger each step.
use crate::calls;
use crate::clock;
use crate::measure::Meter;
use crate::proper::{self, Kind};
use crate::work;
use std::sync::OnceLock;

/// The kinds of files by name, and the numbers of records.
pub const KINDS: [(&str, Kind); 3] = [
    ("clean", Kind::Clean),
    ("leaves of 32 ones", Kind::EqualOnes),
    ("the same eight children", Kind::EqualChildren),
];
pub const SIZES: [usize; 3] = [1_000, 10_000, 100_000];

/// A check that would take more nanoseconds is left out.
const LONGEST: f64 = 60.0e9;

/// Measures the check on all these files.
pub fn check(meter: &Meter) {
    for (name, kind) in KINDS {
        for size in SIZES {
            let (file, records) = proper::file(kind, size);
            let name = format!("{name} {size}");
            meter.tell("records", &name, "room", records);
            meter.tell("packed bytes", &name, "store", file.len());
            work::check(meter, &name, &file, None);
        }
    }
}

/// Whether the check of such a file would take too long, judged by the time for two smaller files and how it grew.
pub fn too_long(file: &[u8]) -> bool {
    static TIMES: OnceLock<[(f64, f64); 2]> = OnceLock::new();
    let [(small, first), (large, second)] = *TIMES.get_or_init(|| {
        [1_000, 3_000].map(|records| {
            let (file, _) = proper::file(Kind::Clean, records);
            let mut scratch = vec![0; file.len()];
            let start = clock::now();
            calls::check(&file, &mut scratch).unwrap();
            (file.len() as f64, (clock::now() - start) as f64)
        })
    });
    let growth = (second / first).ln() / (large / small).ln();
    second * (file.len() as f64 / large).powf(growth) > LONGEST
}
