//! The proved library against the twin: generated calls, long and short, valid and damaged, each made by both on the same memory. After
//! each, the number, the values and every byte of what was lent, with guards before and behind, must be the same; the safe
//! functions of the bindings must answer the same too. At the end a table says how often each call gave which number, and by which
//! clause of documents 01 and 02; a refusal that a call can give and that did not occur often is an error.
//!
//! ROOMS_SEED and ROOMS_CASES choose the seed and the least number of cases; ROOMS_EPISODE plays one episode alone.

#[path = "../calls/mod.rs"]
mod calls;
mod cases;
mod episodes;
mod generator;
mod lent;
#[path = "../library/mod.rs"]
mod library;
mod questions;
#[path = "../twin/mod.rs"]
mod twin;

use calls::Twin;
use generator::Random;
use library::Library;
use std::collections::BTreeMap;
use std::env;

const SEED: u64 = 20_261_115;
const CASES: u64 = 500_000;

/// Each refusal of documents 01 and 02 has to occur so often.
const LEAST: u64 = 25;

/// The calls and the numbers that each can answer.
const ANSWERS: [(&str, &[u32]); 17] = [
    ("new", &[0, 1]),
    ("add", &[0, 2, 3, 4, 5, 6, 7, 8]),
    ("voxel", &[0, 2, 9, 10]),
    ("sight", &[0, 2, 9, 10]),
    ("cell", &[0, 2, 9, 10]),
    ("box", &[0, 2, 9, 10]),
    ("any", &[0, 2, 9, 10]),
    ("kept", &[0, 2, 10]),
    ("outline", &[0, 2, 9, 12]),
    ("pack", &[0, 2, 9, 11, 12]),
    ("headset_pack", &[0, 2, 9, 11, 12, 14, 15]),
    ("check", &[0, 3, 4, 5, 6, 11]),
    ("headset_check", &[0, 3, 4, 5, 6, 11, 14, 15]),
    ("packed_voxel", &[0, 3, 4, 5, 6, 10]),
    ("open", &[0, 3, 4, 5, 6, 12]),
    ("ask", &[0, 6, 10]),
    ("detail", &[0, 5, 13]),
];

/// The greatest number that a call answers.
const LAST: u32 = 15;

struct Compare {
    seed: u64,
    episode: u64,
    random: Random,
    library: Library,
    twin: Twin,
    cases: u64,
    numbers: BTreeMap<(&'static str, u32), u64>,
    clauses: BTreeMap<(&'static str, u32, &'static str), u64>,
    notes: BTreeMap<(&'static str, &'static str), u64>,
}

impl Compare {
    fn table(&self) {
        println!("\n{:13} {}", "", (0..=LAST).map(|n| format!("{n:>7}")).collect::<String>());
        for (call, _) in ANSWERS {
            let row: String =
                (0..=LAST).map(|n| self.numbers.get(&(call, n)).map_or("      .".to_string(), |c| format!("{c:>7}"))).collect();
            println!("{call:13} {row}");
        }
        println!("\naccepted, by answer");
        for ((call, what), count) in &self.notes {
            println!("{call:13} {count:>10}  {what}");
        }
        println!("\nrefusals by clause");
        for ((call, number, clause), count) in &self.clauses {
            if *number != 0 {
                println!("{call:13} {number:>2} {count:>7}  {clause}");
            }
        }
    }

    /// Each call gave each of its numbers often, and no other.
    fn complete(&self) -> bool {
        let mut complete = true;
        for (call, numbers) in ANSWERS {
            for number in 0..=LAST {
                let count = self.numbers.get(&(call, number)).copied().unwrap_or(0);
                let fine = if numbers.contains(&number) { count >= LEAST } else { count == 0 };
                if !fine {
                    println!("{call} gave {number} {count} times");
                    complete = false;
                }
            }
        }
        complete
    }
}

fn number_from(name: &str) -> Option<u64> {
    env::var(name).ok().map(|text| text.parse().unwrap_or_else(|_| panic!("{name} is a number")))
}

fn main() {
    let seed = number_from("ROOMS_SEED").unwrap_or(SEED);
    let least = number_from("ROOMS_CASES").unwrap_or(CASES);
    println!("compare: library and twin, seed {seed}, at least {least} cases");
    let mut compare = Compare {
        seed,
        episode: 0,
        random: Random::new(seed),
        library: Library,
        twin: Twin::default(),
        cases: 0,
        numbers: BTreeMap::new(),
        clauses: BTreeMap::new(),
        notes: BTreeMap::new(),
    };
    if let Some(episode) = number_from("ROOMS_EPISODE") {
        compare.episode(episode);
        compare.table();
        return;
    }
    let mut episode = 0;
    while compare.cases < least {
        compare.episode(episode);
        episode += 1;
    }
    compare.table();
    println!("\n{} cases in {episode} episodes, seed {seed}: no difference", compare.cases);
    if !compare.complete() {
        std::process::exit(1);
    }
}
