//! Measuring: a piece of work by the clock, or under callgrind by its instructions. A result is one line: what was measured,
//! on which room, by whom, how many questions, and the sum for all of them.
use crate::{callgrind, clock};
use std::collections::HashMap;

/// What was measured, on which room, by whom.
pub type Key = (String, String, String);

/// Results: questions and the sum.
pub type Results = HashMap<Key, (u64, f64)>;

/// Work that takes longer by the clock is not counted by callgrind, which is some fifty times slower.
const COUNTED_MOST: f64 = 2.0e9;

/// Rounds by the clock, the fastest told; one alone where it takes long.
const ROUNDS: u32 = 5;
const LONG: u64 = 500_000_000;

pub enum Meter {
    Clock,
    /// With what the clock said before.
    Instructions(Results),
}

impl Meter {
    pub fn counting(&self) -> bool {
        matches!(self, Meter::Instructions(_))
    }

    /// Whether this work is to be measured: by the clock always, by callgrind where the clock said that it is short.
    pub fn wants(&self, item: &str, room: &str, who: &str) -> bool {
        match self {
            Meter::Clock => true,
            Meter::Instructions(times) => {
                let key = (item.to_string(), room.to_string(), who.to_string());
                times.get(&key).is_some_and(|&(_, sum)| sum < COUNTED_MOST)
            }
        }
    }

    /// Measures work of so many questions; `ready` makes what it takes, unmeasured, for each round.
    pub fn work<S, T>(
        &self,
        (item, room, who): (&str, &str, &str),
        questions: usize,
        mut ready: impl FnMut() -> S,
        mut work: impl FnMut(S) -> T,
    ) -> T {
        if self.counting() {
            let taken = ready();
            let name = format!("{item}|{room}|{who}|{questions}");
            return callgrind::counted(&name, || work(taken));
        }
        let mut best = u64::MAX;
        for round in 1.. {
            let taken = ready();
            let start = clock::now();
            let result = work(taken);
            best = best.min(clock::now() - start);
            if round == ROUNDS || best > LONG {
                println!("{}", line(item, room, who, questions as u64, best as f64));
                return result;
            }
        }
        unreachable!()
    }

    /// Tells a number that isn't measured.
    pub fn tell(&self, item: &str, room: &str, who: &str, number: usize) {
        self.tell_of(item, room, who, 1, number);
    }

    /// Tells such a number of all questions together.
    pub fn tell_of(&self, item: &str, room: &str, who: &str, questions: usize, sum: usize) {
        if !self.counting() {
            println!("{}", line(item, room, who, questions as u64, sum as f64));
        }
    }
}

/// A result as a line.
pub fn line(item: &str, room: &str, who: &str, questions: u64, sum: f64) -> String {
    format!("{item}\t{room}\t{who}\t{questions}\t{sum:.0}")
}

/// The results in a text, and the rooms in order.
pub fn read(text: &str) -> (Results, Vec<String>) {
    let mut results = Results::new();
    let mut rooms: Vec<String> = Vec::new();
    for line in text.lines() {
        let fields: Vec<&str> = line.split('\t').collect();
        let [item, room, who, questions, sum] = fields[..] else {
            continue;
        };
        let (Ok(questions), Ok(sum)) = (questions.parse(), sum.parse()) else {
            continue;
        };
        results.insert((item.into(), room.into(), who.into()), (questions, sum));
        if !rooms.iter().any(|known| known == room) {
            rooms.push(room.into());
        }
    }
    (results, rooms)
}
