//! What callgrind wrote: for each named piece of work the instructions in all, and the functions that took most of them.
use crate::measure;
use std::collections::HashMap;
use std::fs;
use std::path::Path;

/// The bench's own code that asks: it isn't part of what is asked.
const ASKING: [&str; 6] = [
    "bench::work::",
    "bench::anything::",
    "bench::sight::",
    "bench::calls::",
    "bench::measure::",
    "bench::callgrind::",
];

/// Functions told for each piece of work, and the least share told.
const FUNCTIONS: usize = 6;
const LEAST_SHARE: f64 = 0.02;

/// The results of all dumps in a folder as lines, and the functions' shares as text.
pub fn read(folder: &Path) -> (String, String) {
    let mut dumps: Vec<(u32, String)> = Vec::new();
    for entry in fs::read_dir(folder).unwrap() {
        let path = entry.unwrap().path();
        let part = path
            .extension()
            .and_then(|part| part.to_str()?.parse().ok());
        if let Some(part) = part {
            dumps.push((part, fs::read_to_string(&path).unwrap()));
        }
    }
    dumps.sort();
    let (mut lines, mut shares) = (String::new(), String::new());
    for (_, dump) in &dumps {
        let Some((name, sum, functions)) = one(dump) else {
            continue;
        };
        let fields: Vec<&str> = name.split('|').collect();
        let [item, room, who, questions] = fields[..] else {
            continue;
        };
        let questions = questions.parse().unwrap();
        lines += &measure::line(item, room, who, questions, sum as f64);
        lines.push('\n');
        if who == "store" || who == "graph" {
            shares += &format!("{item} | {room} | {who}:{}\n", told(sum, functions));
        }
    }
    (lines, shares)
}

/// The functions with the greatest shares.
fn told(sum: u64, functions: HashMap<String, u64>) -> String {
    let mut order: Vec<(String, u64)> = functions.into_iter().collect();
    order.sort_by(|a, b| b.1.cmp(&a.1).then(a.0.cmp(&b.0)));
    let mut text = String::new();
    for (name, part) in order.into_iter().take(FUNCTIONS) {
        let share = part as f64 / sum as f64;
        if share >= LEAST_SHARE {
            text += &format!(" {} {:.0} %,", name.trim_end_matches("'2"), 100.0 * share);
        }
    }
    text.trim_end_matches(',').to_string()
}

/// One dump: its name, the instructions of what was asked, and each function's own.
fn one(dump: &str) -> Option<(String, u64, HashMap<String, u64>)> {
    let name = dump
        .lines()
        .find_map(|line| line.strip_prefix("desc: Trigger: Client Request: "))?;
    let mut names: HashMap<&str, &str> = HashMap::new();
    let mut functions: HashMap<String, u64> = HashMap::new();
    let (mut function, mut sum) = ("", 0);
    let mut called = false;
    for line in dump.lines() {
        if let Some(text) = line.strip_prefix("fn=") {
            function = named(text, &mut names);
        } else if let Some(text) = line.strip_prefix("cfn=") {
            named(text, &mut names);
        } else if line.starts_with("calls=") {
            called = true;
        } else if line.starts_with(|c: char| c.is_ascii_digit() || c == '+' || c == '-' || c == '*')
        {
            if !called && !ASKING.iter().any(|module| function.contains(module)) {
                let cost: u64 = line
                    .split(' ')
                    .nth(1)
                    .map_or(0, |cost| cost.parse().unwrap_or(0));
                *functions
                    .entry(function.trim_end_matches("'2").to_string())
                    .or_default() += cost;
                sum += cost;
            }
            called = false;
        }
    }
    Some((name.to_string(), sum, functions))
}

/// A function's name: `(7) name` says both its number and its name, `(7)` repeats the number.
fn named<'a>(text: &'a str, names: &mut HashMap<&'a str, &'a str>) -> &'a str {
    let (number, name) = text.split_once(' ').unwrap_or((text, ""));
    if !name.is_empty() {
        names.insert(number, name);
    }
    names.get(number).copied().unwrap_or(number)
}
