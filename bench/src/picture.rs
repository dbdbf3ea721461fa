//! The picture: for each row of ratios a bar a room, on a scale of doublings, with a line at the goal.
use crate::table::{rows, short, Measured};
use std::fmt::Write;

const LEFT: f64 = 240.0;
const WIDTH: f64 = 560.0;
const RIGHT: f64 = 90.0;
const TOP: f64 = 96.0;
const BAR: f64 = 11.0;
const GAP: f64 = 14.0;

/// The scale's ends.
const LEAST: f64 = 0.0625;
const MOST: f64 = 64.0;

/// A colour for each room.
const COLOURS: [&str; 6] = [
    "#7fb3d5", "#2471a3", "#82c99a", "#1e8449", "#c39bd3", "#7d3c98",
];

/// Where a ratio lies on the scale.
fn across(value: f64) -> f64 {
    let part = (value.clamp(LEAST, MOST) / LEAST).log2() / (MOST / LEAST).log2();
    LEFT + WIDTH * part
}

/// The rooms shown: those of the two greatest depths, if names tell depths; at most as many as there are colours.
fn shown(all: &Measured) -> Vec<&String> {
    let depth = |room: &str| {
        let digits = room
            .split("-d")
            .nth(1)
            .and_then(|rest| rest.split('-').next());
        digits
            .and_then(|digits| digits.parse::<u32>().ok())
            .unwrap_or(0)
    };
    let mut depths: Vec<u32> = all.rooms.iter().map(|room| depth(room)).collect();
    depths.sort_unstable();
    depths.dedup();
    let least = depths.iter().rev().nth(1).copied().unwrap_or(0);
    all.rooms
        .iter()
        .filter(|room| depth(room) >= least)
        .take(COLOURS.len())
        .collect()
}

pub fn svg(all: &Measured) -> String {
    let rooms = shown(all);
    let rows = rows();
    let group = BAR * rooms.len() as f64 + GAP;
    let bottom = TOP + group * rows.len() as f64;
    let (width, height) = (LEFT + WIDTH + RIGHT, bottom + 56.0);
    let mut out = String::new();
    let mut put = |text: String| writeln!(out, "{text}").unwrap();
    put(format!(
        "<svg xmlns=\"http://www.w3.org/2000/svg\" width=\"{width}\" height=\"{height}\" viewBox=\"0 0 {width} {height}\" font-family=\"sans-serif\" font-size=\"12\">"
    ));
    put(format!(
        "<rect width=\"{width}\" height=\"{height}\" fill=\"#ffffff\"/>"
    ));
    put("<text x=\"20\" y=\"28\" font-size=\"17\" font-weight=\"bold\">The proved store over a plain graph: ratios of instructions</text>".to_string());
    put("<text x=\"20\" y=\"48\" fill=\"#555555\">less is better; the red line is the goal; * by time where instructions were not counted</text>".to_string());
    for (i, room) in rooms.iter().enumerate() {
        let x = 20.0 + 150.0 * i as f64;
        put(format!(
            "<rect x=\"{x}\" y=\"62\" width=\"12\" height=\"12\" fill=\"{}\"/>",
            COLOURS[i]
        ));
        put(format!("<text x=\"{}\" y=\"72\">{room}</text>", x + 18.0));
    }
    let mut mark = LEAST;
    while mark <= MOST {
        let x = across(mark);
        let colour = if mark == 1.0 { "#555555" } else { "#dddddd" };
        put(format!(
            "<line x1=\"{x:.1}\" y1=\"{TOP}\" x2=\"{x:.1}\" y2=\"{bottom}\" stroke=\"{colour}\"/>"
        ));
        let text = if mark < 1.0 {
            format!("1/{:.0}", 1.0 / mark)
        } else {
            format!("{mark:.0}")
        };
        put(format!(
            "<text x=\"{x:.1}\" y=\"{}\" text-anchor=\"middle\" fill=\"#555555\">{text}</text>",
            bottom + 18.0
        ));
        mark *= 2.0;
    }
    put(format!(
        "<text x=\"{}\" y=\"{}\" text-anchor=\"middle\" fill=\"#555555\">times the plain graph (for the last rows: times the call or bytes named)</text>",
        LEFT + WIDTH / 2.0,
        bottom + 40.0
    ));
    for (r, row) in rows.iter().enumerate() {
        let top = TOP + GAP / 2.0 + group * r as f64;
        let middle = top + BAR * rooms.len() as f64 / 2.0 + 4.0;
        put(format!(
            "<text x=\"{}\" y=\"{middle:.1}\" text-anchor=\"end\">{}</text>",
            LEFT - 10.0,
            row.name
        ));
        for (i, room) in rooms.iter().enumerate() {
            let y = top + BAR * i as f64;
            if let Some(ratio) = (row.of)(all, room) {
                let end = across(ratio.value);
                put(format!(
                    "<rect x=\"{LEFT}\" y=\"{y:.1}\" width=\"{:.1}\" height=\"{:.1}\" fill=\"{}\"/>",
                    (end - LEFT).max(1.0),
                    BAR - 1.5,
                    COLOURS[i]
                ));
                let star = if ratio.counted { "" } else { "*" };
                let goal = (row.goal)(room).map_or(0.0, across);
                let free = if end <= goal && goal < end + 40.0 {
                    goal
                } else {
                    end
                };
                put(format!(
                    "<text x=\"{:.1}\" y=\"{:.1}\" font-size=\"9.5\" fill=\"#333333\">{}{star}</text>",
                    free + 4.0,
                    y + BAR - 3.0,
                    short(ratio.value)
                ));
            } else {
                put(format!(
                    "<text x=\"{:.1}\" y=\"{:.1}\" font-size=\"9.5\" fill=\"#999999\">not measured</text>",
                    LEFT + 4.0,
                    y + BAR - 3.0
                ));
            }
            if let Some(goal) = (row.goal)(room) {
                let x = across(goal);
                put(format!(
                    "<line x1=\"{x:.1}\" y1=\"{:.1}\" x2=\"{x:.1}\" y2=\"{:.1}\" stroke=\"#c0392b\" stroke-width=\"2.5\"/>",
                    y - 1.0,
                    y + BAR
                ));
            }
        }
    }
    put("</svg>".to_string());
    out
}
