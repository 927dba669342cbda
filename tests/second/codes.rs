//! A case for every G number in tenths and every M number from -1 to 101, and for values near them: alone, beside
//! other words, and from records in which it matters. A code that one program serves and the other does not is
//! seen here, wherever it is added.

use crate::cases::Case;
use crate::rules::{self, Record, TABLE_LENGTH};
use std::io::{self, Write};

/// What stands beside a code: nothing, a move, an arc, and each word that only some codes need or leave idle.
const BESIDE: [&str; 9] = ["", "X1", "X1 I0.5", "Y1 Z2", "P1", "L2 P2 X1", "F100 Z-1", "X1 K1", "S5 T7 #1=3"];
/// Of these, what stands beside a value that is only near a code.
const BESIDE_NEAR: [&str; 2] = ["", "X1"];
/// How far, in ten-thousandths, such a value lies from a multiple of the step between codes.
const NEAR: [i64; 4] = [1, -1, 2, -2];

/// A fresh record, one that moves at a feed, one that makes arcs, and one in which nothing is as it was.
fn records() -> [Record; 4] {
    let feeding = Record { motion: 10, feed: 1_000_000, ..Record::fresh() };
    let turning = Record { motion: 30, ..feeding.clone() };
    let mut elsewhere = Record {
        position: [1_000, 20_000, 300_000],
        offset: [400, 5_000, 60_000],
        motion: 0,
        plane: 180,
        distance: 910,
        units: 200,
        system: 591,
        speed: 9,
        tool: 8,
        spindle: 1,
        coolant: 1,
        ..feeding.clone()
    };
    elsewhere.origins = std::array::from_fn(|place| 1_000 * (place as i64 + 1));
    [Record::fresh(), feeding, turning, elsewhere]
}

/// A value in ten-thousandths as a number.
fn written(value: i64) -> String {
    let sign = if value < 0 { "-" } else { "" };
    format!("{sign}{}.{:04}", value.abs() / 10_000, value.abs() % 10_000)
}

/// Every value of one letter in each of its surroundings.
fn lines(letter: char, step: i64) -> Vec<String> {
    let mut lines = Vec::new();
    for code in -10_000 / step..=1_010_000 / step {
        let value = code * step;
        let word = |value: i64| format!("{letter}{}", written(value));
        lines.extend(BESIDE.map(|beside| format!("{} {beside}", word(value))));
        for off in NEAR.into_iter().chain([step / 2]) {
            lines.extend(BESIDE_NEAR.map(|beside| format!("{} {beside}", word(value + off))));
        }
    }
    lines
}

/// Every two served codes, with the words that either may need.
fn pairs() -> Vec<String> {
    let g = rules::served_g().into_iter().map(|code| format!("G{}.{}", code / 10, code % 10));
    let served: Vec<String> = g.chain(rules::served_m().into_iter().map(|code| format!("M{code}"))).collect();
    let mut pairs = Vec::new();
    for first in &served {
        for second in &served {
            pairs.extend(["", "X1", "P1 L2 X1"].map(|beside| format!("{first} {second} {beside}")));
        }
    }
    pairs
}

pub fn write_cases(out: &mut impl Write) -> io::Result<()> {
    let lines = [lines('G', 1_000), lines('M', 10_000), pairs()].concat();
    for record in records() {
        for line in &lines {
            let (line, record) = (line.trim_end().as_bytes().to_vec(), record.to_numbers());
            let case = Case { line, switch: false, record, table_length: TABLE_LENGTH, changes: Vec::new(), room: 80 };
            writeln!(out, "{}", case.text())?;
        }
    }
    Ok(())
}
