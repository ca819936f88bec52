//! How many cases gave which answer, and which answers each format and mode must have given.

use crate::case::{Case, FORMATS, INDEXED4, MODES, Mode, PAL8};
use crate::original::WRITTEN;
use std::collections::BTreeMap;

#[derive(Clone, Copy, Debug, PartialEq, Eq)]
pub enum Answer {
    File(u32),
    Refused(u32),
    /// A large accepted picture: the size query only.
    BoundOnly,
}

const COLUMNS: usize = 12 + 17 + 1;

fn answer_at(column: usize) -> Answer {
    match column {
        0..12 => Answer::File(column as u32),
        12..29 => Answer::Refused(column as u32 - 12),
        _ => Answer::BoundOnly,
    }
}

fn column_of(answer: Answer) -> usize {
    (0..COLUMNS).find(|c| answer_at(*c) == answer).expect("a listed answer")
}

fn name(answer: Answer) -> String {
    match answer {
        Answer::File(format) => format!("{:?}", WRITTEN[format as usize]),
        Answer::Refused(number) => number.to_string(),
        Answer::BoundOnly => "bound only".into(),
    }
}

/// `plain_token` in the numbers of the C interface.
const PLAIN: [u32; 10] = [0, 1, 0, 1, 2, 3, 4, 5, 6, 9];

fn can_be_written(format: u32, mode: Mode) -> bool {
    mode != Mode::Several && !(mode == Mode::Masks && format >= 4)
}

fn file_exists(format: u32, mode: Mode, written: u32) -> bool {
    if !can_be_written(format, mode) {
        return false;
    }
    match written {
        7 => mode.is_plain() && format == PAL8,
        8 => mode.is_plain() && format == INDEXED4,
        10 | 11 => mode == Mode::Masks,
        _ => mode != Mode::Masks && PLAIN[format as usize] == written,
    }
}

/// Whether some case of this format and mode has the answer.
fn exists(format: u32, mode: Mode, answer: Answer) -> bool {
    match answer {
        Answer::File(written) => file_exists(format, mode, written),
        Answer::Refused(1) => true,
        Answer::Refused(3) => format >= PAL8,
        Answer::Refused(5) => mode == Mode::Several,
        Answer::Refused(6..=10) => mode == Mode::Masks,
        Answer::Refused(11) => mode == Mode::Masks && format >= 4,
        Answer::Refused(12..=14) | Answer::BoundOnly => can_be_written(format, mode),
        Answer::Refused(16) => mode.is_plain() && [PAL8, INDEXED4].contains(&format),
        Answer::Refused(_) => false,
    }
}

/// Checks beside the table that must have been met.
const OTHERS: [&str; 42] = [
    "at a lower limit, 14",
    "at a lower limit, 14: plain file a byte over",
    "at a lower limit, 16, Indexed4",
    "at a lower limit, 16, Pal8",
    "at a lower limit, 16: plain file a byte over",
    "at a lower limit, 16: stream's file a byte over",
    "at a lower limit, budget 0, Indexed4",
    "at a lower limit, budget 0, Pal8",
    "at a lower limit, plain file",
    "at a lower limit, plain file equal to the limit",
    "at a lower limit, stream used and its file equal to the limit",
    "at a lower limit, stream used where the plain file fits",
    "at a lower limit, stream used where the plain file is over it, Indexed4",
    "at a lower limit, stream used where the plain file is over it, Pal8",
    "by both functions, with the default settings",
    "port alone, 12: stride x height of 2^64 and more",
    "port alone, 15: buffer too short",
    "port alone, 15: offset about 2^64",
    "port alone, 15: offset past the end",
    "port alone, 1 before refused settings",
    "port alone, 20: limit",
    "port alone, 20: limit, and 21 applies too",
    "port alone, 21: both resolutions",
    "port alone, 21: resolution across",
    "port alone, 21: resolution down",
    "port alone, 2 before refused settings",
    "port alone, 255 before refused settings",
    "port alone, 255: unknown format",
    "port alone, 2: height",
    "port alone, 2: width",
    "port alone, 4: palette bytes",
    "resolutions set",
    "with starts, 24 before 16",
    "with starts, 24 where a file would be written",
    "with starts, a list too short and a number before 24",
    "with starts, list kept on a refusal",
    "with starts, rows read with all other bytes changed, and at the file's end",
    "with starts, rows read, RLE4",
    "with starts, rows read, RLE8",
    "with starts, rows read, plain from the bottom",
    "with starts, rows read, plain from the top",
    "with starts, starts compared",
];

pub struct Counts {
    table: [[[u64; COLUMNS]; 9]; 10],
    /// Pal8 and Indexed4: stream below, equal to, above the raw bytes.
    rle: [[u64; 3]; 2],
    /// Checks beside the table.
    others: BTreeMap<&'static str, u64>,
}

impl Counts {
    pub fn new() -> Self {
        Self { table: [[[0; COLUMNS]; 9]; 10], rle: [[0; 3]; 2], others: BTreeMap::new() }
    }

    pub fn add(&mut self, case: &Case, answer: Answer) {
        let mode = MODES.iter().position(|m| *m == case.mode()).expect("a listed mode");
        self.table[case.format()][mode][column_of(answer)] += 1;
    }

    pub fn add_stream(&mut self, case: &Case, stream: u64, raw: u64) {
        let order = stream.cmp(&raw) as i8 + 1;
        self.rle[case.format() - PAL8 as usize][order as usize] += 1;
    }

    pub fn add_other(&mut self, what: &'static str) {
        self.add_others(what, 1);
    }

    pub fn add_others(&mut self, what: &'static str, count: u64) {
        *self.others.entry(what).or_default() += count;
    }

    pub fn total(&self) -> u64 {
        self.table.iter().flatten().flatten().sum()
    }

    fn line(&self, format: usize, mode: usize) -> String {
        let row = &self.table[format][mode];
        let parts: Vec<String> =
            (0..COLUMNS).filter(|c| row[*c] > 0).map(|c| format!("{} {}", name(answer_at(c)), row[c])).collect();
        format!("  {:8} {:11} {}", FORMATS[format], format!("{:?}", MODES[mode]), parts.join(", "))
    }

    /// Prints everything.
    pub fn print(&self) {
        println!("cases by source format and mode; a number before a count is a refusal, a name a written format:");
        for format in 0..10 {
            for mode in 0..9 {
                println!("{}", self.line(format, mode));
            }
        }
        for (name, [won, tied, lost]) in ["Pal8", "Indexed4"].iter().zip(self.rle) {
            println!("RLE planned, {name}: stream shorter than raw {won}, equal {tied}, longer {lost}");
        }
        for (what, count) in &self.others {
            println!("{what}: {count}");
        }
        println!("cases: {}", self.total());
    }

    /// Combinations that exist and were not met, or were met and cannot exist.
    pub fn gaps(&self) -> Vec<String> {
        let mut gaps = Vec::new();
        for (format, modes) in self.table.iter().enumerate() {
            for (mode, row) in modes.iter().enumerate() {
                for (column, count) in row.iter().enumerate() {
                    let answer = answer_at(column);
                    if exists(format as u32, MODES[mode], answer) != (*count > 0) {
                        gaps.push(format!("{} {:?} {}: {count}", FORMATS[format], MODES[mode], name(answer)));
                    }
                }
            }
        }
        let unmet = OTHERS.into_iter().filter(|what| !self.others.contains_key(what));
        gaps.extend(unmet.map(|what| format!("{what}: 0")));
        gaps
    }
}
