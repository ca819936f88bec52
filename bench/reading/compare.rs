//! One file through the library and the model, and a row of it.

use crate::fence::{self, Fence};
use crate::model::{self, Reading, Sizes};
use crate::pictures::Written;
use crate::random::Random;
use crate::{hand, reader, row};
use std::collections::BTreeMap;
use std::sync::atomic::Ordering;

/// The answers, in the order of the columns.
pub const ANSWERS: [u32; 5] = [0, 17, 18, 15, 19];
pub const GUARD: usize = 9;
/// No more numbers are lent: a file that asks for more is refused.
pub const MOST: u64 = 1 << 16;

pub struct Report {
    pub calls: u64,
    pub found: u64,
    pub returned: u64,
    /// Rows read alone, and those among them that are compared with the whole reading.
    pub rows: u64,
    pub rows_of_whole: u64,
    /// By group and name, how often each answer was given; the last column is any other.
    pub counts: BTreeMap<(&'static str, &'static str), [u64; 6]>,
    first: Option<String>,
    pub fence: Fence,
}

impl Report {
    pub fn new() -> Self {
        Self {
            calls: 0,
            found: 0,
            returned: 0,
            rows: 0,
            rows_of_whole: 0,
            counts: BTreeMap::new(),
            first: None,
            fence: Fence::new(64),
        }
    }

    pub fn count(&mut self, group: &'static str, name: &'static str, refusal: u32) {
        let column = ANSWERS.iter().position(|answer| *answer == refusal).unwrap_or(ANSWERS.len());
        self.counts.entry((group, name)).or_default()[column] += 1;
    }

    pub fn difference(&mut self, text: impl FnOnce() -> String) {
        self.found += 1;
        if self.first.is_none() {
            self.first = Some(text());
        }
    }

    pub fn print(&self) {
        let mut group = "";
        for ((of, name), counts) in &self.counts {
            if *of != group {
                group = of;
                println!("\n{group:40} {:>9} {:>9} {:>9} {:>9} {:>9}", "read", 17, 18, 15, 19);
            }
            let other = if counts[5] > 0 { format!(" other {}", counts[5]) } else { String::new() };
            let [read, never, outside, short, stream, _] = counts;
            println!("  {name:38} {read:9} {never:9} {outside:9} {short:9} {stream:9}{other}");
        }
        if let Some(text) = &self.first {
            println!("\nFIRST DIFFERENCE {text}");
        }
    }
}

// Lent buffers.

/// A slice to lend, with guards before and behind it; everything is filled with random values.
#[derive(Clone, PartialEq)]
pub struct Lent<T> {
    all: Vec<T>,
    len: usize,
}

impl<T: Copy + PartialEq + std::fmt::Debug> Lent<T> {
    pub fn new(random: &mut Random, len: usize, value: fn(u64) -> T) -> Self {
        Self { all: (0..len + 2 * GUARD).map(|_| value(random.next())).collect(), len }
    }

    pub fn part(&mut self) -> &mut [T] {
        &mut self.all[GUARD..GUARD + self.len]
    }

    /// The first value that is another one, counted from the lent part's start; guards have places outside it.
    pub fn differ(&self, name: &str, library: &Self, notes: &mut Vec<String>) {
        if let Some(at) = self.all.iter().zip(&library.all).position(|(one, other)| one != other) {
            let (place, one, other) = (at as isize - GUARD as isize, self.all[at], library.all[at]);
            notes.push(format!("{name} at {place} of {}: model {one:x?}, library {other:x?}", self.len));
        }
    }
}

#[derive(Clone)]
struct Buffers {
    head: Lent<u8>,
    table: Lent<u8>,
    cells: Lent<u32>,
}

impl Buffers {
    fn new(random: &mut Random, [head, table, cells]: [usize; 3]) -> Self {
        Self {
            head: Lent::new(random, head, |value| value as u8),
            table: Lent::new(random, table, |value| value as u8),
            cells: Lent::new(random, cells, |value| value as u32),
        }
    }
}

/// Exact, empty, one short, any number short, longer.
pub fn lent_length(random: &mut Random, need: u64, is_exact: bool) -> (usize, usize) {
    let (kind, len) = match random.below(24) {
        _ if need > MOST => (3, random.below(100)),
        _ if is_exact => (0, need),
        0 => (1, 0),
        1 => (2, need.saturating_sub(1)),
        2 => (3, random.below(need + 1)),
        3..=6 => (4, need + random.range(1, 20)),
        _ => (0, need),
    };
    (kind, len as usize)
}

const LENT: [[&str; 5]; 3] = [
    ["head exact", "head empty", "head one short", "head any number short", "head longer"],
    ["table exact", "table empty", "table one short", "table any number short", "table longer"],
    ["cells exact", "cells empty", "cells one short", "cells any number short", "cells longer"],
];

/// The three lengths, and their kinds where the file asks for a length.
fn lengths(random: &mut Random, sizes: &Sizes, is_exact: bool) -> ([usize; 3], [usize; 3]) {
    let needs = if sizes.refusal == 0 {
        [sizes.head_bytes, sizes.table_bytes, sizes.cell_numbers]
    } else {
        [random.below(150), random.below(100), random.below(100)]
    };
    let drawn = needs.map(|need| lent_length(random, need, is_exact));
    (drawn.map(|(_, len)| len), drawn.map(|(kind, _)| kind))
}

// One call.

fn form(file: &[u8]) -> &'static str {
    const NAMES: [&str; 13] = [
        "depth 8, compression 1",
        "depth 4, compression 2",
        "depth 1, compression 0",
        "depth 2, compression 0",
        "depth 4, compression 0",
        "depth 8, compression 0",
        "depth 16, compression 0",
        "depth 24, compression 0",
        "depth 32, compression 0",
        "depth 16, compression 3",
        "depth 32, compression 3",
        "depth 16, compression 6",
        "depth 32, compression 6",
    ];
    let of_file = (u16::from(file[28]), u32::from(file[30]));
    NAMES[hand::PAIRS.iter().position(|pair| *pair == of_file).expect("a pair that is read")]
}

pub fn hex(bytes: &[u8]) -> String {
    bytes.iter().map(|byte| format!("{byte:02x}")).collect()
}

/// A file that the writer made comes back as it was handed in.
fn returned(written: &Written, reading: &Reading, buffers: &mut Buffers, notes: &mut Vec<String>) {
    let mut same = |what: &str, is_same: bool| {
        if !is_same {
            notes.push(format!("{what} is not what was handed to the writer"));
        }
    };
    same("refusal", reading.refusal == 0);
    same(
        "width, height or depth",
        [reading.width, reading.height, reading.depth] == [written.width, written.height, written.depth],
    );
    let (table, cells) = (written.table.len(), written.cells.len());
    same("table", buffers.table.part().get(..table) == Some(&written.table[..]));
    same("cells", buffers.cells.part().get(..cells) == Some(&written.cells[..]));
    let (at, bytes) = (reading.profile_at as usize, reading.profile_bytes as usize);
    same("profile", written.file.get(at..at + bytes) == Some(&written.profile[..]));
}

/// The calls on one file. `written` is given where the file is as the writer made it.
pub fn compare(
    report: &mut Report,
    random: &mut Random,
    kind: &'static str,
    file: &[u8],
    written: Option<&Written>,
    is_exact: bool,
) -> Reading {
    fence::CALL.store(report.calls, Ordering::Relaxed);
    let mut notes = Vec::new();
    let expected_sizes = model::read_sizes(file);
    let (lengths, kinds) = lengths(random, &expected_sizes, is_exact);
    let mut expected = Buffers::new(random, lengths);
    let mut given = expected.clone();
    let expected_reading = model::read(file, expected.head.part(), expected.table.part(), expected.cells.part());

    let lent = report.fence.lend(file);
    let given_sizes = reader::read_sizes(lent);
    let given_reading = reader::read(lent, given.head.part(), given.table.part(), given.cells.part());
    if lent != file {
        notes.push("the file has changed".into());
    }
    if expected_sizes != given_sizes {
        notes.push(format!("model {expected_sizes:?}\n  library {given_sizes:?}"));
    }
    if expected_reading != given_reading {
        notes.push(format!("model {expected_reading:?}\n  library {given_reading:?}"));
    }
    expected.head.differ("head", &given.head, &mut notes);
    expected.table.differ("table", &given.table, &mut notes);
    expected.cells.differ("cells", &given.cells, &mut notes);
    if let Some(written) = written
        && expected_reading.refusal != model::BUFFER_TOO_SHORT
    {
        report.returned += 1;
        returned(written, &given_reading, &mut given, &mut notes);
    }

    report.calls += 1;
    report.count("answers by damage", kind, given_reading.refusal);
    if expected_sizes.refusal == 0 {
        report.count("answers by form, 17 and 18 apart", form(file), given_reading.refusal);
        for (buffer, kind) in kinds.into_iter().enumerate() {
            report.count("answers by lent buffer, 17 and 18 apart", LENT[buffer][kind], given_reading.refusal);
        }
    }
    if !notes.is_empty() {
        let call = report.calls - 1;
        report.difference(|| {
            let bytes = hex(file);
            format!(
                "in call {call}, {kind}, lent {lengths:?}\n  {}\n  file of {} bytes {bytes}",
                notes.join("\n  "),
                file.len()
            )
        });
    }
    row::compare(report, random, kind, file, is_exact);
    if given_reading.refusal == 0 {
        let numbers = expected_sizes.cell_numbers as usize;
        row::of_whole(report, random, file, given_reading.height, &given.cells.part()[..numbers]);
    }
    given_reading
}
