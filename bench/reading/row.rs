//! One row of one file through the library and the model.

use crate::compare::{GUARD, Lent, MOST, Report, hex, lent_length};
use crate::model;
use crate::port;
use crate::random::Random;

/// Where the reading of a row may begin, and what kind of place that is.
fn start(random: &mut Random, file: &[u8]) -> (&'static str, u64) {
    let len = file.len() as u64;
    let row_end = model::row_needs(file, 0).and_then(|needs| needs.1).unwrap_or(2);
    match random.below(16) {
        0 => ("start at 0", 0),
        1 => ("start inside the head", random.below(138)),
        2 => ("start anywhere in the file", random.below(len + 1)),
        3 => ("start past the end", len + random.range(1, 20)),
        4 => ("start at the end", len),
        5 => ("start about 2^64", u64::MAX - random.below(20).min(random.below(20))),
        6 => ("start about 2^32", (1 << 32) - 3 + random.below(6)),
        // A wrapping sum would bring the row's end back into the file.
        7 => ("start so that the row's end wraps", 0u64.wrapping_sub(random.below(row_end.saturating_add(1)))),
        8 | 9 => ("start so that the row ends at the end", len.saturating_sub(row_end)),
        10 => ("start so that the row's end is missing", (len + 1).saturating_sub(row_end)),
        _ => {
            let rows = random.below(6) as u32;
            let place = (0..=rows).rev().find_map(|k| model::row_start(file, k)).unwrap_or(len / 2);
            if random.one_in(8) { ("start about a row's", place + random.below(3)) } else { ("start of a row", place) }
        }
    }
}

/// Both sides on one place of one file.
pub fn compare(report: &mut Report, random: &mut Random, kind: &'static str, file: &[u8], is_exact: bool) {
    let (place, start) = start(random, file);
    let need = model::row_needs(file, start).map_or_else(|| random.below(100), |needs| needs.0);
    let (_, len) = lent_length(random, need, is_exact);
    let mut expected = Lent::new(random, len, |value| value as u32);
    let mut given = expected.clone();
    let number = model::read_row(file, start, expected.part());
    let lent = report.fence.lend(file);
    let answer = port::read_row(lent, start, given.part());
    let mut notes = Vec::new();
    if lent != file {
        notes.push("the file has changed".into());
    }
    if answer != number {
        notes.push(format!("model {number}, library {answer}"));
    }
    expected.differ("cells of the row", &given, &mut notes);
    report.rows += 1;
    report.count("one row, answers by start", place, answer);
    report.count("one row, answers by damage", kind, answer);
    if !notes.is_empty() {
        report.difference(|| {
            let text = notes.join("\n  ");
            format!("in the row at {start}, {kind}, lent {len}\n  {text}\n  file of {} bytes {}", file.len(), hex(file))
        });
    }
}

/// A row of a file that is read whole, from its start: the cells of its whole reading, which go from the top.
pub fn of_whole(report: &mut Report, random: &mut Random, file: &[u8], height: u32, cells: &[u32]) {
    let stored = random.below(height.into()) as u32;
    let is_top_first = i32::from_le_bytes([file[22], file[23], file[24], file[25]]) < 0;
    let y = if is_top_first { stored } else { height - 1 - stored } as usize;
    let numbers = cells.len() / height as usize;
    let Some(start) = model::row_start(file, stored).filter(|_| cells.len() as u64 <= MOST) else {
        report.difference(|| format!("row {stored} has no start\n  file {}", hex(file)));
        return;
    };
    let mut row = vec![0x5A5A_5A5A; numbers + 2 * GUARD];
    let answer = port::read_row(report.fence.lend(file), start, &mut row[GUARD..GUARD + numbers]);
    let guards = row[..GUARD] == row[GUARD + numbers..];
    report.rows_of_whole += 1;
    if answer != 0 || !guards || row[GUARD..GUARD + numbers] != cells[y * numbers..][..numbers] {
        report.difference(|| {
            format!("row {stored} at {start}: {answer}, and not the whole reading's\n  file {}", hex(file))
        });
    }
}
