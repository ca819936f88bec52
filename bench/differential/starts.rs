//! The writing call that also fills a list of row starts (document 02, A.7), on the cases of the others: the same
//! answer and buffer, the list, and rows read from their starts.

use crate::case::{Case, PAL8};
use crate::compare::{differ, first_different, refused};
use crate::counts::Counts;
use crate::port;
use crate::row;
use crate::sparse::Sparse;
use std::cell::RefCell;

/// Entries before and behind the lent list.
const GUARD: usize = 3;
/// Of a higher picture a sample of so many rows is read.
const ROWS: u32 = 6;
/// A higher picture is refused here, and its list is memory that takes no room.
const LISTED: u32 = 1 << 12;
const CALLS: [&str; 2] = ["without starts", "with starts"];
const RULE_AND_PORT: [&str; 2] = ["rule", "port"];
const OWN_AND_PORT: [&str; 2] = ["driver", "port"];

thread_local! {
    /// A list for any height, of zeros.
    static ENDLESS: RefCell<Sparse> = RefCell::new(Sparse::new(8 << 32));
}

/// A list to lend; every entry and every guard holds a value of its own.
struct List {
    all: Vec<u64>,
    len: usize,
}

impl List {
    fn value(k: usize) -> u64 {
        (k as u64 + 1).wrapping_mul(0x9E37_79B9_7F4A_7C15)
    }

    fn new(len: usize) -> Self {
        Self { all: (0..len + 2 * GUARD).map(Self::value).collect(), len }
    }

    fn lent(&mut self) -> &mut [u64] {
        &mut self.all[GUARD..GUARD + self.len]
    }

    /// No guard and no entry has changed, but for the first `filled` entries.
    fn is_kept(&self, filled: usize) -> bool {
        let is_filled = |k| (GUARD..GUARD + filled).contains(&k);
        self.all.iter().enumerate().all(|(k, value)| is_filled(k) || *value == Self::value(k))
    }
}

fn call(case: &Case, zeros: &[u8], buffer: &mut [u8], list: &mut [u64]) -> port::Answer {
    port::encode_with_starts(case.source, case.options, case.settings, case.lent(zeros), buffer, case.offset, list)
}

/// A list that lacks an entry or more: 24, unless a number that stands before it applies. 16 stands behind it.
fn short_list(
    case: &Case,
    zeros: &[u8],
    buffer: &mut [u8],
    before: &[u8],
    number: u32,
    counts: &mut Counts,
    notes: &mut Vec<String>,
) {
    let height = case.source.height as usize;
    let (expected, what) = match number {
        0 => (24, "with starts, 24 where a file would be written"),
        16 => (24, "with starts, 24 before 16"),
        _ => (number, "with starts, a list too short and a number before 24"),
    };
    let len = [height.saturating_sub(1), 0, height / 2][usize::from(case.salt % 3)].min(LISTED as usize);
    let mut list = List::new(len);
    let given = call(case, zeros, buffer, list.lent());
    differ(notes, "writing call with too few starts", RULE_AND_PORT, refused(expected), given);
    differ(notes, "buffer kept with too few starts", RULE_AND_PORT, None, first_different(before, buffer));
    differ(notes, "list kept with too few starts", RULE_AND_PORT, true, list.is_kept(0));
    counts.add_other(what);
}

/// A refused picture of any height, with a list that is long enough. Of the list its ends are looked at.
fn endless_list(case: &Case, zeros: &[u8], buffer: &mut [u8], notes: &mut Vec<String>) -> port::Answer {
    ENDLESS.with_borrow_mut(|memory| {
        let (height, start) = (case.source.height as usize, memory.bytes_mut().as_mut_ptr());
        // Each height has eight bytes in this memory, which begins at a page and is lent here alone.
        let list = unsafe { std::slice::from_raw_parts_mut(start.cast::<u64>(), height) };
        let given = call(case, zeros, buffer, list);
        let kept = list[..1000].iter().chain(&list[height - 1000..]).all(|value| *value == 0);
        differ(notes, "list kept by a refused call", RULE_AND_PORT, true, kept);
        given
    })
}

/// The call after one without starts on the same buffer, which held `before` and then `expected`.
pub fn check(
    case: &Case,
    zeros: &[u8],
    before: &[u8],
    expected: &[u8],
    answer: port::Answer,
    counts: &mut Counts,
    notes: &mut Vec<String>,
) {
    let mut buffer = before.to_vec();
    short_list(case, zeros, &mut buffer, before, answer.refusal, counts, notes);
    let height = case.source.height;
    if answer.refusal != 0 && height > LISTED {
        let given = endless_list(case, zeros, &mut buffer, notes);
        differ(notes, "writing call", CALLS, answer, given);
    } else {
        let mut list = List::new(height as usize + case.slack % 4);
        let given = call(case, zeros, &mut buffer, list.lent());
        differ(notes, "writing call", CALLS, answer, given);
        let filled = if answer.refusal == 0 { height as usize } else { 0 };
        differ(notes, "entries kept", RULE_AND_PORT, true, list.is_kept(filled));
        if answer.refusal == 0 {
            let file = &expected[case.offset..][..answer.bytes as usize];
            check_file(case, zeros, file, &list.lent()[..filled], counts, notes);
        }
    }
    differ(notes, "buffers differ at", CALLS, None, first_different(expected, &buffer));
    if answer.refusal != 0 {
        counts.add_other("with starts, list kept on a refusal");
    }
}

/// The starts of a file, and rows read from there.
pub fn check_file(
    case: &Case,
    zeros: &[u8],
    file: &[u8],
    starts: &[u64],
    counts: &mut Counts,
    notes: &mut Vec<String>,
) {
    let (mut told, mut wrong) = (0, None);
    let whole = row::each_start(file, |k, start| {
        told += 1;
        if starts.get(k as usize) != Some(&start) && wrong.is_none() {
            wrong = Some(format!("stored row {k} begins at {start}, port {:?}", starts.get(k as usize)));
        }
    });
    notes.extend(wrong);
    differ(notes, "rows walked through", OWN_AND_PORT, (Some(()), told), (whole, starts.len()));
    counts.add_others("with starts, starts compared", starts.len() as u64);
    let height = case.source.height;
    let first = u32::from(case.salt) % height;
    for k in (0..height.min(ROWS)).map(|k| sample(height, first, k)) {
        let y = if case.options.top_down { k } else { height - 1 - k };
        let shown = row::handed_in(case, case.plane(zeros), y);
        check_row(file, k, starts[k as usize], &shown, "", notes);
        // One file in four, and in it one row.
        if k == first && (file.len() / 4 + usize::from(case.salt)) % 4 == 0 {
            check_others_unneeded(file, k, starts[k as usize], &shown, counts, notes);
        }
    }
    counts.add_others(kind(case, file), height.min(ROWS).into());
}

/// All rows of a low picture; of a higher one the first, the last, a drawn one and some between.
fn sample(height: u32, drawn: u32, k: u32) -> u32 {
    match k {
        _ if height <= ROWS => k,
        0 => 0,
        1 => height - 1,
        2 => drawn,
        _ => (u64::from(height) * u64::from(k) / u64::from(ROWS)) as u32,
    }
}

fn kind(case: &Case, file: &[u8]) -> &'static str {
    match (row::is_coded(file), case.options.top_down) {
        (true, _) if case.source.format == PAL8 => "with starts, rows read, RLE8",
        (true, _) => "with starts, rows read, RLE4",
        (false, true) => "with starts, rows read, plain from the top",
        (false, false) => "with starts, rows read, plain from the bottom",
    }
}

/// Both readers of one row; `how` says what was done to the file before.
fn check_row(file: &[u8], k: u32, start: u64, shown: &[u32], how: &str, notes: &mut Vec<String>) {
    const STRAY: u32 = 0xA5C3_F00D;
    let own = row::read(file, start).map(|read| read.0);
    if own.as_deref() != Some(shown) {
        notes.push(format!("stored row {k} at {start}{how}: handed in {shown:x?}, driver's reader {own:x?}"));
    }
    let mut cells = vec![STRAY; shown.len() + 2 * GUARD];
    let number = port::read_row(file, start, &mut cells[GUARD..GUARD + shown.len()]);
    let (before, rest) = cells.split_at(GUARD);
    let (inside, behind) = rest.split_at(shown.len());
    if number != 0 || inside != shown {
        notes.push(format!("stored row {k} at {start}{how}: handed in {shown:x?}, port {number} and {inside:x?}"));
    }
    differ(notes, "cells beside the row kept", OWN_AND_PORT, true, before == behind && *before == [STRAY; GUARD]);
}

/// The row again, from a file in which every byte outside head and row is another one, and from one that ends behind
/// it.
fn check_others_unneeded(file: &[u8], k: u32, start: u64, shown: &[u32], counts: &mut Counts, notes: &mut Vec<String>) {
    let Some((_, ends)) = row::read(file, start) else { return };
    let head = u32::from_le_bytes([file[10], file[11], file[12], file[13]]) as usize;
    let start_at = (start as usize).max(head);
    let mut other = file.to_vec();
    other[head..start_at].iter_mut().for_each(|byte| *byte = !*byte);
    other[ends.needed..].iter_mut().for_each(|byte| *byte = !*byte);
    check_row(&other, k, start, shown, " with all other bytes changed", notes);
    other.truncate(ends.needed);
    check_row(&other, k, start, shown, " at the end of the file", notes);
    counts.add_other("with starts, rows read with all other bytes changed, and at the file's end");
}
