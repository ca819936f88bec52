//! The true limit of 4,294,967,295 bytes, on sparse planes. The writing calls here are run on both sides, the port's by
//! both functions where the settings are the default ones, and with starts.

use crate::agreed::agreed;
use crate::case::{Case, INDEXED4, PAL8, Plane};
use crate::compare::{Report, compare};
use crate::counts::Answer;
use crate::exhaustive::simple;
use crate::original::{Original, WRITTEN};
use crate::port;
use crate::rule;
use crate::sparse::Sparse;
use crate::starts;
use std::time::Instant;

const FILL: u8 = 0xA5;
const GIB: u64 = 1 << 30;
const BGRA: u32 = 2;

/// A case, what the paper says of it, and the memory that both sides write at most at one time.
struct Expected {
    what: &'static str,
    case: Case,
    answer: Answer,
    bytes: u64,
    /// This byte of the plane is 1, the others are 0.
    one_at: Option<usize>,
    memory: u64,
}

/// A picture of zeros with a palette of 256 or 16 entries.
fn zeros(format: u32, width: u32, height: u32) -> Case {
    let len = simple(format, width, height, Plane::Zeros(0)).row_bytes() * u64::from(height);
    let mut case = simple(format, width, height, Plane::Zeros(len as usize));
    case.palette = vec![0x33; 1024];
    case
}

fn refused(what: &'static str, case: Case, number: u32, memory: u64) -> Expected {
    Expected { what, case, answer: Answer::Refused(number), bytes: 0, one_at: None, memory }
}

fn written(what: &'static str, case: Case, format: u32, bytes: u64) -> Expected {
    let memory = bytes + rule::sizes(&case, case.settings.limit).map_or(0, |s| s.bound);
    Expected { what, case, answer: Answer::File(format), bytes, one_at: None, memory }
}

fn without_rle(mut case: Case) -> Case {
    case.options.rle = false;
    case
}

/// Bgra 16,384 x 65,535 with a linked profile: 138 + 4,294,901,760 + the profile's bytes.
fn with_profile(profile: usize) -> Case {
    let mut case = zeros(BGRA, 16_384, 65_535);
    case.source.has_linked_icc = true;
    case.linked_icc = vec![0x77; profile];
    case
}

/// Where plain file and stream are both too long: 1 x 2^30, four bytes a row in either.
fn narrow() -> Vec<Expected> {
    let picture = |format| zeros(format, 1, 1 << 30);
    vec![
        refused("Pal8 1 x 2^30 without RLE", without_rle(picture(PAL8)), 14, 0),
        refused("Pal8 1 x 2^30: 4 bytes a row", picture(PAL8), 16, 4 * GIB),
        refused("Indexed4 1 x 2^30: 4 bytes a row", picture(INDEXED4), 16, 4 * GIB),
    ]
}

fn at_limit(mut case: Case, limit: u64) -> Case {
    case.settings.limit = limit;
    case
}

/// Where only the stream fits, also to the byte at a limit of its own.
fn wide() -> Vec<Expected> {
    let picture = || zeros(PAL8, 65_280, 65_800);
    let bytes = 1078 + 33_821_200;
    vec![
        refused("Pal8 65,280 x 65,800 without RLE", without_rle(picture()), 14, 0),
        written("Pal8 65,280 x 65,800: a stream of 33,821,200 bytes", picture(), 7, bytes),
        written("the same at a limit of its own bytes", at_limit(picture(), bytes), 7, bytes),
        refused("the same at a limit of a byte less", at_limit(picture(), bytes - 1), 16, bytes),
        written(
            "Indexed4 510 x 2^24: a stream of 100,663,296 bytes",
            zeros(INDEXED4, 510, 1 << 24),
            8,
            118 + 100_663_296,
        ),
    ]
}

/// The stream just under the budget of 2^32 - 1078, equal to it, over it: 5 x h takes 4 bytes a row, and one byte
/// that differs two more.
fn borders() -> Vec<Expected> {
    let under = (1 << 30) - 270;
    let stream = 4 * u64::from(under);
    let mut equal =
        refused("Pal8 5 x (2^30 - 270), one byte 1: stream equal to the budget", zeros(PAL8, 5, under), 16, 4 * GIB);
    equal.one_at = Some(4);
    vec![
        written("Pal8 5 x (2^30 - 270): stream of budget - 2", zeros(PAL8, 5, under), 7, 1078 + stream),
        equal,
        refused("Pal8 5 x (2^30 - 269): stream of budget + 2", zeros(PAL8, 5, under + 1), 16, 4 * GIB),
    ]
}

/// The longest plain file, and one byte more.
fn plain() -> Vec<Expected> {
    vec![
        written(
            "Bgra 16,384 x 65,535, linked profile of 65,397: the longest file",
            with_profile(65_397),
            0,
            rule::TRUE_LIMIT,
        ),
        refused("Bgra 16,384 x 65,535, linked profile of 65,398: one byte more", with_profile(65_398), 14, 0),
    ]
}

/// Bytes of memory that the machine can still give.
fn available() -> u64 {
    let text = std::fs::read_to_string("/proc/meminfo").unwrap_or_default();
    let line = text.lines().find(|l| l.starts_with("MemAvailable:")).unwrap_or("");
    let kib: u64 = line.split_whitespace().nth(1).and_then(|n| n.parse().ok()).unwrap_or(0);
    kib * 1024
}

/// A call of the port on the case and a buffer.
type Call<'a> = &'a mut dyn FnMut(&mut [u8]) -> port::Answer;

/// What the port does to a buffer of the bound, filled before the call: its answer and whether every byte is right.
fn port_writes(case: &Case, bound: u64, file: &[u8], call: Call<'_>) -> (port::Answer, bool) {
    let mut memory = Sparse::new(case.offset + bound as usize + case.slack);
    let buffer = memory.bytes_mut();
    buffer.fill(FILL);
    let given = call(buffer);
    let (before, rest) = buffer.split_at(case.offset);
    let (inside, after) = rest.split_at(file.len());
    let kept = |bytes: &[u8]| bytes.iter().all(|b| *b == FILL);
    (given, kept(before) && inside == file && kept(after))
}

/// The same with a list of starts, of which the entry behind the last row stays; and 24 with one entry less.
fn with_starts(expected: &Expected, plane: &[u8], bound: u64, file: &[u8], wanted: port::Answer, report: &mut Report) {
    let case = &expected.case;
    let height = case.source.height as usize;
    // The list of a refused call is not written to.
    let list = if wanted.refusal == 0 { 8 * height as u64 } else { 0 };
    if list + bound + GIB > available() {
        println!("  NOT RUN with starts, a list of {} GiB: {}", list.div_ceil(GIB), expected.what);
        return;
    }
    // Zeros, which are no row's place, take no room before they are written.
    let mut list = vec![0; height + 1];
    let mut notes = Vec::new();
    let call = |buffer: &mut [u8], list: &mut [u64]| {
        let (source, options, lent) = (case.source, case.options, case.lent(plane));
        port::encode_with_starts(source, options, case.settings, lent, buffer, case.offset, list)
    };
    let short = port_writes(case, bound, &[], &mut |buffer| call(buffer, &mut list[..height - 1]));
    if short != (port::Answer { bytes: 0, refusal: 24, format: 0 }, true) || list.iter().any(|start| *start != 0) {
        notes.push(format!("with a list too short, port {short:?}"));
    }
    let (given, right) = port_writes(case, bound, file, &mut |buffer| call(buffer, &mut list));
    if given != wanted || !right || list[height] != 0 {
        notes.push(format!("original {wanted:?}, port with starts {given:?}, buffer right: {right}"));
    }
    if wanted.refusal == 0 {
        starts::check_file(case, plane, file, &list[..height], &mut report.counts, &mut notes);
    } else if list.iter().any(|start| *start != 0) {
        notes.push("the list of a refused call has changed".into());
    }
    if !notes.is_empty() {
        let text = format!("{}: {}\n  {}", expected.what, notes.join("\n  "), case.describe());
        report.difference(case.plane_len() as u64, text);
    }
}

/// Both sides on one case, and the paper's answer.
fn compare_large(expected: &Expected, plane: &[u8], report: &mut Report) {
    let case = &expected.case;
    let original = Original::new(case, plane);
    let bound = original.bound().expect("14 is not compared here");
    let (answer, number, format, file) = match original.encode() {
        Ok((format, mut file)) => {
            agreed(WRITTEN[format as usize], case.options.bitfields_masks, case.settings, &mut file);
            (Answer::File(format), 0, format, file)
        }
        Err(number) => (Answer::Refused(number), number, 0, Vec::new()),
    };
    let wanted = port::Answer { bytes: file.len() as u64, refusal: number, format };
    let by_rule = rule::sizes(case, case.settings.limit).map(|s| s.bound);
    let paper = answer == expected.answer && wanted.bytes == expected.bytes;
    report.counts.add(case, answer);
    for settings in [false, true] {
        if !settings && !case.has_default_settings() {
            continue;
        }
        let (source, options, lent) = (case.source, case.options, case.lent(plane));
        let (given, right) = port_writes(case, bound, &file, &mut |buffer| match settings {
            true => port::encode_into_with(source, options, case.settings, lent, buffer, case.offset),
            false => port::encode_into(source, options, lent, buffer, case.offset),
        });
        let query = if settings {
            port::size_bound_with(source, options, case.settings, lent)
        } else {
            port::size_bound(source, options, lent)
        };
        if given != wanted || !right || query.bytes != bound || query.refusal != 0 || by_rule != Ok(bound) || !paper {
            let sides = format!("original {wanted:?} bound {bound}, port {given:?} {query:?}, buffer right: {right}");
            report.difference(case.plane_len() as u64, format!("{}: {sides}\n  {}", expected.what, case.describe()));
        }
    }
    with_starts(expected, plane, bound, &file, wanted, report);
}

fn one(expected: &Expected, plane: &mut Sparse, report: &mut Report) {
    if expected.memory + GIB > available() {
        println!("  NOT RUN, {} GiB of memory needed: {}", expected.memory.div_ceil(GIB) + 1, expected.what);
        return;
    }
    let start = Instant::now();
    if let Some(at) = expected.one_at {
        plane.bytes_mut()[at] = 1;
    }
    if expected.answer == Answer::Refused(14) {
        let answer = compare(&expected.case, plane.bytes(), report);
        if answer != expected.answer {
            report.difference(0, format!("{}: {answer:?}", expected.what));
        }
    } else {
        compare_large(expected, plane.bytes(), report);
    }
    if let Some(at) = expected.one_at {
        plane.bytes_mut()[at] = 0;
    }
    let seconds = start.elapsed().as_secs_f64();
    println!(
        "  {}: {:?}, {} bytes, {seconds:.1} s, differences so far {}",
        expected.what, expected.answer, expected.bytes, report.found
    );
}

pub fn all(report: &mut Report) {
    let mut plane = Sparse::new(16 << 30);
    for part in [wide(), narrow(), borders(), plain()] {
        for expected in &part {
            one(expected, &mut plane, report);
        }
    }
}
