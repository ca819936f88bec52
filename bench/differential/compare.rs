//! One case on both sides.

use crate::agreed::{Agreed, agreed};
use crate::case::{Case, PAL8, Plane};
use crate::counts::{Answer, Counts};
use crate::generate;
use crate::original::{self, Original, WRITTEN};
use crate::port;
use crate::random::Random;
use crate::rule;
use crate::starts;
use oxideav_bmp::encoder::DifferentialSizes;

/// What has been seen so far.
pub struct Report {
    pub counts: Counts,
    pub found: u64,
    first: Vec<String>,
    smallest: Option<(u64, String)>,
}

const SHOWN: usize = 5;

impl Report {
    pub fn new() -> Self {
        Self { counts: Counts::new(), found: 0, first: Vec::new(), smallest: None }
    }

    pub fn difference(&mut self, size: u64, text: String) {
        self.found += 1;
        if self.first.len() < SHOWN {
            self.first.push(text.clone());
        }
        if self.smallest.as_ref().is_none_or(|(known, _)| size < *known) {
            self.smallest = Some((size, text));
        }
    }

    /// The first differences and the one with the fewest input bytes.
    pub fn print(&self) {
        for text in &self.first {
            println!("DIFFERENCE {text}\n");
        }
        if let Some((_, text)) = &self.smallest {
            println!("SMALLEST {text}\n");
        }
        println!("differences: {}", self.found);
    }
}

fn input_size(case: &Case) -> u64 {
    let lent = case.palette.len() + case.icc.len() + case.linked_icc.len();
    (case.plane_len() + lent) as u64 + u64::from(case.source.width) * u64::from(case.source.height)
}

/// The buffer's bytes before a call.
pub fn pattern(len: usize, salt: u8) -> Vec<u8> {
    (0..len).map(|k| (k as u8).wrapping_mul(29) ^ (k >> 8) as u8 ^ salt).collect()
}

pub fn refused(number: u32) -> port::Answer {
    port::Answer { bytes: 0, refusal: number, format: 0 }
}

/// Notes what is not equal on two sides.
pub fn differ<T: PartialEq + std::fmt::Debug>(notes: &mut Vec<String>, what: &str, sides: [&str; 2], one: T, other: T) {
    if one != other {
        notes.push(format!("{what}: {} {one:?}, {} {other:?}", sides[0], sides[1]));
    }
}

const BOTH: [&str; 2] = ["original", "port"];
const ORIGINAL_AND_RULE: [&str; 2] = ["original", "rule"];
const RULE_AND_PORT: [&str; 2] = ["rule", "port"];
const BOTH_FUNCTIONS: [&str; 2] = ["without settings", "with the default ones"];

/// The port's size query; with the default settings by both functions, which must agree.
fn query(case: &Case, zeros: &[u8], notes: &mut Vec<String>) -> port::Answer {
    let given = port::size_bound_with(case.source, case.options, case.settings, case.lent(zeros));
    if case.has_default_settings() {
        let other = port::size_bound(case.source, case.options, case.lent(zeros));
        differ(notes, "size queries", BOTH_FUNCTIONS, other, given);
    }
    given
}

/// The port's writing call; with the default settings by both functions, which must leave the same buffer.
fn write(case: &Case, zeros: &[u8], buffer: &mut [u8], notes: &mut Vec<String>) -> port::Answer {
    let mut copy = buffer.to_vec();
    let given = port::encode_into_with(case.source, case.options, case.settings, case.lent(zeros), buffer, case.offset);
    if case.has_default_settings() {
        let other = port::encode_into(case.source, case.options, case.lent(zeros), &mut copy, case.offset);
        differ(notes, "writing calls", BOTH_FUNCTIONS, other, given);
        differ(notes, "buffers differ at", BOTH_FUNCTIONS, None, first_different(&copy, buffer));
    }
    given
}

fn check_bound(case: &Case, zeros: &[u8], original: &Original<'_>, bound: Result<u64, u32>, notes: &mut Vec<String>) {
    let expected = match bound {
        Ok(bytes) => port::Answer { bytes, refusal: 0, format: 0 },
        Err(number) => refused(number),
    };
    let given = query(case, zeros, notes);
    differ(notes, "size query", BOTH, expected, given);
    if matches!(bound, Ok(_) | Err(14)) {
        let (limit, by_rule) = (case.settings.limit, rule::sizes(case, case.settings.limit));
        differ(notes, "bound", ORIGINAL_AND_RULE, bound, by_rule.map(|s| s.bound));
        differ(notes, "sizes", ORIGINAL_AND_RULE, original.sizes(limit), by_rule);
    }
}

/// Stream or plain rows, and how long the file is, or 14 or 16: the original against the rule with the case's limit.
fn check_outcome(case: &Case, file: &Result<(u32, Vec<u8>), u32>, stream: Option<u64>, notes: &mut Vec<String>) {
    let limit = case.settings.limit;
    let written = match file {
        Ok((format, file)) => Ok(([7, 8].contains(format), file.len() as u64)),
        Err(number @ (14 | 16)) => Err(*number),
        Err(_) => return,
    };
    let by_rule = rule::sizes(case, limit).and_then(|sizes| rule::outcome(&sizes, stream, limit));
    differ(notes, "outcome", ORIGINAL_AND_RULE, written, by_rule);
}

/// What a case met at a limit below the largest.
fn met_at_a_limit(case: &Case, sizes: &DifferentialSizes, stream: Option<u64>, answer: Answer) -> Vec<&'static str> {
    let limit = case.settings.limit;
    let pal8 = case.source.format == PAL8;
    let by_format = |names: [&'static str; 2]| names[usize::from(!pal8)];
    let mut met = Vec::new();
    if sizes.budget == Some(0) {
        met.push(by_format(["at a lower limit, budget 0, Pal8", "at a lower limit, budget 0, Indexed4"]));
    }
    match (answer, stream.map(|stream| sizes.head + stream)) {
        (Answer::File(7 | 8), Some(bytes)) if sizes.file > limit => {
            met.push(by_format([
                "at a lower limit, stream used where the plain file is over it, Pal8",
                "at a lower limit, stream used where the plain file is over it, Indexed4",
            ]));
            if bytes == limit {
                met.push("at a lower limit, stream used and its file equal to the limit");
            }
        }
        (Answer::File(7 | 8), _) => met.push("at a lower limit, stream used where the plain file fits"),
        (Answer::File(_), _) => {
            met.push("at a lower limit, plain file");
            if sizes.file == limit {
                met.push("at a lower limit, plain file equal to the limit");
            }
        }
        (Answer::Refused(14), _) => {
            met.push("at a lower limit, 14");
            if sizes.file == limit + 1 {
                met.push("at a lower limit, 14: plain file a byte over");
            }
        }
        (Answer::Refused(16), Some(bytes)) => {
            met.push(by_format(["at a lower limit, 16, Pal8", "at a lower limit, 16, Indexed4"]));
            if bytes == limit + 1 {
                met.push("at a lower limit, 16: stream's file a byte over");
            }
            if sizes.file == limit + 1 {
                met.push("at a lower limit, 16: plain file a byte over");
            }
        }
        _ => {}
    }
    met
}

fn count_limit(case: &Case, stream: Option<u64>, answer: Answer, report: &mut Report) {
    if case.has_default_settings() {
        report.counts.add_other("by both functions, with the default settings");
    }
    // A file that the largest limit refuses too says nothing of this one.
    let relevant = matches!(answer, Answer::File(_) | Answer::Refused(14 | 16));
    if case.settings.limit == rule::TRUE_LIMIT || !relevant {
        return;
    }
    let Ok(mut sizes) = rule::sizes(case, rule::TRUE_LIMIT) else { return };
    if let Ok(lower) = rule::sizes(case, case.settings.limit) {
        sizes.budget = lower.budget;
    }
    for what in met_at_a_limit(case, &sizes, stream, answer) {
        report.counts.add_other(what);
    }
}

pub fn check_masks(bpp: u16, masks: [u32; 4], notes: &mut Vec<String>) {
    differ(notes, "mask check", BOTH, original::check_masks(bpp, masks), port::check_masks(bpp, masks));
}

pub fn first_different(a: &[u8], b: &[u8]) -> Option<usize> {
    if a == b { None } else { a.iter().zip(b).position(|(x, y)| x != y) }
}

/// The original appending at an offset gives the same file after the same bytes.
fn check_append(original: &Original<'_>, before: &[u8], file: Result<&[u8], u32>) {
    let mut appended = before.to_vec();
    let answer = original.append(&mut appended);
    assert_eq!(answer.err(), file.err(), "the original's append");
    assert!(appended[..before.len()] == *before && appended[before.len()..] == *file.unwrap_or(&[]));
}

/// The writing call's answer and the whole buffer, and the same with starts.
fn check_write(
    case: &Case,
    zeros: &[u8],
    original: &Original<'_>,
    bound: Result<u64, u32>,
    stream: Option<u64>,
    counts: &mut Counts,
    notes: &mut Vec<String>,
) -> (Answer, Agreed) {
    let mut file = original.encode();
    if !case.is_large() {
        check_outcome(case, &file, stream, notes);
    }
    let len = bound.map_or(3 * case.slack, |b| case.offset + b as usize + case.slack);
    let before = pattern(len, case.salt);
    let (mut buffer, mut expected) = (before.clone(), before.clone());
    if case.offset > 0 && case.offset <= len {
        check_append(original, &expected[..case.offset], file.as_ref().map(|f| f.1.as_slice()).map_err(|e| *e));
    }
    let made = file.as_mut().map_or(Agreed::default(), |(format, file)| {
        agreed(WRITTEN[*format as usize], case.options.bitfields_masks, case.settings, file)
    });
    let (answer, expected_answer) = match &file {
        Ok((format, file)) => {
            expected[case.offset..case.offset + file.len()].copy_from_slice(file);
            (Answer::File(*format), port::Answer { bytes: file.len() as u64, refusal: 0, format: *format })
        }
        Err(number) => (Answer::Refused(*number), refused(*number)),
    };
    let given = write(case, zeros, &mut buffer, notes);
    differ(notes, "writing call", BOTH, expected_answer, given);
    if let Some(at) = first_different(&expected, &buffer) {
        notes.push(format!("buffer byte {at}: original {:#04x}, port {:#04x}", expected[at], buffer[at]));
    }
    starts::check(case, zeros, &before, &expected, expected_answer, counts, notes);
    (answer, made)
}

/// The writing call on a buffer that lacks a byte or more: the paper's 15, which says that nothing before it applies.
fn check_short_buffer(case: &Case, zeros: &[u8], bound: u64, counts: &mut Counts, notes: &mut Vec<String>) {
    let len = case.offset + (bound - 1).min(64) as usize;
    let mut buffer = pattern(len, case.salt);
    let given = write(case, zeros, &mut buffer, notes);
    differ(notes, "writing call in a short buffer", RULE_AND_PORT, refused(15), given);
    let before = pattern(len, case.salt);
    differ(notes, "buffer kept", RULE_AND_PORT, true, buffer == before);
    starts::check(case, zeros, &before, &before, refused(15), counts, notes);
}

/// Both sides on one case; the inputs must come out unchanged.
pub fn compare(case: &Case, zeros: &[u8], report: &mut Report) -> Answer {
    assert!(case.in_domain(), "outside the domain: {}", case.describe());
    let before = if case.is_large() { None } else { Some(case.clone()) };
    let mut notes = Vec::new();
    let original = Original::new(case, zeros);
    let bound = original.bound();
    check_bound(case, zeros, &original, bound, &mut notes);
    let stream = if case.is_large() { None } else { stream(case) };
    if let Some(stream) = stream {
        report.counts.add_stream(case, stream, rule::stored_row(case) * u64::from(case.source.height));
    }
    if case.options.has_bitfields {
        check_masks(case.options.bitfields_bpp, case.options.bitfields_masks, &mut notes);
        report.counts.add_other("mask checks");
    }
    let answer = if let (true, Ok(bound)) = (case.is_large(), bound) {
        check_short_buffer(case, zeros, bound, &mut report.counts, &mut notes);
        Answer::BoundOnly
    } else {
        let (answer, made) = check_write(case, zeros, &original, bound, stream, &mut report.counts, &mut notes);
        if made.image_size {
            report.counts.add_other("image sizes filled in");
        }
        if made.wide_channel {
            report.counts.add_other("wide channels fitted anew");
        }
        if made.resolutions {
            report.counts.add_other("resolutions set");
        }
        answer
    };
    if let Some(before) = before {
        let kept = before.plane(zeros) == case.plane(zeros)
            && before.palette == case.palette
            && before.icc == case.icc
            && before.linked_icc == case.linked_icc;
        differ(&mut notes, "inputs kept", RULE_AND_PORT, true, kept);
    }
    if !notes.is_empty() {
        report.difference(input_size(case), format!("{}\n  {}", notes.join("\n  "), case.describe()));
    }
    report.counts.add(case, answer);
    count_limit(case, stream, answer, report);
    answer
}

/// The stream's whole length, where RLE is planned and nothing else refuses the case.
pub fn stream(case: &Case) -> Option<u64> {
    if rule::rle_planned(case) { Original::new(case, &[]).stream() } else { None }
}

/// A case outside the domain, made from an accepted one: what it is, the paper's number and the buffer's length.
fn outside(random: &mut Random, case: &Case, bound: u64) -> (Case, &'static str, u32, usize) {
    let mut copy = case.clone();
    let mut len = case.offset + bound as usize;
    let over = (1 << 31) + random.below(1 << 31) as u32;
    let (what, number) = match random.below(8) {
        0 => {
            copy.source.width = over;
            ("port alone, 2: width", 2)
        }
        1 => {
            copy.source.height = over;
            ("port alone, 2: height", 2)
        }
        2 if case.is_indexed() => {
            let more = random.range(1, 3) as usize;
            copy.palette.extend(std::iter::repeat_n(7, more));
            ("port alone, 4: palette bytes", 4)
        }
        3 if case.source.height > 1 => {
            copy.source.stride = u64::MAX / u64::from(case.source.height) + random.range(1, 1000);
            ("port alone, 12: stride x height of 2^64 and more", 12)
        }
        4 => {
            copy.source.format = 10 + random.next() as u32 % 1000;
            ("port alone, 255: unknown format", 255)
        }
        5 => {
            copy.offset = len + random.range(1, 9) as usize;
            ("port alone, 15: offset past the end", 15)
        }
        6 => {
            copy.offset = usize::MAX - random.below(9) as usize;
            ("port alone, 15: offset about 2^64", 15)
        }
        _ => {
            len -= random.range(1, bound.min(9)) as usize;
            ("port alone, 15: buffer too short", 15)
        }
    };
    (copy, what, number, len)
}

/// What the original does not have, on the port alone: the paper's number and an unchanged buffer.
pub fn port_alone(case: &Case, random: &mut Random, report: &mut Report) {
    let Plane::Bytes(_) = case.plane else { return };
    let Ok(sizes) = rule::sizes(case, case.settings.limit) else { return };
    let (copy, what, number, len) = outside(random, case, sizes.bound);
    port_refuses(&copy, &[], what, number, len, report);
}

/// The number from the calls of the port, of which 15 is the writing call's own, and an unchanged buffer.
fn port_refuses(case: &Case, zeros: &[u8], what: &'static str, number: u32, len: usize, report: &mut Report) {
    let mut buffer = pattern(len, case.salt);
    let mut notes = Vec::new();
    let given = write(case, zeros, &mut buffer, &mut notes);
    differ(&mut notes, "writing call", RULE_AND_PORT, refused(number), given);
    let before = pattern(len, case.salt);
    differ(&mut notes, "buffer kept", RULE_AND_PORT, true, buffer == before);
    starts::check(case, zeros, &before, &before, refused(number), &mut report.counts, &mut notes);
    if number != 15 {
        let given = query(case, zeros, &mut notes);
        differ(&mut notes, "size query", RULE_AND_PORT, refused(number), given);
    }
    report.counts.add_other(what);
    if !notes.is_empty() {
        let text = format!("{what}: {} {:?} {:?}", notes.join("\n  "), case.source, case.settings);
        report.difference(input_size(case), text);
    }
}

/// Settings that only the port refuses, on a case with or without faults of its own: what stands before 3 comes first,
/// and nothing behind it is answered.
pub fn refused_settings(case: &Case, zeros: &[u8], random: &mut Random, report: &mut Report) {
    let mut copy = case.clone();
    copy.settings = generate::refused_settings(random, case.settings);
    generate::fault_before_settings(random, &mut copy.source);
    let number = rule::before_palette(&copy.source, &copy.settings).expect("settings that are refused");
    let (limit, resolution) = (rule::limit_refused(&copy.settings), rule::resolution_refused(&copy.settings));
    let across = copy.settings.x_pels_per_meter < 0;
    let what = match (number, limit, resolution) {
        (255, ..) => "port alone, 255 before refused settings",
        (1, ..) => "port alone, 1 before refused settings",
        (2, ..) => "port alone, 2 before refused settings",
        (20, _, true) => "port alone, 20: limit, and 21 applies too",
        (20, _, false) => "port alone, 20: limit",
        _ if across && copy.settings.y_pels_per_meter < 0 => "port alone, 21: both resolutions",
        _ if across => "port alone, 21: resolution across",
        _ => "port alone, 21: resolution down",
    };
    let len = if random.flag() { 3 * copy.slack } else { copy.offset + 600 + copy.slack };
    port_refuses(&copy, zeros, what, number, len, report);
}
