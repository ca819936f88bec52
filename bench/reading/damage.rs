//! What is done to a file before it is read.

use crate::hand::{self, EMBEDDED, LINKED, set_dword, set_word};
use crate::pictures;
use crate::random::Random;

struct Field {
    name: &'static str,
    at: usize,
    bytes: usize,
}

const fn field(name: &'static str, at: usize, bytes: usize) -> Field {
    Field { name, at, bytes }
}

const FIELDS: [Field; 22] = [
    field("field: mark", 0, 2),
    field("field: file size", 2, 4),
    field("field: reserved", 6, 4),
    field("field: pixel offset", 10, 4),
    field("field: header size", 14, 4),
    field("field: width", 18, 4),
    field("field: height", 22, 4),
    field("field: planes", 26, 2),
    field("field: depth", 28, 2),
    field("field: compression", 30, 4),
    field("field: image size", 34, 4),
    field("field: resolution across", 38, 4),
    field("field: resolution down", 42, 4),
    field("field: colour count", 46, 4),
    field("field: colours that matter", 50, 4),
    field("field: red mask", 54, 4),
    field("field: green mask", 58, 4),
    field("field: blue mask", 62, 4),
    field("field: alpha mask", 66, 4),
    field("field: colour space", 70, 4),
    field("field: profile place", 126, 4),
    field("field: profile size", 130, 4),
];

fn dword(file: &[u8], at: usize) -> u32 {
    file.get(at..at + 4).map_or(0, |bytes| u32::from_le_bytes(bytes.try_into().expect("four bytes")))
}

/// A number within three of another.
fn near(random: &mut Random, number: u32) -> u32 {
    number.wrapping_add(random.below(7) as u32).wrapping_sub(3)
}

/// The bytes that the rows take, by fields that may be anything; a wrong one only makes a place less interesting.
fn row_total(file: &[u8]) -> u32 {
    let bits = u64::from(dword(file, 18)) * u64::from(dword(file, 28) & 0xFFFF);
    (bits.div_ceil(32) * 4 * u64::from((dword(file, 22) as i32).unsigned_abs() & 0xFFFF)) as u32
}

/// Values that mean something in this field.
fn meant(random: &mut Random, file: &[u8], at: usize) -> u32 {
    let len = file.len() as u32;
    match at {
        0 => u32::from(u16::from_le_bytes(random.pick(&[*b"BM", *b"MB", *b"BA", *b"bM", *b"CI"]))),
        10 => near(random, len.wrapping_sub(row_total(file))),
        14 => random.pick(&[40, 108, 124, 12, 16, 39, 41, 52, 56, 64]),
        18 => random.range(1, 600) as u32,
        22 => (random.below(41) as i32 - 20) as u32,
        28 => random.pick(&[0, 1, 2, 3, 4, 5, 7, 8, 9, 15, 16, 17, 24, 31, 32, 33, 48, 64, 257, 264]),
        30 => random.below(14) as u32,
        46 => near(random, 1 << (dword(file, 28) & 15)),
        54 | 58 | 62 | 66 => {
            let shift = random.below(32);
            pictures::run(shift, random.range(1, 32 - shift))
        }
        70 => random.pick(&[LINKED, EMBEDDED, 0, 1, 0x7352_4742, 0x5769_6E20]),
        126 => near(random, len.wrapping_sub(14).wrapping_sub(dword(file, 130))),
        130 => near(random, len.wrapping_sub(14).wrapping_sub(dword(file, 126))),
        _ => random.next() as u32,
    }
}

/// Limits of the number, of the file, and what stands there with a small change.
fn value(random: &mut Random, file: &[u8], at: usize) -> u32 {
    let (len, now) = (file.len() as u32, dword(file, at));
    match random.below(10) {
        0 | 1 => random.pick(&[0, 1, i32::MAX as u32, 1 << 31, u32::MAX]),
        2 => near(random, len),
        3 => 0u32.wrapping_sub(random.below(u64::from(len) + 20) as u32),
        4 => {
            let power = 1 << random.below(32);
            near(random, power)
        }
        5 => near(random, now),
        6 => now.wrapping_neg(),
        7 => random.below(64) as u32,
        _ => meant(random, file, at),
    }
}

fn set_field(random: &mut Random, file: &mut [u8]) -> &'static str {
    // A file of few bytes has few fields; the others stay what they are.
    let field = &FIELDS[random.below(FIELDS.len() as u64) as usize];
    let value = value(random, file, field.at);
    if field.bytes == 2 {
        set_word(file, field.at, value as u16)
    } else {
        set_dword(file, field.at, value)
    }
    field.name
}

/// Width and height whose product, in bytes or numbers, is about a power of two at which a product could wrap.
fn set_product(random: &mut Random, file: &mut [u8]) {
    let whole: u64 = random.pick(&[28, 29, 30, 31, 32, 33, 59, 60, 61]);
    let across = random.range(whole.saturating_sub(31), whole.min(30));
    let height = 1u32 << (whole - across);
    set_dword(file, 18, (1 << across) + random.below(2) as u32);
    set_dword(file, 22, if random.one_in(4) { height.wrapping_neg() } else { height });
}

/// Ends of fields and parts, and their neighbours.
fn cut_at_edge(random: &mut Random, file: &mut Vec<u8>) {
    let (header, offset) = (dword(file, 14), dword(file, 10));
    let profile = dword(file, 126).wrapping_add(14);
    let edges = [
        2,
        18,
        22,
        26,
        30,
        34,
        50,
        54,
        66,
        70,
        74,
        header.wrapping_add(14),
        header.wrapping_add(14).wrapping_add(dword(file, 46).wrapping_mul(4)),
        offset,
        offset.wrapping_add(row_total(file)),
        profile,
        profile.wrapping_add(dword(file, 130)),
        file.len() as u32,
    ];
    let to = random.pick(&edges).wrapping_add(random.below(3) as u32).wrapping_sub(1);
    file.truncate(to as usize);
}

fn place(random: &mut Random, file: &[u8]) -> usize {
    random.below(file.len() as u64 + 1) as usize
}

/// Some bytes from a place on, changed one by one.
fn change(random: &mut Random, part: &mut [u8], mut one: impl FnMut(&mut Random, u8) -> u8) {
    if part.is_empty() {
        return;
    }
    for _ in 0..random.range(1, 4) {
        let at = random.below(part.len() as u64) as usize;
        part[at] = one(random, part[at]);
    }
}

fn flip(random: &mut Random, byte: u8) -> u8 {
    byte ^ 1 << random.below(8)
}

fn pixels(file: &mut [u8]) -> &mut [u8] {
    let at = dword(file, 10) as usize;
    file.get_mut(at..).unwrap_or_default()
}

/// Damages the file in one way and says in which.
pub fn once(random: &mut Random, file: &mut Vec<u8>, other: impl Fn(&mut Random) -> Vec<u8>) -> &'static str {
    let head = file.len().min(138);
    match random.below(32) {
        0 => {
            file.truncate(place(random, file));
            "cut anywhere"
        }
        1..=3 => {
            cut_at_edge(random, file);
            "cut at an edge"
        }
        4 | 5 => {
            change(random, &mut file[..head], flip);
            "bits flipped in the head"
        }
        6 => {
            change(random, file, flip);
            "bits flipped anywhere"
        }
        7 => {
            change(random, &mut file[..head], |random, _| random.byte());
            "bytes set in the head"
        }
        8 => {
            change(random, file, |random, _| random.byte());
            "bytes set anywhere"
        }
        9..=18 => set_field(random, file),
        19 => {
            set_field(random, file);
            set_field(random, file);
            "two fields"
        }
        20 | 21 => {
            set_field(random, file);
            cut_at_edge(random, file);
            "a field, then cut at an edge"
        }
        22 | 23 => {
            set_product(random, file);
            "width and height with a large product"
        }
        24 | 25 => {
            change(random, pixels(file), |random, _| random.byte());
            "pixel bytes set"
        }
        26 => {
            change(random, pixels(file), |random, byte| random.pick(&[0, 1, 2, 3, byte.wrapping_add(1)]));
            "pixel bytes set to codes"
        }
        27 => {
            let len = random.range(1, 40);
            file.extend(random.bytes(len as usize));
            "bytes appended"
        }
        28 => {
            file.extend(other(random));
            "two files in a row"
        }
        29 => {
            let (from, to) = (place(random, file), place(random, file));
            file.drain(from.min(to).max(from.saturating_sub(8))..from);
            "a part taken out"
        }
        30 => {
            let (at, len) = (place(random, file), random.range(1, 8));
            let part = random.bytes(len as usize);
            file.splice(at..at, part);
            "a part put in"
        }
        _ => {
            let (other, at) = (other(random), random.range(1, 138) as usize);
            let at = at.min(other.len()).min(file.len());
            file[..at].copy_from_slice(&other[..at]);
            "the head of another file"
        }
    }
}

/// All kinds, for the count of those that were met.
pub fn kinds() -> Vec<&'static str> {
    let others = [
        "none",
        "several",
        "cut anywhere",
        "cut at an edge",
        "bits flipped in the head",
        "bits flipped anywhere",
        "bytes set in the head",
        "bytes set anywhere",
        "two fields",
        "a field, then cut at an edge",
        "width and height with a large product",
        "pixel bytes set",
        "pixel bytes set to codes",
        "bytes appended",
        "two files in a row",
        "a part taken out",
        "a part put in",
        "the head of another file",
    ];
    others.into_iter().chain(FIELDS.iter().map(|field| field.name)).collect()
}

/// A file of any origin, to be joined with another.
pub fn any_file(random: &mut Random) -> Vec<u8> {
    match random.below(8) {
        0 => hand::stray(random),
        1..=3 => hand::made(random),
        _ => pictures::written(random).file,
    }
}
