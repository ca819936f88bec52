//! Files that no writer made: heads with stray values wherever nothing is said, pixel offsets and profiles anywhere,
//! and streams of codes that the writer does not choose, or that are wrong.

use crate::pictures;
use crate::random::Random;

pub const LINKED: u32 = 0x4C49_4E4B;
pub const EMBEDDED: u32 = 0x4D42_4544;
/// Depths with compressions.
pub const PAIRS: [(u16, u32); 13] =
    [(8, 1), (4, 2), (1, 0), (2, 0), (4, 0), (8, 0), (16, 0), (24, 0), (32, 0), (16, 3), (32, 3), (16, 6), (32, 6)];

pub fn set_word(file: &mut [u8], at: usize, value: u16) {
    if let Some(place) = file.get_mut(at..at + 2) {
        place.copy_from_slice(&value.to_le_bytes());
    }
}

pub fn set_dword(file: &mut [u8], at: usize, value: u32) {
    if let Some(place) = file.get_mut(at..at + 4) {
        place.copy_from_slice(&value.to_le_bytes());
    }
}

// Streams.

fn push_code(random: &mut Random, stream: &mut Vec<u8>, depth: u64, count: u64) {
    if count < 3 || random.flag() {
        stream.extend([count as u8, random.byte()]);
        return;
    }
    let taken = (count * depth).div_ceil(8);
    stream.extend([0, count as u8]);
    // The padding's value does not count, so it is any.
    stream.extend(random.bytes(taken.next_multiple_of(2) as usize));
}

/// A code that is wrong in a row with `left` cells to fill, or in some rows not wrong.
fn push_fault(random: &mut Random, stream: &mut Vec<u8>, depth: u64, left: u64) {
    let over = (left + random.range(1, 4)).min(255);
    match random.below(7) {
        0 => stream.extend([0, 0]),
        1 => stream.extend([0, 1]),
        2 => stream.extend([0, 2, random.byte(), random.byte()]),
        3 => stream.extend([over as u8, random.byte()]),
        4 => push_code(random, stream, depth, over.max(3)),
        5 => stream.push(random.byte()),
        _ => stream.extend([0, 0, 0, 0]),
    }
}

fn stream(random: &mut Random, depth: u64, width: u64, height: u64) -> Vec<u8> {
    let mut stream = Vec::new();
    let wrong_row = if random.one_in(3) { random.below(height) } else { height };
    let wrong_column = random.below(width + 1);
    for row in 0..height {
        let mut left = width;
        let mut is_wrong = row == wrong_row;
        while left > 0 {
            if is_wrong && width - left >= wrong_column {
                push_fault(random, &mut stream, depth, left);
                is_wrong = false;
            }
            let most = left.min(255);
            let count = if random.flag() { most } else { random.range(1, most.min(9)) };
            push_code(random, &mut stream, depth, count);
            left -= count;
        }
        if is_wrong && random.flag() {
            push_fault(random, &mut stream, depth, 0);
        } else if row + 1 < height && !is_wrong {
            stream.extend([0, 0]);
        }
    }
    match random.below(6) {
        0 => {}
        1 => stream.truncate(stream.len() - 1),
        2 => stream.push(random.byte()),
        3 => stream.extend([0, 0]),
        _ => stream.extend([0, 1]),
    }
    stream
}

// Heads.

fn masks(random: &mut Random, depth: u16) -> [u32; 4] {
    let mut masks = pictures::valid_masks(random, u64::from(depth));
    let channel = random.below(4) as usize;
    match random.below(30) {
        0 => masks[channel] = 0,
        1 => masks[channel] |= 1 << random.below(32),
        2 => masks[channel] = masks[(channel + 1) % 4],
        3 => masks[channel] = 0b101 << random.below(30),
        4 => masks[..3].fill(0),
        5 => masks[channel] = random.next() as u32,
        _ => {}
    }
    masks
}

fn colours(random: &mut Random, depth: u16) -> u32 {
    match random.below(6) {
        _ if depth > 8 => random.pick(&[0, 1, 255, 256, 257, u32::MAX]),
        0 => 0,
        1 => 1 << depth,
        2 if random.one_in(4) => (1 << depth) + 1,
        _ => random.range(1, 1 << depth.min(3)) as u32,
    }
}

/// Most often where the profile's bytes are, sometimes anywhere.
fn set_profile(random: &mut Random, file: &mut Vec<u8>) {
    let mut colour_space = random.pick(&[LINKED, EMBEDDED, LINKED, EMBEDDED, 0, 0x7352_4742]);
    if random.one_in(12) {
        colour_space = random.pick(&[LINKED.swap_bytes(), EMBEDDED.swap_bytes(), LINKED + 1, EMBEDDED + 256]);
    }
    let (at, len) = (file.len() as u64, random.below(30));
    let (place, size) = match random.below(8) {
        0 => (random.next() as u32, 0),
        1 => (random.below(at) as u32, random.below(at) as u32),
        2 => (0u32.wrapping_sub(random.below(20) as u32), len as u32),
        _ => {
            let blob = random.bytes(len as usize);
            file.extend(blob);
            ((at - 14) as u32, len as u32)
        }
    };
    set_dword(file, 70, colour_space);
    set_dword(file, 126, place);
    set_dword(file, 130, size);
}

fn set_head(file: &mut [u8], header: u32, width: u32, height: i32, depth: u16, compression: u32, colours: u32) {
    file[..2].copy_from_slice(b"BM");
    set_dword(file, 14, header);
    set_dword(file, 18, width);
    set_dword(file, 22, height as u32);
    set_word(file, 28, depth);
    set_dword(file, 30, compression);
    set_dword(file, 46, colours);
}

pub fn made(random: &mut Random) -> Vec<u8> {
    let header = random.pick(&[40, 40, 40, 108, 124, 124]);
    let (depth, compression) = if random.one_in(3) { PAIRS[random.below(2) as usize] } else { random.pick(&PAIRS) };
    let is_coded = matches!(compression, 1 | 2);
    let (width, height) = (pictures::width(random), random.range(1, 4) as i32);
    let is_top_first = random.flag() && (!is_coded || random.one_in(20));
    let colours = colours(random, depth);
    let mut file = random.bytes(14 + header as usize);
    if matches!(compression, 3 | 6) {
        let masks = masks(random, depth);
        file.resize(file.len().max(if compression == 6 { 70 } else { 66 }), 0);
        (0..4).for_each(|k| set_dword(&mut file, 54 + 4 * k, masks[k]));
    }
    set_head(&mut file, header, width, if is_top_first { -height } else { height }, depth, compression, colours);
    if depth <= 8 {
        let entries = if colours == 0 { 1 << depth } else { colours };
        file.extend(random.bytes(4 * entries as usize));
    }
    let gap = if random.one_in(4) { random.below(9) } else { 0 };
    file.extend(random.bytes(gap as usize));
    let offset = if random.one_in(12) { random.below(file.len() as u64) } else { file.len() as u64 };
    set_dword(&mut file, 10, offset as u32);
    let pixels = if is_coded {
        stream(random, depth.into(), width.into(), height as u64)
    } else {
        random.bytes((width as usize * usize::from(depth)).div_ceil(32) * 4 * height as usize)
    };
    file.extend(pixels);
    if header == 124 {
        set_profile(random, &mut file);
    }
    file
}

/// Bytes without any head, or with the mark alone.
pub fn stray(random: &mut Random) -> Vec<u8> {
    let len = random.pick(&[3, 60, 200]);
    let mut file = (0..random.below(len)).map(|_| random.byte()).collect::<Vec<u8>>();
    if random.flag() {
        file.iter_mut().zip(b"BM").for_each(|(byte, mark)| *byte = *mark);
    }
    file
}
