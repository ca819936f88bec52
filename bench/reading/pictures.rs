//! Random small pictures in all formats and modes, the writer's files of them, and what document 01 says must be shown.

use crate::port::{self, Lent, Options, Source};
use crate::random::Random;

const SOURCE_BYTES: [usize; 10] = [4, 3, 4, 3, 2, 2, 1, 1, 1, 1];
const DEPTHS: [u32; 10] = [32, 24, 32, 24, 16, 16, 8, 4, 2, 1];
/// The places of red, green, blue and alpha in a cell of the first four formats; a missing alpha sample is 255.
const SAMPLES: [[Option<usize>; 4]; 4] = [
    [Some(0), Some(1), Some(2), Some(3)],
    [Some(0), Some(1), Some(2), None],
    [Some(2), Some(1), Some(0), Some(3)],
    [Some(2), Some(1), Some(0), None],
];
const RGB565: u32 = 5;
const PAL8: u32 = 6;

#[derive(Clone, Copy, PartialEq, Eq)]
pub enum Mode {
    None,
    Masks,
    Calibrated,
    Embedded,
    Linked,
    Both,
}

pub const MODES: [Mode; 6] = [Mode::None, Mode::Masks, Mode::Calibrated, Mode::Embedded, Mode::Linked, Mode::Both];
const DRAWN: [Mode; 8] =
    [Mode::None, Mode::None, Mode::None, Mode::Masks, Mode::Calibrated, Mode::Embedded, Mode::Linked, Mode::Both];

/// A file, and what a reader must make of it.
#[derive(Clone)]
pub struct Written {
    pub file: Vec<u8>,
    pub width: u32,
    pub height: u32,
    pub depth: u32,
    pub table: Vec<u8>,
    pub cells: Vec<u32>,
    pub profile: Vec<u8>,
}

struct Picture {
    source: Source,
    options: Options,
    plane: Vec<u8>,
    palette: Vec<u8>,
    icc: Vec<u8>,
    linked_icc: Vec<u8>,
}

// What is drawn.

pub fn run(shift: u64, len: u64) -> u32 {
    (((1u64 << len) - 1) << shift) as u32
}

/// Disjoint runs from the low bits up, each channel possibly absent, but not all of red, green and blue.
pub fn valid_masks(random: &mut Random, depth: u64) -> [u32; 4] {
    loop {
        let mut masks = [0; 4];
        let (first, step) = (random.below(4), random.pick(&[1, 3]));
        let mut at = 0;
        for k in 0..4 {
            if at == depth || random.one_in(5) {
                continue;
            }
            at += if random.one_in(3) { random.below(depth - at) } else { 0 };
            let most = if random.one_in(3) { depth - at } else { (depth - at).min(10) };
            let len = random.range(1, most);
            masks[((first + step * k) % 4) as usize] = run(at, len);
            at += len;
        }
        if masks[..3] != [0; 3] {
            return masks;
        }
    }
}

fn options(random: &mut Random, mode: Mode) -> Options {
    let depth = random.pick(&[16, 32]);
    let mut options = Options {
        top_down: random.one_in(4),
        minimal_palette: random.flag(),
        rle: !random.one_in(4),
        embed_icc: matches!(mode, Mode::Embedded | Mode::Both),
        has_bitfields: mode == Mode::Masks,
        has_calibrated: mode == Mode::Calibrated,
        bitfields_bpp: depth,
        bitfields_masks: valid_masks(random, u64::from(depth)),
        rendering_intent: random.next() as u32,
        ..Options::default()
    };
    options.endpoints.fill_with(|| random.next() as i32);
    options.gamma.fill_with(|| random.next() as u32);
    if random.flag() {
        options.bitfields_masks[3] = 0;
    }
    options
}

/// A length about a power of two or small.
pub fn width(random: &mut Random) -> u32 {
    match random.below(12) {
        0 => random.range(30, 34) as u32,
        1 => random.range(62, 66) as u32,
        2 => random.range(253, 260) as u32,
        3 if random.one_in(3) => random.range(508, 515) as u32,
        _ => random.range(1, 18) as u32,
    }
}

/// One value, runs, few values or any values.
fn cells(random: &mut Random, len: usize) -> Vec<u8> {
    let few = [random.byte(), random.byte(), random.byte()];
    let longest = random.pick(&[3, 12, 300]);
    let kind = random.below(4);
    let mut bytes = Vec::with_capacity(len);
    while bytes.len() < len {
        let (value, count) = match kind {
            0 => (few[0], len as u64),
            1 => (random.pick(&few), random.range(1, longest)),
            2 => (random.pick(&few), 1),
            _ => (random.byte(), 1),
        };
        bytes.resize((bytes.len() + count as usize).min(len), value);
    }
    bytes
}

fn blob(random: &mut Random) -> Vec<u8> {
    let len = if random.one_in(5) { 0 } else { random.range(1, 40) };
    random.bytes(len as usize)
}

fn palette(random: &mut Random, depth: u32) -> Vec<u8> {
    let full = 1 << depth;
    let entries = match random.below(4) {
        0 => full,
        1 => full + 1,
        _ => random.below(full.min(9) + 1),
    };
    random.bytes(4 * entries as usize)
}

fn picture(random: &mut Random, format: u32, mode: Mode, width: u32, height: u32) -> Picture {
    let row = width as usize * SOURCE_BYTES[format as usize];
    let stride = row + if random.flag() { 0 } else { random.range(1, 5) as usize };
    let is_indexed = format >= PAL8;
    Picture {
        source: Source {
            format,
            width,
            height,
            has_palette: is_indexed,
            has_icc: matches!(mode, Mode::Embedded | Mode::Both),
            has_linked_icc: matches!(mode, Mode::Linked | Mode::Both),
            stride: stride as u64,
        },
        options: options(random, mode),
        plane: cells(random, stride * height as usize),
        palette: if is_indexed { palette(random, DEPTHS[format as usize]) } else { Vec::new() },
        icc: blob(random),
        linked_icc: blob(random),
    }
}

// What must be shown.

/// A sample of 8 bits as n bits. Above 16 its bits are repeated from the top down (document 02, A.4).
fn fit(sample: u8, n: u32) -> u32 {
    let wide = u32::from(sample);
    match n {
        0..=8 => wide >> (8 - n),
        9..=16 => (wide << (n - 8)) + (wide >> (16 - n)),
        _ => (0..n).fold(0, |bits, k| bits << 1 | wide >> (7 - k % 8) & 1),
    }
}

fn shown_cell(picture: &Picture, cell: &[u8]) -> Vec<u32> {
    let format = picture.source.format;
    let word = || u32::from(cell[0]) + 256 * u32::from(cell[1]);
    match format {
        PAL8.. => vec![u32::from(cell[0]) % (1 << DEPTHS[format as usize])],
        RGB565 => vec![word() / 2048, word() / 32 % 64, word() % 32, 0],
        4 => vec![word() / 1024 % 32, word() / 32 % 32, word() % 32, 0],
        _ => {
            let samples = SAMPLES[format as usize].map(|place| place.map_or(255, |at| cell[at]));
            let masks = picture.options.bitfields_masks;
            if picture.options.has_bitfields {
                (0..4).map(|k| fit(samples[k], masks[k].count_ones())).collect()
            } else {
                vec![samples[0].into(), samples[1].into(), samples[2].into(), 0]
            }
        }
    }
}

fn shown_cells(picture: &Picture) -> Vec<u32> {
    let (stride, bytes) = (picture.source.stride as usize, SOURCE_BYTES[picture.source.format as usize]);
    let mut shown = Vec::new();
    for y in 0..picture.source.height as usize {
        for x in 0..picture.source.width as usize {
            let at = y * stride + x * bytes;
            shown.extend(shown_cell(picture, &picture.plane[at..at + bytes]));
        }
    }
    shown
}

fn shown_table(picture: &Picture, depth: u32) -> Vec<u8> {
    if picture.source.format < PAL8 {
        return Vec::new();
    }
    let (full, given) = (1 << depth, picture.palette.len() / 4);
    let count = if picture.options.minimal_palette { given.clamp(1, full) } else { full };
    let sample = |at| picture.palette.get(at).copied().unwrap_or(0);
    (0..count).flat_map(|k| [sample(4 * k + 2), sample(4 * k + 1), sample(4 * k), 0]).collect()
}

fn shown_profile(picture: &Picture) -> Vec<u8> {
    match (picture.source.has_linked_icc, picture.source.has_icc) {
        (true, _) => picture.linked_icc.clone(),
        (false, true) => picture.icc.clone(),
        (false, false) => Vec::new(),
    }
}

/// The writer's file of a random picture.
pub fn written_as(random: &mut Random, format: u32, mode: Mode, width: u32, height: u32) -> Written {
    let picture = picture(random, format, mode, width, height);
    let Picture { source, options, .. } = picture;
    let lent =
        Lent { plane: &picture.plane, palette: &picture.palette, icc: &picture.icc, linked_icc: &picture.linked_icc };
    let bound = port::size_bound(source, options, lent);
    let mut file = vec![0; bound.bytes as usize];
    let answer = port::encode_into(source, options, lent, &mut file, 0);
    assert!(
        bound.refusal == 0 && answer.refusal == 0,
        "the writer refuses: {bound:?} {answer:?} {source:?} {options:?}"
    );
    file.truncate(answer.bytes as usize);
    let depth = if mode == Mode::Masks { options.bitfields_bpp.into() } else { DEPTHS[format as usize] };
    Written {
        file,
        width,
        height,
        depth,
        table: shown_table(&picture, depth),
        cells: shown_cells(&picture),
        profile: shown_profile(&picture),
    }
}

pub fn written(random: &mut Random) -> Written {
    let mode = random.pick(&DRAWN);
    let format = match random.below(14) {
        _ if mode == Mode::Masks => random.below(4) as u32,
        10 | 11 => PAL8,
        12 | 13 => PAL8 + 1,
        format => format as u32,
    };
    let (width, height) = (width(random), random.range(1, 5) as u32);
    written_as(random, format, mode, width, height)
}
