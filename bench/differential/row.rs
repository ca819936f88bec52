//! One row: what was handed in, by document 01's words, and a reader of one row of a file, by those of its newer reader
//! (document 01, Cells; document 02, A.7). Neither looks at the library or at the other.

use crate::case::{Case, DEPTHS, PAL8, SOURCE_BYTES};

const RGB555: u32 = 4;
const RGB565: u32 = 5;

// What was handed in.

/// The bytes of red, green, blue and alpha in a cell of the first four formats; a missing alpha sample is 255.
fn samples(format: u32, cell: &[u8]) -> [u8; 4] {
    let (red, blue) = if matches!(format, 0 | 1) { (cell[0], cell[2]) } else { (cell[2], cell[0]) };
    [red, cell[1], blue, cell.get(3).copied().unwrap_or(255)]
}

/// A sample of 8 bits in n bits; for more than 16 its bits are repeated from the top down (document 02, A.4).
fn fitted(sample: u8, n: u32) -> u32 {
    let wide = u32::from(sample);
    match n {
        0..=8 => wide >> (8 - n),
        9..=16 => (wide << (n - 8)) + (wide >> (16 - n)),
        _ => (0..n).fold(0, |bits, k| 2 * bits + (wide >> (7 - k % 8) & 1)),
    }
}

/// What a cell must be shown as: an index, or red, green, blue and alpha.
fn push_shown(case: &Case, cell: &[u8], shown: &mut Vec<u32>) {
    let format = case.source.format;
    let word = || u32::from(cell[0]) + 256 * u32::from(cell[1]);
    match format {
        PAL8.. => shown.push(u32::from(cell[0]) % (1 << DEPTHS[format as usize])),
        RGB555 => shown.extend([word() >> 10 & 31, word() >> 5 & 31, word() & 31, 0]),
        RGB565 => shown.extend([word() >> 11, word() >> 5 & 63, word() & 31, 0]),
        _ if case.options.has_bitfields => {
            let masks = case.options.bitfields_masks;
            shown.extend(samples(format, cell).into_iter().zip(masks).map(|(s, mask)| fitted(s, mask.count_ones())));
        }
        _ => {
            let [red, green, blue, _] = samples(format, cell).map(u32::from);
            shown.extend([red, green, blue, 0]);
        }
    }
}

/// Row y of the plane, from the top, as it must be shown.
pub fn handed_in(case: &Case, plane: &[u8], y: u32) -> Vec<u32> {
    let (source, size) = (&case.source, SOURCE_BYTES[case.format()] as usize);
    let row = &plane[y as usize * source.stride as usize..][..source.width as usize * size];
    let mut shown = Vec::with_capacity(4 * source.width as usize);
    row.chunks_exact(size).for_each(|cell| push_shown(case, cell, &mut shown));
    shown
}

// The reader.

fn word(file: &[u8], at: usize) -> u32 {
    u32::from(file[at]) + 256 * u32::from(file[at + 1])
}

fn dword(file: &[u8], at: usize) -> u32 {
    word(file, at) + 65536 * word(file, at + 2)
}

/// Where a row's bytes end.
#[derive(Clone, Copy)]
pub struct Ends {
    /// Behind the last byte that its reader needs.
    pub needed: usize,
    /// Behind the last byte that the writer writes for its cells, with a block's padding.
    pub written: usize,
}

/// Goes through codes, from column 0 on, until a row is full. None where they do not fill it.
fn through_codes(file: &[u8], start: usize, mut cell: impl FnMut(u8)) -> Option<Ends> {
    let (width, depth) = (dword(file, 18) as usize, word(file, 28) as usize);
    let mut push = |byte: u8, k: usize| cell(if depth == 8 { byte } else { byte >> (4 - k % 2 * 4) & 15 });
    let (mut filled, mut at, mut needed) = (0, start, start);
    while filled < width {
        let (count, value) = (*file.get(at)?, *file.get(at + 1)?);
        at += 2;
        needed = at;
        if count > 0 {
            (0..usize::from(count)).for_each(|k| push(value, k));
            filled += usize::from(count);
        } else if value >= 3 {
            // That many packed indices, and padding to an even count of bytes.
            let bytes = (usize::from(value) * depth).div_ceil(8);
            let data = file.get(at..at + bytes)?;
            (0..usize::from(value)).for_each(|k| push(data[k * depth / 8], k));
            filled += usize::from(value);
            needed = at + bytes;
            at += bytes + bytes % 2;
        } else {
            return None;
        }
    }
    (filled == width).then_some(Ends { needed, written: at })
}

/// The bits under a mask, moved down to bit 0.
fn under(cell: u32, mask: u32) -> u32 {
    if mask == 0 { 0 } else { (cell & mask) >> mask.trailing_zeros() }
}

/// The cells of a plain row, of which cell x starts x × depth bits into it.
fn plain(file: &[u8], row: &[u8], width: usize) -> Vec<u32> {
    let (depth, compression) = (word(file, 28) as usize, dword(file, 30));
    let of_cells = |colour: &dyn Fn(&[u8]) -> [u32; 4]| -> Vec<u32> {
        row.chunks_exact(depth / 8).take(width).flat_map(colour).collect()
    };
    let masks =
        || [dword(file, 54), dword(file, 58), dword(file, 62), if compression == 6 { dword(file, 66) } else { 0 }];
    match (depth, compression) {
        (8, _) => row[..width].iter().map(|index| u32::from(*index)).collect(),
        (1 | 2 | 4, _) => {
            let index = |x: usize| u32::from(row[x * depth / 8]) >> (8 - depth - x * depth % 8) & ((1 << depth) - 1);
            (0..width).map(index).collect()
        }
        (16, 0) => of_cells(&|cell| [word(cell, 0) >> 10 & 31, word(cell, 0) >> 5 & 31, word(cell, 0) & 31, 0]),
        (_, 0) => of_cells(&|cell| [cell[2].into(), cell[1].into(), cell[0].into(), 0]),
        (16, _) => {
            let masks = masks();
            of_cells(&|cell| masks.map(|mask| under(word(cell, 0), mask)))
        }
        _ => {
            let masks = masks();
            of_cells(&|cell| masks.map(|mask| under(dword(cell, 0), mask)))
        }
    }
}

pub fn is_coded(file: &[u8]) -> bool {
    matches!(dword(file, 30), 1 | 2)
}

/// The row that begins at a place of a file with a head: its cells, and where it ends.
pub fn read(file: &[u8], start: u64) -> Option<(Vec<u32>, Ends)> {
    let start = usize::try_from(start).ok()?;
    let width = dword(file, 18) as usize;
    if is_coded(file) {
        let mut cells = Vec::with_capacity(width);
        let ends = through_codes(file, start, |index| cells.push(index.into()))?;
        return Some((cells, ends));
    }
    let end = start.checked_add((width * word(file, 28) as usize).div_ceil(32) * 4)?;
    let row = file.get(start..end)?;
    Some((plain(file, row, width), Ends { needed: end, written: end }))
}

/// Tells where each stored row of a whole file begins, by walking through it from the pixel offset on. None where it
/// cannot be walked through to its end.
pub fn each_start(file: &[u8], mut tell: impl FnMut(u32, u64)) -> Option<()> {
    let (offset, rows) = (dword(file, 10), (dword(file, 22) as i32).unsigned_abs());
    if !is_coded(file) {
        let bytes = (u64::from(dword(file, 18)) * u64::from(word(file, 28))).div_ceil(32) * 4;
        (0..rows).for_each(|k| tell(k, u64::from(offset) + bytes * u64::from(k)));
        return Some(());
    }
    let mut at = offset as usize;
    for k in 0..rows {
        tell(k, at as u64);
        at = through_codes(file, at, |_| {})?.written;
        // "Rows end 00 00, the last 00 01."
        let end = [0, u8::from(k + 1 == rows)];
        at = file.get(at..)?.starts_with(&end).then_some(at + 2)?;
    }
    (at == file.len()).then_some(())
}
