//! Two functions under the names of the C interface, for trying everything before the library has them: the writing
//! call with starts, over the library's other calls, and the reader of one row, which is the model of bench/reading.
#![no_std]
// The interface is included as the drivers have it.
extern crate core as std;

#[path = "../bare.rs"]
mod bare;
#[path = "../reading/model.rs"]
#[allow(dead_code)]
mod model;
#[allow(dead_code)]
mod port;

use bare::{lent, lent_mut};
use port::{Answer, Lent, Options, Settings, Source};

fn refused(number: u32) -> Answer {
    Answer { bytes: 0, refusal: number, format: 0 }
}

fn dword(file: &[u8], at: usize) -> usize {
    (0..4).rev().fold(0, |number, k| number << 8 | usize::from(file[at + k]))
}

/// The place behind the codes of the row that begins at a place.
fn behind_codes(file: &[u8], depth: usize, width: usize, mut at: usize) -> usize {
    let mut filled = 0;
    while filled < width {
        let (first, second) = (usize::from(file[at]), usize::from(file[at + 1]));
        let data = if first == 0 { (second * depth).div_ceil(8).next_multiple_of(2) } else { 0 };
        filled += if first == 0 { second } else { first };
        at += 2 + data;
    }
    at
}

/// Walks through a file of the writer.
fn fill_starts(file: &[u8], starts: &mut [u64]) {
    let (depth, width) = (usize::from(file[28]), dword(file, 18));
    let is_coded = matches!(file[30], 1 | 2);
    let mut at = dword(file, 10);
    for start in starts {
        *start = at as u64;
        at = if is_coded { behind_codes(file, depth, width, at) + 2 } else { at + (width * depth).div_ceil(32) * 4 };
    }
}

fn encode(
    source: Source,
    options: Options,
    settings: Settings,
    given: Lent<'_>,
    out: &mut [u8],
    offset: usize,
    starts: &mut [u64],
) -> Answer {
    let bound = port::size_bound_with(source, options, settings, given);
    if bound.refusal != 0 {
        return bound;
    }
    if out.len().checked_sub(offset).is_none_or(|room| (room as u64) < bound.bytes) {
        return refused(15);
    }
    let Some(starts) = starts.get_mut(..source.height as usize) else { return refused(24) };
    let answer = port::encode_into_with(source, options, settings, given, out, offset);
    if answer.refusal == 0 {
        fill_starts(&out[offset..][..answer.bytes as usize], starts);
    }
    answer
}

/// # Safety
/// Each pointer goes with its length, and neither `out` nor `starts` overlaps anything else.
#[unsafe(no_mangle)]
pub unsafe extern "C" fn bmp_encode_with_starts(
    source: Source,
    options: Options,
    settings: Settings,
    plane: *const u8,
    plane_len: usize,
    palette: *const u8,
    palette_len: usize,
    icc: *const u8,
    icc_len: usize,
    linked_icc: *const u8,
    linked_icc_len: usize,
    out: *mut u8,
    out_len: usize,
    offset: usize,
    starts: *mut u64,
    starts_len: usize,
) -> Answer {
    unsafe {
        let given = Lent {
            plane: lent(plane, plane_len),
            palette: lent(palette, palette_len),
            icc: lent(icc, icc_len),
            linked_icc: lent(linked_icc, linked_icc_len),
        };
        encode(source, options, settings, given, lent_mut(out, out_len), offset, lent_mut(starts, starts_len))
    }
}

/// # Safety
/// Each pointer goes with its length, and the cells do not overlap the file.
#[unsafe(no_mangle)]
pub unsafe extern "C" fn bmp_read_row(
    file: *const u8,
    file_len: usize,
    start: u64,
    cells: *mut u32,
    cells_len: usize,
) -> u32 {
    unsafe { model::read_row(lent(file, file_len), start, lent_mut(cells, cells_len)) }
}
