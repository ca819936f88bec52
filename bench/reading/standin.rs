//! The model under the names of the C interface, for trying everything before the library has the three functions.
#![no_std]

#[path = "../bare.rs"]
mod bare;
#[allow(dead_code)]
mod model;

use bare::{lent, lent_mut};
use model::{Reading, Sizes};

/// # Safety
/// Each pointer goes with its length, and no lent slice overlaps another.
#[unsafe(no_mangle)]
pub unsafe extern "C" fn bmp_read(
    file: *const u8,
    file_len: usize,
    head: *mut u8,
    head_len: usize,
    table: *mut u8,
    table_len: usize,
    cells: *mut u32,
    cells_len: usize,
) -> Reading {
    unsafe {
        model::read(
            lent(file, file_len),
            lent_mut(head, head_len),
            lent_mut(table, table_len),
            lent_mut(cells, cells_len),
        )
    }
}

/// # Safety
/// The pointer goes with its length.
#[unsafe(no_mangle)]
pub unsafe extern "C" fn bmp_read_sizes(file: *const u8, file_len: usize) -> Sizes {
    model::read_sizes(unsafe { lent(file, file_len) })
}

/// # Safety
/// Each pointer goes with its length, and the cells do not overlap the file.
#[unsafe(no_mangle)]
pub unsafe extern "C" fn bmp_read_row(
    file: *const u8,
    file_len: usize,
    start: u64,
    cells: *mut u32,
    cells_len: usize,
) -> u32 {
    unsafe { model::read_row(lent(file, file_len), start, lent_mut(cells, cells_len)) }
}
