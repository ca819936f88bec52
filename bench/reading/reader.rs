//! The reader, through its C interface.

use crate::model::{Reading, Sizes};

unsafe extern "C" {
    fn bmp_read(
        file: *const u8,
        file_len: usize,
        head: *mut u8,
        head_len: usize,
        table: *mut u8,
        table_len: usize,
        cells: *mut u32,
        cells_len: usize,
    ) -> Reading;
    fn bmp_read_sizes(file: *const u8, file_len: usize) -> Sizes;
}

/// NULL for an empty slice: the interface allows it.
pub fn start<T>(slice: &[T]) -> *const T {
    if slice.is_empty() { std::ptr::null() } else { slice.as_ptr() }
}

pub fn start_mut<T>(slice: &mut [T]) -> *mut T {
    if slice.is_empty() { std::ptr::null_mut() } else { slice.as_mut_ptr() }
}

pub fn read(file: &[u8], head: &mut [u8], table: &mut [u8], cells: &mut [u32]) -> Reading {
    unsafe {
        bmp_read(
            start(file),
            file.len(),
            start_mut(head),
            head.len(),
            start_mut(table),
            table.len(),
            start_mut(cells),
            cells.len(),
        )
    }
}

pub fn read_sizes(file: &[u8]) -> Sizes {
    unsafe { bmp_read_sizes(start(file), file.len()) }
}
