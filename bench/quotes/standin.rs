//! The model under the name of the C interface, for trying everything before the library has the function.
#![no_std]

#[path = "../bare.rs"]
mod bare;
mod shades;

use bare::{lent, lent_mut};

/// # Safety
/// Each pointer goes with its length, and the plane overlaps no list.
#[unsafe(no_mangle)]
pub unsafe extern "C" fn bmp_shade_quotes(
    edges: *const u64,
    edges_len: usize,
    lows: *const u64,
    lows_len: usize,
    highs: *const u64,
    highs_len: usize,
    plane: *mut u8,
    plane_len: usize,
) -> u32 {
    unsafe {
        shades::shade_quotes(
            lent(edges, edges_len),
            lent(lows, lows_len),
            lent(highs, highs_len),
            lent_mut(plane, plane_len),
        )
    }
}
