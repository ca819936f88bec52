//! The call, through its C interface (clients/c/bmp_writer.h).

use crate::reader::{start, start_mut};

unsafe extern "C" {
    fn bmp_shade_quotes(
        edges: *const f64,
        edges_len: usize,
        lows: *const f64,
        lows_len: usize,
        highs: *const f64,
        highs_len: usize,
        plane: *mut u8,
        plane_len: usize,
    ) -> u32;
}

/// An empty list is NULL.
pub fn shade_quotes(edges: &[f64], lows: &[f64], highs: &[f64], plane: &mut [u8]) -> u32 {
    unsafe {
        bmp_shade_quotes(
            start(edges),
            edges.len(),
            start(lows),
            lows.len(),
            start(highs),
            highs.len(),
            start_mut(plane),
            plane.len(),
        )
    }
}
