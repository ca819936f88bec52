//! The agreed differences: what the original's file becomes before the port's is compared with it.

use crate::port::Settings;
use oxideav_bmp::encoder::EncodedBmpFormat::{self, AlphaBitfields, Bitfields, Rle4, Rle8};

/// Which of the differences a file has.
#[derive(Clone, Copy, Default)]
pub struct Agreed {
    pub image_size: bool,
    pub wide_channel: bool,
    pub resolutions: bool,
}

fn dword(file: &[u8], at: usize) -> usize {
    u32::from_le_bytes(file[at..at + 4].try_into().expect("four bytes")) as usize
}

/// RLE files and mask files carry their pixels' bytes in the image size (document 02, A.2), where the original has 0. The
/// number is the file's own: its length less its pixel offset.
fn fill_image_size(file: &mut [u8]) {
    assert_eq!(dword(file, 34), 0, "the original's image size");
    let pixels = file.len() - dword(file, 10);
    file[34..38].copy_from_slice(&u32::try_from(pixels).expect("32 bits").to_le_bytes());
}

fn is_wide(mask: u32) -> bool {
    mask.count_ones() > 16
}

/// The eight bits of a sample, repeated from the top down until n bits are full (document 02, A.4).
fn repeated(sample: u32, n: u32) -> u32 {
    (0..n).fold(0, |field, k| field << 1 | sample >> (7 - k % 8) & 1)
}

/// A pixel with the channel of a wide mask fitted anew. The original has the sample at the top of the field, zeros, and
/// the sample again at the bottom.
fn refit(word: u32, mask: u32) -> u32 {
    let (shift, n) = (mask.trailing_zeros(), mask.count_ones());
    let field = (word & mask) >> shift;
    let sample = field >> (n - 8);
    assert_eq!(field, sample << (n - 8) | sample, "the original's field");
    word & !mask | repeated(sample, n) << shift
}

/// Fits the wide channels of all pixels anew. Only 32 bits a pixel have room for one, so that rows have no padding; and
/// nothing stands behind the pixels of a mask file.
fn refit_wide_channels(file: &mut [u8], masks: [u32; 4]) {
    let pixels = dword(file, 10);
    let (words, rest) = file[pixels..].as_chunks_mut::<4>();
    assert!(rest.is_empty(), "the original's pixels");
    for bytes in words {
        let word = u32::from_le_bytes(*bytes);
        let refitted = masks.into_iter().filter(|mask| is_wide(*mask)).fold(word, refit);
        *bytes = refitted.to_le_bytes();
    }
}

/// The two resolutions are the call's (document 02, A.5), where the original has 2835 in every file.
fn set_resolutions(file: &mut [u8], settings: Settings) {
    let usual = Settings::default();
    for (at, was, is) in [
        (38, usual.x_pels_per_meter, settings.x_pels_per_meter),
        (42, usual.y_pels_per_meter, settings.y_pels_per_meter),
    ] {
        assert_eq!(file[at..at + 4], was.to_le_bytes(), "the original's resolution");
        file[at..at + 4].copy_from_slice(&is.to_le_bytes());
    }
}

/// Makes the agreed differences in the original's file. The masks are the call's; they count in mask files only.
pub fn agreed(format: EncodedBmpFormat, masks: [u32; 4], settings: Settings, file: &mut [u8]) -> Agreed {
    let is_mask_file = [Bitfields, AlphaBitfields].contains(&format);
    let found = Agreed {
        image_size: is_mask_file || [Rle8, Rle4].contains(&format),
        wide_channel: is_mask_file && masks.into_iter().any(is_wide),
        resolutions: Settings { limit: settings.limit, ..Settings::default() } != settings,
    };
    if found.resolutions {
        set_resolutions(file, settings);
    }
    if found.image_size {
        fill_image_size(file);
    }
    if found.wide_channel {
        refit_wide_channels(file, masks);
    }
    found
}
