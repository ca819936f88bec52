//! The original encoder on a case, its messages as numbers.

use crate::case::Case;
use crate::rule;
use oxideav_bmp::encoder::{self, BmpBitfields, DifferentialSizes, EncodedBmpFormat, Picture};
use oxideav_bmp::error::BmpError;
use oxideav_bmp::image::{BmpPixelFormat, Palette};
use oxideav_bmp::options::{CalibratedRgb, EncodeOptions};

/// The kind of a message.
#[derive(Clone, Copy, PartialEq, Eq)]
enum Kind {
    InvalidData,
    Unsupported,
}
use Kind::{InvalidData, Unsupported};

/// Each message of the writing path: its number, its kind, how it begins and how it ends. What stands between is a
/// number or a name. Equal beginnings and ends would give two numbers, which `refusal` does not accept.
const MESSAGES: [(u32, Kind, &str, &str); 22] = [
    (1, InvalidData, "BMP encoder: zero dimension", ""),
    (3, InvalidData, "BMP encoder: Pal8 requires a palette", ""),
    (3, InvalidData, "BMP encoder: Indexed4 requires a palette", ""),
    (3, InvalidData, "BMP encoder: Indexed2 requires a palette", ""),
    (3, InvalidData, "BMP encoder: Indexed1 requires a palette", ""),
    (5, Unsupported, "BMP encoder: bitfields, calibrated_rgb and the V5 profile modes are mutually exclusive", ""),
    (6, InvalidData, "BMP bitfields: bpp must be 16 or 32, got ", ""),
    (7, InvalidData, "BMP bitfields: ", " exceeds 16 bits"),
    (8, InvalidData, "BMP bitfields: ", " is not a contiguous bit run"),
    (9, InvalidData, "BMP bitfields: ", " overlaps another channel"),
    (10, InvalidData, "BMP bitfields: at least one of R/G/B must be non-zero", ""),
    (11, Unsupported, "BMP bitfields: source must be Rgba / Rgb24 / Bgra / Bgr24, got ", ""),
    (12, InvalidData, "BMP encoder: frame plane truncated", "truncated"),
    (12, InvalidData, "BMP encoder: frame plane truncated", " (rgb24)"),
    (12, InvalidData, "BMP encoder: frame plane truncated", " (rgb555)"),
    (12, InvalidData, "BMP encoder: frame plane truncated", " (rgb565)"),
    (12, InvalidData, "BMP encoder: frame plane truncated", " (indexed)"),
    (12, InvalidData, "BMP encoder: frame plane truncated", " (bitfields)"),
    (13, InvalidData, "BMP encoder: plane stride ", "-pixel row needs"),
    (14, Unsupported, "BMP encoder: a ", " bytes the BMP size fields can record"),
    (14, Unsupported, "BMP encoder: the ", " size overflows 64 bits"),
    (16, Unsupported, "BMP encoder: a ", ", and its RLE stream does not bring it under"),
];

/// The number of a message. One that is not listed, or that fits two lines, ends the run.
pub fn refusal(error: &BmpError) -> u32 {
    let (kind, text) = match error {
        BmpError::InvalidData(text) => (InvalidData, text),
        BmpError::Unsupported(text) => (Unsupported, text),
        other => panic!("not an answer of the writing path: {other}"),
    };
    let fits: Vec<u32> = MESSAGES
        .iter()
        .filter(|(_, k, begin, end)| *k == kind && text.starts_with(begin) && text.ends_with(end))
        .map(|line| line.0)
        .collect();
    assert!(fits.len() == 1, "{} lines fit the message {text:?}", fits.len());
    fits[0]
}

fn pixel_format(format: u32) -> BmpPixelFormat {
    use BmpPixelFormat::*;
    [Rgba, Rgb24, Bgra, Bgr24, Rgb555, Rgb565, Pal8, Indexed4, Indexed2, Indexed1][format as usize]
}

/// The names in the order of `enum bmp_written_format`.
pub const WRITTEN: [EncodedBmpFormat; 12] = {
    use EncodedBmpFormat::*;
    [
        Rgb32,
        Rgb24,
        Rgb16Rgb,
        Rgb16Bitfields,
        Indexed8,
        Indexed4,
        Indexed2,
        Rle8,
        Rle4,
        Indexed1,
        Bitfields,
        AlphaBitfields,
    ]
};

fn written_number(format: EncodedBmpFormat) -> u32 {
    WRITTEN.iter().position(|f| *f == format).expect("a listed format") as u32
}

pub fn bitfields(bpp: u16, masks: [u32; 4]) -> BmpBitfields {
    BmpBitfields { bpp, r: masks[0], g: masks[1], b: masks[2], a: masks[3] }
}

/// 0, or 6 to 10.
pub fn check_masks(bpp: u16, masks: [u32; 4]) -> u32 {
    bitfields(bpp, masks).validate().err().map_or(0, |e| refusal(&e))
}

fn options_of(case: &Case) -> EncodeOptions {
    let o = &case.options;
    EncodeOptions::new()
        .with_top_down(o.top_down)
        .with_minimal_palette(o.minimal_palette)
        .with_rle(o.rle)
        .with_embed_icc(o.embed_icc)
        .with_rendering_intent(o.rendering_intent)
        .with_bitfields(o.has_bitfields.then(|| bitfields(o.bitfields_bpp, o.bitfields_masks)))
        .with_calibrated_rgb(o.has_calibrated.then(|| CalibratedRgb::new(o.endpoints, o.gamma)))
        .with_linked_icc(case.source.has_linked_icc.then(|| case.linked_icc.clone()))
}

/// Entries of four bytes; bytes left over, which only a direct format's unused palette has, are dropped.
fn palette_of(case: &Case) -> Option<Palette> {
    let entries = || case.palette.as_chunks::<4>().0.to_vec();
    case.source.has_palette.then(|| Palette::new(entries()))
}

pub struct Original<'a> {
    case: &'a Case,
    plane: &'a [u8],
    palette: Option<Palette>,
    options: EncodeOptions,
}

impl<'a> Original<'a> {
    pub fn new(case: &'a Case, zeros: &'a [u8]) -> Self {
        Self { case, plane: case.plane(zeros), palette: palette_of(case), options: options_of(case) }
    }

    fn picture(&self) -> Picture<'_> {
        let source = &self.case.source;
        Picture {
            format: pixel_format(source.format),
            width: source.width,
            height: source.height,
            stride: source.stride as usize,
            plane: self.plane,
            palette: self.palette.as_ref(),
            icc: source.has_icc.then_some(self.case.icc.as_slice()),
        }
    }

    /// The case's limit where it is lower than the original's own.
    fn lower(&self) -> Option<u64> {
        Some(self.case.settings.limit).filter(|limit| *limit != rule::TRUE_LIMIT)
    }

    /// As `encoded_size_bound`, or by `with_limit`.
    pub fn bound(&self) -> Result<u64, u32> {
        match self.lower() {
            None => encoder::differential_bound(&self.picture(), &self.options).map_err(|e| refusal(&e)),
            Some(limit) => self.sizes(limit).map(|sizes| sizes.bound),
        }
    }

    /// The format's number and the file, by `encode_source` or by `with_limit`.
    pub fn encode(&self) -> Result<(u32, Vec<u8>), u32> {
        let mut out = Vec::new();
        match self.lower() {
            None => encoder::differential_encode(&self.picture(), &self.options)
                .map(|(file, format)| (written_number(format), file))
                .map_err(|e| refusal(&e)),
            Some(_) => self.append(&mut out).map(|format| (format, out)),
        }
    }

    pub fn append(&self, out: &mut Vec<u8>) -> Result<u32, u32> {
        let format = match self.lower() {
            None => encoder::differential_append(&self.picture(), &self.options, out),
            Some(limit) => encoder::differential_append_limited(&self.picture(), &self.options, limit, out),
        };
        format.map(written_number).map_err(|e| refusal(&e))
    }

    pub fn stream(&self) -> Option<u64> {
        encoder::differential_stream(&self.picture(), &self.options).ok().flatten()
    }

    /// The counts of a plan at the limit.
    pub fn sizes(&self, limit: u64) -> Result<DifferentialSizes, u32> {
        encoder::differential_sizes(&self.picture(), &self.options, limit).map_err(|e| refusal(&e))
    }
}
