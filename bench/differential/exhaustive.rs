//! Parts that try everything in a small range.

use crate::case::{Case, INDEXED4, PAL8, Plane};
use crate::compare::{Report, check_masks, compare, stream};
use crate::generate::{run, source_bytes};
use crate::port::{Options, Settings, Source};
use crate::rule;

/// The default options and settings, a palette of three entries, offset 3 and 5 bytes after the bound.
pub fn simple(format: u32, width: u32, height: u32, plane: Plane) -> Case {
    let stride = u64::from(width) * source_bytes(format);
    Case {
        source: Source { format, width, height, stride, has_palette: true, ..Source::default() },
        options: Options { rle: true, embed_icc: true, rendering_intent: 4, ..Options::default() },
        settings: Settings::default(),
        plane,
        palette: (1..=12).collect(),
        icc: Vec::new(),
        linked_icc: Vec::new(),
        offset: 3,
        slack: 5,
        salt: 0x5A,
    }
}

fn try_rows(format: u32, height: u32, cells: Vec<u8>, report: &mut Report) {
    let width = cells.len() as u32 / height;
    let case = simple(format, width, height, Plane::Bytes(cells));
    compare(&case, &[], report);
}

/// The row alone, before a long run and after one: in the last two the stream is the shorter.
fn short_row(row: &[u8], report: &mut Report) {
    for format in [PAL8, INDEXED4] {
        try_rows(format, 1, row.to_vec(), report);
        try_rows(format, 1, [row, &[2; 60]].concat(), report);
        try_rows(format, 1, [&[2; 60], row].concat(), report);
    }
}

/// All rows of width 1 to 7 over three indices, two of which are equal in the low four bits.
pub fn short_rows(report: &mut Report) {
    for width in 1..=7 {
        for number in 0..3u32.pow(width) {
            let row: Vec<u8> = (0..width).map(|k| [0, 1, 17][(number / 3u32.pow(k) % 3) as usize]).collect();
            short_row(&row, report);
        }
    }
}

/// Rows of one value and rows without equal neighbours, of each width to 1100, over two rows of one value.
pub fn long_rows(report: &mut Report) {
    for width in 1..=1100usize {
        let constant = vec![9; width];
        let rising: Vec<u8> = (0..width).map(|k| (k % 255) as u8 % 15 + (k % 2) as u8 * 16).collect();
        let late: Vec<u8> = (0..width).map(|k| if k + 2 >= width { 3 } else { (k % 7) as u8 }).collect();
        for format in [PAL8, INDEXED4] {
            for top in [&constant, &rising, &late] {
                try_rows(format, 3, [&top[..], &constant, &constant].concat(), report);
            }
        }
    }
}

fn runs(depth: u64) -> impl Iterator<Item = u32> {
    (0..depth).flat_map(move |shift| (1..=depth - shift).map(move |len| run(shift, len)))
}

/// 256 cells, each channel through all samples in its own order.
fn all_samples(format: u32) -> Vec<u8> {
    let steps = [1u8, 3, 5, 7];
    let channels = source_bytes(format) as usize;
    (0..=255u8).flat_map(|k| (0..channels).map(move |c| k.wrapping_mul(steps[c]))).collect()
}

fn mask_case(format: u32, width: u32, plane: Vec<u8>, bpp: u16, masks: [u32; 4]) -> Case {
    let mut case = simple(format, width, 1, Plane::Bytes(plane));
    case.options.has_bitfields = true;
    case.options.bitfields_bpp = bpp;
    case.options.bitfields_masks = masks;
    case
}

/// All samples through every run at both depths, in each channel. Alpha takes one bit of red with it.
pub fn samples(report: &mut Report) {
    for depth in [16u16, 32] {
        for mask in runs(u64::from(depth)) {
            for channel in 0..4 {
                let mut masks = [0; 4];
                masks[channel] = mask;
                if channel == 3 {
                    let free = !mask & run(0, u64::from(depth));
                    masks[0] = free & free.wrapping_neg();
                }
                for format in 0..4 {
                    compare(&mask_case(format, 256, all_samples(format), depth, masks), &[], report);
                }
            }
        }
    }
}

/// All pairs of runs as red and green masks at depth 16: the check, and a file of one cell.
pub fn pairs(report: &mut Report) {
    for red in runs(16) {
        for green in runs(16) {
            let masks = [red, green, 0, 0];
            compare(&mask_case(0, 1, vec![0xC5, 0x3A, 0x77, 0xFF], 16, masks), &[], report);
        }
    }
}

fn try_masks(bpp: u16, masks: [u32; 4], report: &mut Report) {
    let mut notes = Vec::new();
    check_masks(bpp, masks, &mut notes);
    report.counts.add_other("mask checks");
    if !notes.is_empty() {
        report.difference(0, format!("{} for depth {bpp}, masks {masks:#x?}", notes.join("")));
    }
}

/// The check alone: all 2^17 values in one channel at depth 16, all pairs of runs at depth 32, all depths.
pub fn mask_checks(report: &mut Report) {
    for value in 0..1 << 17 {
        try_masks(16, [value, 0, 0, 0], report);
        try_masks(16, [0, 0x10, value, 0], report);
        try_masks(16, [0x8000, 0, 0, value], report);
    }
    for red in runs(32) {
        for green in runs(32) {
            try_masks(32, [red, green, 0, 0], report);
        }
    }
    for bpp in 0..=u16::MAX {
        try_masks(bpp, [1, 2, 4, 8], report);
    }
}

/// A picture of every format in every header, and streams that are shorter than the rows.
fn headers() -> Vec<Case> {
    let mut cases = Vec::new();
    for format in 0..10 {
        let (width, height) = if [PAL8, INDEXED4].contains(&format) { (40, 2) } else { (3, 2) };
        let len = u64::from(width * height) * source_bytes(format);
        let cells = (0..len).map(|k| if k < len / 2 { 5 } else { k as u8 % 9 }).collect();
        let mut plain = simple(format, width, height, Plane::Bytes(cells));
        plain.options.minimal_palette = true;
        // Masks are for the first four formats.
        let mut variants = vec![plain.clone(); if format < 4 { 5 } else { 4 }];
        variants[1].options.rle = false;
        variants[2].options.has_calibrated = true;
        variants[3].source.has_icc = true;
        variants[3].icc = vec![0x11; 7];
        if let Some(masked) = variants.get_mut(4) {
            masked.options.has_bitfields = true;
            masked.options.bitfields_bpp = 16;
            masked.options.bitfields_masks = [0xF800, 0x7E0, 0x1F, 0];
        }
        cases.extend(variants);
    }
    cases
}

/// Each of these at every limit from 0 to three bytes over its bound.
pub fn limits(report: &mut Report) {
    for mut case in headers() {
        let Ok(sizes) = rule::sizes(&case, rule::TRUE_LIMIT) else { unreachable!("small pictures") };
        for limit in 0..=sizes.bound + 3 {
            case.settings.limit = limit;
            compare(&case, &[], report);
        }
    }
}

/// The wall panel of document 02: 512 x 512 cells, in runs or without equal neighbours, at 262,144 bytes and about each
/// of its own sizes.
pub fn panel(report: &mut Report) {
    for format in [PAL8, INDEXED4] {
        for runs in [1u32, 2, 3, 8, 64] {
            let cells = (0..512 * 512u32).map(|k| (7 * (k % 512 / runs) + k / 512 / runs) as u8).collect();
            let mut case = simple(format, 512, 512, Plane::Bytes(cells));
            let Ok(sizes) = rule::sizes(&case, rule::TRUE_LIMIT) else { unreachable!("a small picture") };
            let streamed = sizes.head + stream(&case).unwrap_or(0);
            for about in [262_144, sizes.head, sizes.file, streamed] {
                for limit in about - 2..=about + 2 {
                    for rle in [true, false] {
                        case.settings.limit = limit;
                        case.options.rle = rle;
                        compare(&case, &[], report);
                    }
                }
            }
        }
    }
}

/// All pairs of 0, the powers of 2 and one less, 2835 and 3780 as resolutions, in each header.
pub fn resolutions(report: &mut Report) {
    let powers = (0..31).flat_map(|k| [1 << k, (1 << k) - 1]);
    let numbers: Vec<i32> = powers.chain([2835, 3780, i32::MAX]).collect();
    for mut case in headers() {
        for across in &numbers {
            for down in &numbers {
                case.settings.x_pels_per_meter = *across;
                case.settings.y_pels_per_meter = *down;
                compare(&case, &[], report);
            }
        }
    }
}
