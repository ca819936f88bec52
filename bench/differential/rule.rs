//! The paper's rules for sizes, with the limit as an argument, held against both sides; and its numbers that the
//! original does not have.

use crate::case::{Case, DEPTHS, INDEXED4, Mode, PAL8};
use crate::port::{Settings, Source};
use oxideav_bmp::encoder::DifferentialSizes;

pub const TRUE_LIMIT: u64 = 4_294_967_295;

/// 2.
pub fn dimension_refused(source: &Source) -> bool {
    source.width > i32::MAX as u32 || source.height > i32::MAX as u32
}

/// 20.
pub fn limit_refused(settings: &Settings) -> bool {
    settings.limit > TRUE_LIMIT
}

/// 21.
pub fn resolution_refused(settings: &Settings) -> bool {
    settings.x_pels_per_meter < 0 || settings.y_pels_per_meter < 0
}

/// The first that applies of all that stand before 3.
pub fn before_palette(source: &Source, settings: &Settings) -> Option<u32> {
    let rows = [
        (255, source.format as usize >= DEPTHS.len()),
        (1, source.width == 0 || source.height == 0),
        (2, dimension_refused(source)),
        (20, limit_refused(settings)),
        (21, resolution_refused(settings)),
    ];
    rows.into_iter().find(|(_, applies)| *applies).map(|(number, _)| number)
}

fn depth(case: &Case) -> u64 {
    if case.mode() == Mode::Masks { u64::from(case.options.bitfields_bpp) } else { DEPTHS[case.format()] }
}

/// Bytes of the colour table.
fn table(case: &Case) -> u64 {
    if !case.is_indexed() {
        return 0;
    }
    let full = 1 << DEPTHS[case.format()];
    let count = if case.options.minimal_palette { (case.palette.len() as u64 / 4).clamp(1, full) } else { full };
    4 * count
}

pub fn head(case: &Case) -> u64 {
    14 + match case.mode() {
        Mode::Masks if case.options.bitfields_masks[3] != 0 => 56,
        Mode::Masks => 52,
        Mode::Calibrated => 108 + table(case),
        Mode::None | Mode::EmbeddedOff if case.source.format == 5 => 108,
        Mode::None | Mode::EmbeddedOff => 40 + table(case),
        _ => 124 + table(case),
    }
}

pub fn stored_row(case: &Case) -> u64 {
    (u64::from(case.source.width) * depth(case)).div_ceil(32) * 4
}

pub fn tail(case: &Case) -> u64 {
    match case.mode() {
        Mode::Linked | Mode::Both | Mode::BothOff => case.linked_icc.len() as u64,
        Mode::Embedded => case.icc.len() as u64,
        _ => 0,
    }
}

pub fn rle_planned(case: &Case) -> bool {
    let o = &case.options;
    case.mode().is_plain() && [PAL8, INDEXED4].contains(&case.source.format) && o.rle && !o.top_down
}

/// The sizes of a case that passes 1 to 13, or 14.
pub fn sizes(case: &Case, limit: u64) -> Result<DifferentialSizes, u32> {
    let head = head(case);
    let raw = stored_row(case) * u64::from(case.source.height);
    let file = head + raw + tail(case);
    if !rle_planned(case) {
        let sizes = DifferentialSizes { head, raw, file, budget: None, bound: file };
        return if file > limit { Err(14) } else { Ok(sizes) };
    }
    let budget = raw.min((limit + 1).saturating_sub(head));
    let fallback = if file <= limit { raw } else { 0 };
    let bound = head + (budget + 2 * u64::from(case.source.width) + 2).max(fallback);
    Ok(DifferentialSizes { head, raw, file, budget: Some(budget), bound })
}

/// Whether the stream is used and how long the file is, or 16.
pub fn outcome(sizes: &DifferentialSizes, stream: Option<u64>, limit: u64) -> Result<(bool, u64), u32> {
    match (sizes.budget, stream) {
        (Some(budget), Some(stream)) if stream < budget => Ok((true, sizes.head + stream)),
        _ if sizes.file <= limit => Ok((false, sizes.file)),
        _ => Err(16),
    }
}
