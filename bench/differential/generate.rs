//! The generator: ordinary cases, copies of them with one fault, and large ones on sparse memory.

use crate::case::{Case, DEPTHS, INDEXED4, Mode, PAL8, Plane, SOURCE_BYTES};
use crate::port::{Options, Settings, Source};
use crate::random::Random;
use crate::rule;

const WIDTHS: [u32; 17] = [1, 2, 3, 7, 8, 9, 31, 32, 33, 254, 255, 256, 257, 509, 510, 511, 5];
/// How often a mode is drawn.
const MODE_WEIGHTS: [Mode; 16] = [
    Mode::None,
    Mode::None,
    Mode::None,
    Mode::None,
    Mode::None,
    Mode::Masks,
    Mode::Masks,
    Mode::Masks,
    Mode::Masks,
    Mode::Calibrated,
    Mode::Embedded,
    Mode::EmbeddedOff,
    Mode::Linked,
    Mode::Both,
    Mode::BothOff,
    Mode::Several,
];

// Masks.

pub fn run(shift: u64, len: u64) -> u32 {
    (((1u64 << len) - 1) << shift) as u32
}

fn shuffled(random: &mut Random) -> [usize; 4] {
    let mut order = [0, 1, 2, 3];
    for k in (1..4).rev() {
        order.swap(k, random.below(k as u64 + 1) as usize);
    }
    order
}

fn run_length(random: &mut Random, most: u64) -> u64 {
    match random.below(4) {
        0 => random.range(1, most),
        1 => most,
        _ => random.range(1, most.min(10)),
    }
}

/// Disjoint runs from the low bits up, each channel possibly absent.
fn disjoint_runs(random: &mut Random, depth: u64) -> [u32; 4] {
    let mut masks = [0; 4];
    let mut at = 0;
    for channel in shuffled(random) {
        if at == depth || random.one_in(5) {
            continue;
        }
        at += if random.one_in(3) { random.below(depth - at) } else { 0 };
        let len = run_length(random, depth - at);
        masks[channel] = run(at, len);
        at += len;
    }
    masks
}

fn valid_masks(random: &mut Random, depth: u64) -> [u32; 4] {
    loop {
        let masks = disjoint_runs(random, depth);
        if masks[..3] != [0; 3] {
            return masks;
        }
    }
}

/// One way to break the masks; other faults may come with it.
fn break_masks(random: &mut Random, options: &mut Options) {
    let channel = random.below(4) as usize;
    let masks = &mut options.bitfields_masks;
    match random.below(6) {
        0 => options.bitfields_bpp = random.pick(&[0, 1, 8, 15, 17, 24, 31, 33, 48, 64, 65535]),
        1 => {
            options.bitfields_bpp = 16;
            masks[channel] |= 1 << random.range(16, 31);
        }
        2 => masks[channel] = 0b101 << random.below(14),
        3 => {
            let other = (channel + 1) % 4;
            masks[channel] = run(random.below(8), random.range(1, 8));
            masks[other] = masks[channel];
        }
        4 => masks[..3].fill(0),
        _ => masks[channel] = random.next() as u32,
    }
}

fn set_masks(random: &mut Random, options: &mut Options) {
    options.has_bitfields = true;
    options.bitfields_bpp = random.pick(&[16, 32]);
    options.bitfields_masks = valid_masks(random, u64::from(options.bitfields_bpp));
    if random.one_in(4) {
        break_masks(random, options);
    }
}

// Options and modes.

/// Options without a mode; the fields that don't count hold stray values.
fn stray_options(random: &mut Random) -> Options {
    let mut options = Options {
        top_down: random.one_in(4),
        minimal_palette: random.flag(),
        rle: !random.one_in(4),
        embed_icc: random.flag(),
        bitfields_bpp: random.next() as u16,
        rendering_intent: random.next() as u32,
        ..Options::default()
    };
    options.bitfields_masks.fill_with(|| random.next() as u32);
    options.endpoints.fill_with(|| random.next() as i32);
    options.gamma.fill_with(|| random.next() as u32);
    options
}

fn set_profile(random: &mut Random, source: &mut Source, options: &mut Options) {
    let (icc, linked, on) =
        random.pick(&[(true, false, true), (false, true, true), (true, true, true), (true, true, false)]);
    source.has_icc = icc;
    source.has_linked_icc = linked;
    options.embed_icc = on;
}

fn set_several(random: &mut Random, source: &mut Source, options: &mut Options) {
    let left_out = random.below(4);
    if left_out != 0 {
        set_masks(random, options);
    }
    options.has_calibrated = left_out != 1;
    if left_out != 2 {
        set_profile(random, source, options);
    }
}

/// A profile that is given but does not count.
fn unused_profile(random: &mut Random, source: &mut Source, options: &mut Options) {
    if random.one_in(3) {
        source.has_icc = true;
        options.embed_icc = false;
    }
}

fn set_mode(random: &mut Random, mode: Mode, source: &mut Source, options: &mut Options) {
    let (icc, linked) = match mode {
        Mode::Embedded | Mode::EmbeddedOff => (true, false),
        Mode::Linked => (false, true),
        Mode::Both | Mode::BothOff => (true, true),
        _ => (false, false),
    };
    source.has_icc = icc;
    source.has_linked_icc = linked;
    match mode {
        Mode::Embedded | Mode::Both => options.embed_icc = true,
        Mode::EmbeddedOff | Mode::BothOff => options.embed_icc = false,
        Mode::Masks => {
            set_masks(random, options);
            unused_profile(random, source, options);
        }
        Mode::Calibrated => {
            options.has_calibrated = true;
            unused_profile(random, source, options);
        }
        Mode::Several => set_several(random, source, options),
        Mode::None | Mode::Linked => {}
    }
}

// Slices.

/// Bytes of a palette, in whole entries for an indexed format.
fn palette(random: &mut Random, format: u32) -> Vec<u8> {
    if format < PAL8 {
        let len = random.below(40) as usize;
        return random.bytes(len);
    }
    let full = 1 << DEPTHS[format as usize];
    let entries = match random.below(5) {
        0 => 0,
        1 => random.range(1, full),
        2 => full - 1,
        3 => full,
        _ => full + random.range(1, 40),
    };
    random.bytes(4 * entries as usize)
}

fn blob(random: &mut Random) -> Vec<u8> {
    let len = if random.one_in(4) { 0 } else { random.range(1, 70) };
    random.bytes(len as usize)
}

/// A few values, some of them equal in the low four bits only.
fn values(random: &mut Random) -> Vec<u8> {
    let first = random.byte();
    let count = random.range(2, 4);
    let near = random.flag();
    (0..count).map(|k| if near { first ^ (k as u8) << 4 } else { random.byte() }).collect()
}

fn push_runs(random: &mut Random, bytes: &mut Vec<u8>, len: usize) {
    let choices = values(random);
    let longest = random.pick(&[3, 9, 300, 700]);
    while bytes.len() < len {
        let value = random.pick(&choices);
        let count = random.range(1, longest) as usize;
        let left = len - bytes.len();
        bytes.extend(std::iter::repeat_n(value, count.min(left)));
    }
}

/// Constant, runs, few values, all values.
fn push_cells(random: &mut Random, bytes: &mut Vec<u8>, len: usize) {
    match random.below(4) {
        0 => bytes.resize(len, random.byte()),
        1 => push_runs(random, bytes, len),
        2 => {
            let choices = values(random);
            while bytes.len() < len {
                bytes.push(random.pick(&choices));
            }
        }
        _ => {
            while bytes.len() < len {
                bytes.push(random.byte());
            }
        }
    }
}

/// Cells of one kind, or of several kinds one after another.
fn cells(random: &mut Random, len: usize) -> Vec<u8> {
    let mut bytes = Vec::with_capacity(len);
    if random.one_in(4) {
        while bytes.len() < len {
            let to = bytes.len() + random.range(1, 400) as usize;
            push_cells(random, &mut bytes, to.min(len));
        }
    }
    push_cells(random, &mut bytes, len);
    bytes
}

// Settings.

fn resolution(random: &mut Random) -> i32 {
    let any = (random.next() as u32 >> 1) as i32;
    random.pick(&[0, 1, 2835, 3780, i32::MAX, any, any])
}

/// A limit about one of the case's own sizes, a round one, or any.
fn limit(random: &mut Random, case: &Case, stream: Option<u64>) -> u64 {
    let head = rule::head(case);
    let raw = rule::stored_row(case).saturating_mul(u64::from(case.source.height));
    let plain = head.saturating_add(raw);
    let file = plain.saturating_add(rule::tail(case));
    let budget = raw.min(rule::TRUE_LIMIT + 1 - head);
    let about = match random.below(10) {
        0 => head,
        1 => plain,
        2 => file,
        3 | 4 => head + stream.unwrap_or(budget),
        5 => head + budget,
        6 => return random.pick(&[0, 1, 262_144, rule::TRUE_LIMIT]),
        7 | 8 => return random.below(file.min(rule::TRUE_LIMIT) + 1),
        _ => return random.below(rule::TRUE_LIMIT + 1),
    };
    about.saturating_add(2).saturating_sub(random.below(5)).min(rule::TRUE_LIMIT)
}

/// Settings that are not refused; one time in four the defaults.
pub fn settings(random: &mut Random, case: &Case, stream: Option<u64>) -> Settings {
    if random.one_in(4) {
        return Settings::default();
    }
    Settings {
        limit: limit(random, case, stream),
        x_pels_per_meter: resolution(random),
        y_pels_per_meter: resolution(random),
    }
}

fn negative(random: &mut Random) -> i32 {
    let any = random.next() as i32 | i32::MIN;
    random.pick(&[-1, -2835, i32::MIN, any, any])
}

/// The settings with a limit that is too large, a negative resolution, or both.
pub fn refused_settings(random: &mut Random, settings: Settings) -> Settings {
    let mut refused = settings;
    let which = random.range(1, 7);
    if which & 1 != 0 {
        let over = rule::TRUE_LIMIT + 1;
        let (near, far) = (over + random.below(1000), random.range(over, u64::MAX - 1));
        refused.limit = random.pick(&[over, near, far, u64::MAX]);
    }
    if which & 2 != 0 {
        refused.x_pels_per_meter = negative(random);
    }
    if which & 4 != 0 {
        refused.y_pels_per_meter = negative(random);
    }
    refused
}

/// Now and then what is refused before the settings: an unknown format, width or height 0 or too large.
pub fn fault_before_settings(random: &mut Random, source: &mut Source) {
    let over = (1 << 31) + random.below(1 << 31) as u32;
    match random.below(16) {
        0 => source.format = 10 + random.below(1000) as u32,
        1 => source.width = 0,
        2 => source.height = over,
        3 => source.width = over,
        _ => {}
    }
}

// Cases.

fn format(random: &mut Random) -> u32 {
    match random.below(14) {
        10 | 11 => PAL8,
        12 | 13 => INDEXED4,
        other => other as u32,
    }
}

/// Everything but the picture.
fn frame(random: &mut Random) -> Case {
    let format = format(random);
    let mut source = Source { format, ..Source::default() };
    let mut options = stray_options(random);
    let mode = random.pick(&MODE_WEIGHTS);
    set_mode(random, mode, &mut source, &mut options);
    source.has_palette = if format >= PAL8 { !random.one_in(30) } else { random.flag() };
    Case {
        source,
        options,
        settings: Settings::default(),
        plane: Plane::Zeros(0),
        palette: palette(random, format),
        icc: blob(random),
        linked_icc: blob(random),
        offset: if random.flag() { 0 } else { random.range(1, 64) as usize },
        slack: if random.flag() { 0 } else { random.range(1, 64) as usize },
        salt: random.byte(),
    }
}

fn padding(random: &mut Random) -> u64 {
    if random.flag() { 0 } else { random.range(1, 13) }
}

/// An ordinary case, with the default settings.
pub fn ordinary(random: &mut Random) -> Case {
    let mut case = frame(random);
    case.source.width = random.pick(&WIDTHS);
    case.source.height = random.range(1, 5) as u32;
    case.source.stride = case.row_bytes() + padding(random);
    let need = case.source.stride * u64::from(case.source.height);
    let more = if random.flag() { 0 } else { random.range(1, 20) };
    case.plane = Plane::Bytes(cells(random, (need + more) as usize));
    if random.one_in(12) { faulted(random, &case) } else { case }
}

fn shorten_plane(case: &mut Case) {
    let need = case.source.stride * u64::from(case.source.height);
    let short = need.saturating_sub(1) as usize;
    match &mut case.plane {
        Plane::Bytes(bytes) => bytes.truncate(short),
        Plane::Zeros(len) => *len = short.min(*len),
    }
}

/// A copy with one fault.
pub fn faulted(random: &mut Random, case: &Case) -> Case {
    let mut copy = case.clone();
    let source = &mut copy.source;
    match random.below(13) {
        0 => source.width = 0,
        1 => source.height = 0,
        2 => source.has_palette = false,
        3 | 4 => shorten_plane(&mut copy),
        5 => source.stride = case.row_bytes().saturating_sub(1),
        6 => source.stride = random.below(case.row_bytes().max(1)),
        7 => source.stride = u64::MAX / 2147483647 - random.below(1000),
        8 => source.width = i32::MAX as u32 - random.below(3) as u32,
        9 => source.height = i32::MAX as u32 - random.below(3) as u32,
        10 => source.height = (source.height + 1).min(i32::MAX as u32),
        11 if copy.options.has_bitfields => break_masks(random, &mut copy.options),
        12 => set_several(random, source, &mut copy.options),
        _ => {
            source.stride = case.row_bytes().saturating_sub(1);
            shorten_plane(&mut copy);
        }
    }
    copy
}

/// A height for a file near the limit, or anywhere.
fn large_height(random: &mut Random, case: &Case) -> u64 {
    let near = (rule::TRUE_LIMIT - rule::head(case) - rule::tail(case)) / rule::stored_row(case).max(1);
    match random.below(4) {
        0 => random.range(near / 2, 2 * near),
        1 => i32::MAX as u64,
        _ => (near + 3).saturating_sub(random.below(6)),
    }
}

/// A picture whose file is about as long as the limit, of zeros. `most` is the sparse memory's length.
pub fn large(random: &mut Random, most: u64) -> Case {
    let mut case = frame(random);
    case.source.width = random.pick(&[1, 1, 1, 2, 3, 4, 5, 8, 9, 17, 33, 255, 510, 65280, 1 << 20, i32::MAX as u32]);
    if random.one_in(3) {
        let len = random.below(5000) as usize;
        case.linked_icc = vec![random.byte(); len];
    }
    case.source.stride = case.row_bytes() + if random.one_in(4) { random.below(3) } else { 0 };
    let fits = most / case.source.stride;
    let height = large_height(random, &case).clamp(1, fits.min(i32::MAX as u64).max(1));
    case.source.height = height as u32;
    case.plane = Plane::Zeros((height * case.source.stride).min(most) as usize);
    if random.flag() {
        case.settings = settings(random, &case, None);
    }
    if random.one_in(8) { faulted(random, &case) } else { case }
}

/// The source bytes of a cell, for the parts that build cases by hand.
pub fn source_bytes(format: u32) -> u64 {
    SOURCE_BYTES[format as usize]
}
