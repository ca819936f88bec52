// Writes the sample of the original encoder's answers to standard output (README.md has the format) and
// what it holds to standard error. main is at the end.
mod encoder;
mod error;
mod image;
mod options;
mod types;
use encoder::*;
use image::*;
use options::*;
use std::collections::{BTreeMap, BTreeSet};
use std::io::Write;

const SEED: u64 = 0x4d59_2340_51;

// The largest limit, and the resolution that the original writes.
const MOST: u64 = 0xFFFF_FFFF;
const PELS: i32 = 2835;

const FORMATS: [BmpPixelFormat; 10] = [
    BmpPixelFormat::Rgba,
    BmpPixelFormat::Rgb24,
    BmpPixelFormat::Bgra,
    BmpPixelFormat::Bgr24,
    BmpPixelFormat::Rgb555,
    BmpPixelFormat::Rgb565,
    BmpPixelFormat::Pal8,
    BmpPixelFormat::Indexed4,
    BmpPixelFormat::Indexed2,
    BmpPixelFormat::Indexed1,
];

const WRITTEN: [&str; 12] = [
    "Rgb32",
    "Rgb24",
    "Rgb16Rgb",
    "Rgb16Bitfields",
    "Indexed8",
    "Indexed4",
    "Indexed2",
    "Rle8",
    "Rle4",
    "Indexed1",
    "Bitfields",
    "AlphaBitfields",
];

// Mask sets of 16 bits without and with alpha, and of 32 bits without and with alpha.
const MASKS: [&[[u32; 4]]; 4] = [
    &[
        [0xF800, 0x07E0, 0x001F, 0],
        [0x7C00, 0x03E0, 0x001F, 0],
        [0x000F, 0x00F0, 0x0F00, 0],
        [0xFFFF, 0, 0, 0],
        [0, 0x1FF0, 0x0001, 0],
        [0x8000, 0x7FF8, 0x0004, 0],
    ],
    &[
        [0x7C00, 0x03E0, 0x001F, 0x8000],
        [0x0F00, 0x00F0, 0x000F, 0xF000],
        [0x0001, 0x0002, 0x0004, 0xFFF8],
        [0, 0, 0x8000, 0x7FFF],
    ],
    &[
        [0x00FF_0000, 0x0000_FF00, 0x0000_00FF, 0],
        [0x3FF0_0000, 0x000F_FC00, 0x0000_03FF, 0],
        [0xFFFF_FFFF, 0, 0, 0],
        [0, 0xFFFF_8000, 0x0000_7FFF, 0],
        [0x0000_0001, 0xFFFF_FFFE, 0, 0],
        [0x0001_FFFF, 0, 0xFFFE_0000, 0],
    ],
    &[
        [0x00FF_0000, 0x0000_FF00, 0x0000_00FF, 0xFF00_0000],
        [0x3FF0_0000, 0x000F_FC00, 0x0000_03FF, 0xC000_0000],
        [0x0000_0001, 0, 0, 0xFFFF_FFFE],
        [0x0000_FFFF, 0, 0x7FFF_0000, 0x8000_0000],
    ],
];

// Masks that 7, 8, 9 and 10 refuse, with their depths; of several faults the first is told.
const BAD_MASKS: [&[(u16, [u32; 4])]; 4] = [
    &[
        (16, [0x0005_0000, 0, 0, 0]),
        (16, [0xF800, 0x0001_0000, 0x1F, 0]),
        (16, [0xF800, 0x07E0, 0x001F, 0x0001_0000]),
        (16, [0, 0, 0xFFFF_0000, 0x5]),
    ],
    &[
        (16, [0x0A00, 0, 0, 0]),
        (32, [0xFF, 0xFF00_FF00, 0, 0]),
        (32, [0xFF, 0xFF00, 0xFF_0000, 0x8100_0000]),
        (16, [0x1, 0x5, 0x0001_0000, 0]),
        (32, [0x8000_0001, 0x1, 0, 0]),
    ],
    &[
        (16, [0x001F, 0x001F, 0, 0]),
        (32, [0xFF, 0xFF00, 0xFF00, 0]),
        (32, [0xFF, 0xFF00, 0xFF_0000, 0xFFFF_FFFF]),
        (16, [0x0003, 0x0006, 0x0005, 0]),
    ],
    &[(16, [0, 0, 0, 0]), (16, [0, 0, 0, 0xFF00]), (32, [0, 0, 0, 0]), (32, [0, 0, 0, 0xFFFF_FFFF])],
];

struct Rng(u64);

impl Rng {
    fn next(&mut self) -> u64 {
        self.0 ^= self.0 << 13;
        self.0 ^= self.0 >> 7;
        self.0 ^= self.0 << 17;
        self.0 >> 16
    }
    fn below(&mut self, n: u64) -> u64 {
        self.next() % n
    }
    fn coin(&mut self) -> bool {
        self.below(2) == 0
    }
    fn bytes(&mut self, n: usize) -> Vec<u8> {
        (0..n).map(|_| self.next() as u8).collect()
    }
    fn of<T: Copy>(&mut self, from: &[T]) -> T {
        from[self.below(from.len() as u64) as usize]
    }
}

// A call, but for offset and buffer.
#[derive(Clone)]
struct Case {
    format: usize,
    width: u32,
    height: u32,
    stride: u32,
    plane: Vec<u8>,
    palette: Option<Vec<u8>>,
    icc: Option<Vec<u8>>,
    linked: Option<Vec<u8>>,
    top_down: bool,
    minimal: bool,
    rle: bool,
    embed: bool,
    masks: Option<(u16, [u32; 4])>,
    calibrated: Option<([i32; 9], [u32; 3])>,
    intent: u32,
    limit: u64,
    pels: [i32; 2],
}

// What a call must answer.
struct Answer {
    number: u32,
    format: u32,
    bound_number: u32,
    bound: u32,
    stream: u32,
    file: Vec<u8>,
}

fn source_bytes(format: usize) -> usize {
    FORMATS[format].bytes_per_pixel()
}

fn is_indexed(format: usize) -> bool {
    format >= 6
}

fn refusal(message: &str) -> u32 {
    let table = [
        ("zero dimension", 1),
        ("requires a palette", 3),
        ("mutually exclusive", 5),
        ("bpp must be 16 or 32", 6),
        ("exceeds", 7),
        ("not a contiguous bit run", 8),
        ("overlaps another channel", 9),
        ("at least one of R/G/B", 10),
        ("source must be", 11),
        ("frame plane truncated", 12),
        ("plane stride", 13),
        ("its RLE stream does not bring it under", 16),
        ("bytes the BMP size fields can record", 14),
    ];
    for (words, number) in table {
        if message.contains(words) {
            return number;
        }
    }
    panic!("a refusal outside the sample's domain: {message}")
}

// 2, 20, 21 and 4, which the original does not know, with what stands before them in the table.
fn added(c: &Case) -> Option<u32> {
    let most = i32::MAX as u32;
    if c.width == 0 || c.height == 0 {
        return None;
    }
    if c.width > most || c.height > most {
        return Some(2);
    }
    if c.limit > MOST {
        return Some(20);
    }
    if c.pels[0] < 0 || c.pels[1] < 0 {
        return Some(21);
    }
    match &c.palette {
        Some(p) if is_indexed(c.format) && p.len() % 4 != 0 => Some(4),
        _ => None,
    }
}

fn refused(number: u32) -> Answer {
    Answer { number, format: 0, bound_number: number, bound: 0, stream: 0, file: Vec::new() }
}

fn options_of(c: &Case) -> EncodeOptions {
    let mut o = EncodeOptions::new()
        .with_top_down(c.top_down)
        .with_minimal_palette(c.minimal)
        .with_rle(c.rle)
        .with_embed_icc(c.embed)
        .with_rendering_intent(c.intent);
    if let Some((bpp, m)) = c.masks {
        let mut b = BmpBitfields::RGB565;
        (b.bpp, b.r, b.g, b.b, b.a) = (bpp, m[0], m[1], m[2], m[3]);
        o = o.with_bitfields(b);
    }
    if let Some((endpoints, gamma)) = c.calibrated {
        o = o.with_calibrated_rgb(CalibratedRgb::new(endpoints, gamma));
    }
    if let Some(linked) = &c.linked {
        o = o.with_linked_icc(linked.clone());
    }
    o
}

// What the original is handed in a call.
fn with_source<T>(c: &Case, run: impl FnOnce(&EncodeSource<'_>, &EncodeOptions) -> T) -> T {
    let entries = |p: &Vec<u8>| p.chunks_exact(4).map(|e| [e[0], e[1], e[2], e[3]]).collect();
    let palette = c.palette.as_ref().map(|p| Palette::new(entries(p)));
    let src = EncodeSource {
        plane: PlaneRef::new(c.stride as usize, &c.plane),
        format: FORMATS[c.format],
        palette: palette.as_ref(),
        icc: c.icc.as_deref(),
        width: c.width,
        height: c.height,
    };
    run(&src, &options_of(c))
}

// The original's answer, or the documents' where the original has none.
fn answer(c: &Case) -> Answer {
    if let Some(number) = added(c) {
        return refused(number);
    }
    with_source(c, |src, o| original(c.limit, src, o))
}

fn original(limit: u64, src: &EncodeSource<'_>, o: &EncodeOptions) -> Answer {
    let bound = bound_at(src, o, limit).map_err(|e| refusal(&e.to_string()));
    let file = if limit == MOST { encode_source(src, o) } else { encode_at(src, o, limit) };
    match (bound, file.map_err(|e| refusal(&e.to_string()))) {
        (Ok(bound), Ok((file, format))) => {
            // `replay` sets these two fields.
            assert!(file[38..42] == PELS.to_le_bytes() && file[42..46] == PELS.to_le_bytes());
            let name = format!("{format:?}");
            let format = WRITTEN.iter().position(|w| *w == name).unwrap() as u32;
            let stream = match stream_of(src, o) {
                None => 0,
                Some((len, raw)) if len < raw => 1,
                Some((len, raw)) if len == raw => 2,
                Some(_) => 3,
            };
            assert_eq!(stream == 1, format == 7 || format == 8);
            Answer { number: 0, format, bound_number: 0, bound: bound as u32, stream, file }
        }
        // The stream is the writing call's alone.
        (Ok(bound), Err(16)) => Answer { bound_number: 0, bound: bound as u32, ..refused(16) },
        (Err(a), Err(b)) if a == b => refused(a),
        _ => panic!("size query and encoder disagree"),
    }
}

// ---- pictures

// A plane of rows of `stride` bytes; `style` says how its cells vary.
fn plane(r: &mut Rng, format: usize, width: u32, height: u32, stride: u32, style: u64) -> Vec<u8> {
    let n = stride as usize * height as usize;
    let pixel = source_bytes(format);
    let mut p = r.bytes(n);
    if pixel != 1 || style == 0 {
        return p;
    }
    let most: u64 = if r.below(3) == 0 { 256 } else { r.of(&[2, 3, 16, 32]) };
    for y in 0..height as usize {
        let mut last = r.below(most) as u8;
        for x in 0..width as usize {
            last = match style {
                // one index
                1 => last,
                // runs
                2 => if r.below(5) == 0 { r.below(most) as u8 } else { last },
                // two in turn
                3 => last ^ 1,
                // runs and mixed stretches in turn
                4 => if x / 7 % 2 == 0 { last } else { r.below(most) as u8 },
                // the same low four bits, different high ones
                5 => last & 15 | (r.below(3) as u8) << 4,
                // pairs
                _ => if x % 2 == 0 { r.below(most) as u8 } else { last },
            };
            p[y * stride as usize + x] = last;
        }
    }
    p
}

// An empty, short, full or over-long palette.
fn palette(r: &mut Rng, format: usize, kind: u64) -> Vec<u8> {
    let full = if is_indexed(format) { 1usize << FORMATS[format].bits_per_pixel() } else { 4 };
    let entries = match kind {
        0 => 0,
        1 => 1 + r.below(full.min(20) as u64 - 1) as usize,
        2 => full,
        _ => full + 1 + r.below(3) as usize,
    };
    r.bytes(4 * entries)
}

fn blob(r: &mut Rng) -> Vec<u8> {
    let n = r.of(&[0, 0, 1, 2, 3, 4, 5, 8, 13, 21]);
    r.bytes(n)
}

fn small(r: &mut Rng) -> u32 {
    r.of(&[1, 1, 2, 3, 4, 5, 6, 7, 8, 9, 10, 11, 12, 15, 16, 17])
}

// A sound call without a mode.
fn plain(r: &mut Rng, format: usize, width: u32, height: u32, style: u64) -> Case {
    let slack = if r.coin() { 0 } else { 1 + r.below(6) as u32 };
    let stride = width * source_bytes(format) as u32 + slack;
    let mut p = plane(r, format, width, height, stride, style);
    if r.below(4) == 0 {
        let more = 1 + r.below(5) as usize;
        p.extend(r.bytes(more));
    }
    // Full tables of 256 entries are many bytes: they come less often.
    let kind = if format == 6 { r.of(&[0, 0, 1, 1, 1, 2, 3]) } else { r.below(4) };
    let with_palette = is_indexed(format) || r.below(4) == 0;
    let palette = if with_palette { Some(palette(r, format, kind)) } else { None };
    Case {
        format,
        width,
        height,
        stride,
        plane: p,
        palette,
        icc: None,
        linked: None,
        top_down: r.below(3) == 0,
        minimal: if format == 6 { r.below(4) != 0 } else { r.coin() },
        rle: r.below(4) != 0,
        embed: true,
        masks: None,
        calibrated: None,
        intent: r.of(&[4, 1, 2, 8, 0, 99, 0xFFFF_FFFF]),
        limit: MOST,
        pels: [PELS; 2],
    }
}

fn calibrated(r: &mut Rng) -> ([i32; 9], [u32; 3]) {
    let mut endpoints = [0; 9];
    for e in &mut endpoints {
        *e = r.next() as i32;
    }
    endpoints[r.below(9) as usize] = r.of(&[i32::MIN, -1, 0, 1, i32::MAX]);
    (endpoints, [r.next() as u32, r.next() as u32, r.of(&[0, 1, 0xFFFF_FFFF])])
}

const MODES: u64 = 10;

// 0 none, 1 to 4 masks, 5 calibrated, 6 embedded, 7 linked, 8 both profiles, 9 none with an embedded profile
// that is not asked for.
fn set_mode(r: &mut Rng, c: &mut Case, mode: u64) {
    match mode {
        1..=4 => {
            let bpp = if mode <= 2 { 16 } else { 32 };
            c.masks = Some((bpp, r.of(MASKS[mode as usize - 1])));
        }
        5 => c.calibrated = Some(calibrated(r)),
        6 => c.icc = Some(blob(r)),
        7 => c.linked = Some(blob(r)),
        8 => {
            c.icc = Some(blob(r));
            c.linked = Some(blob(r));
            c.embed = true;
        }
        9 => {
            c.icc = Some(blob(r));
            c.embed = false;
        }
        _ => {}
    }
    if mode == 7 {
        c.embed = r.coin();
    }
}

// A resolution that is not refused, and one that is.
fn pels(r: &mut Rng) -> i32 {
    let any = r.next() as i32 & i32::MAX;
    r.of(&[0, 1, PELS, 3780, i32::MAX, any, any])
}

fn negative(r: &mut Rng) -> i32 {
    let any = r.next() as i32 | i32::MIN;
    r.of(&[-1, i32::MIN, any])
}

// A limit about the bytes before the pixels, about the plain file's or about the stream's file, or another.
fn limit(r: &mut Rng, c: &Case) -> u64 {
    let (sizes, stream) = with_source(c, |src, o| (sizes_of(src, o), stream_of(src, o)));
    let Some((head, file)) = sizes else { return r.of(&[0, 1, 54, 262_144]) };
    let streamed = stream.map_or(file, |(len, _)| head + len as u64);
    let about = match r.below(8) {
        0 => head,
        1 | 2 => file,
        3 | 4 | 5 => streamed,
        6 => r.below(file),
        _ => return r.of(&[0, 1, 262_144, MOST - 1]),
    };
    about + 2 - r.below(5).min(about + 2)
}

// ---- the sample

struct Sample {
    r: Rng,
    out: Vec<u8>,
    cases: u32,
    seen: BTreeMap<String, u32>,
}

impl Sample {
    // Appends a case with a buffer that is large enough, or, if `short`, not.
    fn put(&mut self, c: &Case, short: bool) {
        let mut a = answer(c);
        let r = &mut self.r;
        let mut offset = if r.coin() { 0 } else { 1 + r.below(30) as u32 };
        let mut room = r.below(60) as u32;
        let planned = a.bound_number == 0;
        if planned && !short {
            room = offset + a.bound + r.of(&[0, 1, 7, 20]);
        }
        if planned && short {
            match r.below(3) {
                0 => room = offset + a.bound - 1,
                1 => {
                    room = a.bound + r.below(9) as u32;
                    offset = room + 1 + r.below(3) as u32;
                }
                _ => room = offset + r.below(a.bound as u64) as u32,
            }
            a.number = 15;
            a.format = 0;
            a.stream = 0;
            a.file = Vec::new();
        }
        let seed = r.below(1 << 32) as u32;
        // What is absent may hold anything.
        let (endpoints, gamma) = c.calibrated.unwrap_or_else(|| if r.coin() { calibrated(r) } else { ([0; 9], [0; 3]) });
        let (bpp, masks) = c.masks.unwrap_or_else(|| if r.coin() { (r.next() as u16, [r.next() as u32; 4]) } else { (0, [0; 4]) });
        let mut flags = 0;
        let bits = [
            c.palette.is_some(),
            c.icc.is_some(),
            c.linked.is_some(),
            c.top_down,
            c.minimal,
            c.rle,
            c.embed,
            c.masks.is_some(),
            c.calibrated.is_some(),
        ];
        for (k, bit) in bits.iter().enumerate() {
            flags |= u32::from(*bit) << k;
        }
        let unread = |r: &mut Rng| if r.coin() { r.bytes(r.0 as usize % 8) } else { Vec::new() };
        let palette = &c.palette.clone().unwrap_or_else(|| unread(r));
        let icc = &c.icc.clone().unwrap_or_else(|| unread(r));
        let linked = &c.linked.clone().unwrap_or_else(|| unread(r));
        let mut words = vec![u32::from_le_bytes(*b"CASE"), c.format as u32, c.width, c.height, c.stride, flags];
        words.push(u32::from(bpp));
        words.extend(masks);
        words.push(c.intent);
        words.extend(endpoints.map(|e| e as u32));
        words.extend(gamma);
        words.extend([offset, room, seed]);
        for slice in [&c.plane, palette, icc, linked, &a.file] {
            words.push(slice.len() as u32);
        }
        words.extend([a.number, a.format, a.bound_number, a.bound, a.stream]);
        words.extend([c.limit as u32, (c.limit >> 32) as u32, c.pels[0] as u32, c.pels[1] as u32]);
        assert_eq!(words.len(), 41);
        for word in words {
            self.out.extend(word.to_le_bytes());
        }
        for slice in [&c.plane, palette, icc, linked, &a.file] {
            assert!(slice.len() <= 16384);
            self.out.extend(slice);
        }
        assert!(c.plane.len() + palette.len() + icc.len() + linked.len() <= 16384 && room <= 16384);
        self.cases += 1;
        let what = match (a.number, a.stream) {
            (0, 2) => format!("{} (stream ties)", WRITTEN[a.format as usize]),
            (0, 3) => format!("{} (stream longer)", WRITTEN[a.format as usize]),
            (0, _) => WRITTEN[a.format as usize].to_string(),
            (n, _) => format!("refusal {n}"),
        };
        *self.seen.entry(what).or_insert(0) += 1;
        if c.limit < MOST || c.pels != [PELS; 2] {
            *self.seen.entry("with settings of its own".to_string()).or_insert(0) += 1;
        }
    }

    // Every format in every mode.
    fn grid(&mut self) {
        for format in 0..10 {
            for mode in 0..MODES {
                let masked = (1..=4).contains(&mode);
                let turns = if masked && format >= 4 { 2 } else { 18 };
                for turn in 0..turns {
                    let r = &mut self.r;
                    let (width, height) = if turn == 17 {
                        (r.of(&[31, 32, 33, 63, 65]), 2)
                    } else {
                        (small(r), 1 + r.below(4) as u32)
                    };
                    let style = r.below(7);
                    let mut c = plain(r, format, width, height, style);
                    set_mode(r, &mut c, mode);
                    self.put(&c, false);
                }
            }
            for width in [255, 256, 257, 510] {
                let mode = self.r.of(&[0, 0, 5, 6]);
                let mut c = plain(&mut self.r, format, width, 1, 2);
                set_mode(&mut self.r, &mut c, mode);
                self.put(&c, false);
            }
        }
    }

    // Streams that win, tie and lose.
    fn streams(&mut self) {
        for format in [6, 7] {
            for turn in 0..150 {
                let r = &mut self.r;
                let (width, height) = match turn {
                    0..20 => (r.of(&[253, 254, 255, 256, 257, 258, 509, 510, 511, 512]), 1 + r.below(2) as u32),
                    20..50 => (r.of(&[31, 32, 33, 63, 64, 65]), 1 + r.below(3) as u32),
                    _ => (1 + r.below(24) as u32, 1 + r.below(5) as u32),
                };
                let style = r.below(7);
                let mut c = plain(r, format, width, height, style);
                c.top_down = false;
                c.rle = true;
                c.minimal = true;
                c.palette = Some(palette(r, format, turn % 2));
                self.put(&c, false);
            }
            self.sought(format, 2, 40);
            self.sought(format, 1, 40);
            self.sought(format, 3, 20);
        }
    }

    // Streams with the wanted outcome, of different shapes.
    fn sought(&mut self, format: usize, outcome: u32, count: usize) {
        let mut shapes = BTreeSet::new();
        let mut found = 0;
        while found < count {
            let r = &mut self.r;
            let (width, height) = (1 + r.below(30) as u32, 1 + r.below(6) as u32);
            let style = r.below(7);
            let mut c = plain(r, format, width, height, style);
            c.top_down = false;
            c.rle = true;
            c.minimal = true;
            c.palette = Some(palette(r, format, 0));
            if answer(&c).stream == outcome && shapes.insert((width, height)) {
                self.put(&c, false);
                found += 1;
            }
        }
    }

    // Each refusal at each format, in several modes.
    fn refusals(&mut self) {
        for format in 0..10 {
            for mode in 0..MODES {
                for number in [1, 2, 3, 4, 12, 13, 15] {
                    let twice = if mode == 0 { 3 } else { 1 };
                    for turn in 0..twice {
                        let c = self.broken(format, mode, number, turn);
                        self.put(&c, number == 15);
                    }
                }
            }
            for turn in 0..6 {
                let mut c = self.tiny(format);
                // Two or three of masks, calibrated colour and a profile.
                if turn != 0 {
                    set_mode(&mut self.r, &mut c, 1 + turn % 4);
                }
                if turn < 4 {
                    c.calibrated = Some(calibrated(&mut self.r));
                }
                if turn != 1 {
                    let profile = 6 + turn % 3;
                    set_mode(&mut self.r, &mut c, profile);
                    c.embed = c.embed || turn % 3 != 2;
                }
                self.put(&c, false);
            }
            for bpp in [0, 1, 8, 15, 17, 24, 31, 33, 65535] {
                let mut c = self.tiny(format);
                c.masks = Some((bpp, self.r.of(MASKS[0])));
                self.put(&c, false);
            }
            for bad in BAD_MASKS {
                for masks in bad {
                    let mut c = self.tiny(format);
                    c.masks = Some(*masks);
                    self.put(&c, false);
                }
            }
        }
    }

    fn tiny(&mut self, format: usize) -> Case {
        let (width, height) = (1 + self.r.below(4) as u32, 1 + self.r.below(3) as u32);
        let mut c = plain(&mut self.r, format, width, height, 2);
        c.palette = c.palette.map(|p| p[..p.len().min(12)].to_vec());
        c
    }

    // A small call, broken as the number says; what it answers may be an earlier refusal.
    fn broken(&mut self, format: usize, mode: u64, number: u32, turn: u64) -> Case {
        let mut c = self.tiny(format);
        let r = &mut self.r;
        set_mode(r, &mut c, mode);
        match number {
            1 => match turn {
                0 if mode % 2 == 0 => c.width = 0,
                0 | 1 => c.height = 0,
                _ => (c.width, c.height) = (0, 0),
            },
            2 => match turn {
                0 if mode % 2 == 0 => c.width = 0x8000_0000,
                0 | 1 => c.height = 0x8000_0000,
                _ => c.width = 0xFFFF_FFFF,
            },
            3 => c.palette = None,
            4 => c.palette = Some(r.bytes(1 + (turn as usize + mode as usize) % 3)),
            12 => {
                let need = c.stride as usize * c.height as usize;
                // In the last row's padding, in its cells, or nothing there at all.
                match (turn + mode) % 4 {
                    0 => {
                        c.stride += 2;
                        c.plane = r.bytes(c.stride as usize * c.height as usize - 1);
                    }
                    1 => c.plane.truncate(need - 1),
                    2 => c.plane.clear(),
                    _ => {
                        c.height = 0x7FFF_FFFF;
                        c.stride = 0xFFFF_FFFF;
                    }
                }
            }
            13 => match (turn + mode) % 3 {
                0 => c.stride = c.width * source_bytes(format) as u32 - 1,
                1 => c.stride = 0,
                _ => c.width = 0x7FFF_FFFF,
            },
            _ => {}
        }
        c
    }

    // Several faults at once: which one is told shows the order of the checks.
    fn several(&mut self) {
        for _ in 0..400 {
            let format = self.r.below(10) as usize;
            let mode = self.r.below(MODES);
            let mut c = self.tiny(format);
            set_mode(&mut self.r, &mut c, mode);
            let r = &mut self.r;
            for _ in 0..2 + r.below(2) {
                match r.below(9) {
                    0 => c.width = 0,
                    1 => c.height = r.of(&[0x8000_0000, 0xFFFF_FFFF]),
                    2 => c.palette = None,
                    3 => c.palette = Some(r.bytes(7)),
                    4 => c.calibrated = Some(calibrated(r)),
                    5 => {
                        let bad = r.of(&BAD_MASKS);
                        c.masks = Some(r.of(bad));
                    }
                    6 => c.masks = Some((24, r.of(MASKS[2]))),
                    7 => {
                        c.plane.pop();
                        c.plane.truncate(3);
                    }
                    _ => c.stride = c.stride / 3,
                }
            }
            let short = self.r.coin();
            self.put(&c, short);
        }
    }
}

impl Sample {
    // Limits and resolutions in every format and mode, at streams above all.
    fn settings(&mut self) {
        for format in 0..10 {
            for mode in 0..MODES {
                let masked = (1..=4).contains(&mode);
                let turns = if masked && format >= 4 { 1 } else { 3 };
                for _ in 0..turns {
                    let mut c = self.tiny(format);
                    set_mode(&mut self.r, &mut c, mode);
                    self.put_limited(c);
                }
            }
        }
        for format in [6, 7] {
            for turn in 0..80 {
                let r = &mut self.r;
                let (width, height) = (9 + r.below(40) as u32, 1 + r.below(4) as u32);
                let style = r.of(&[1, 2, 2, 4, 5]);
                let mut c = plain(r, format, width, height, style);
                c.top_down = false;
                c.rle = true;
                c.minimal = true;
                c.palette = Some(palette(r, format, turn % 2));
                self.put_limited(c);
            }
        }
    }

    fn put_limited(&mut self, mut c: Case) {
        c.limit = limit(&mut self.r, &c);
        c.pels = [pels(&mut self.r), pels(&mut self.r)];
        let short = self.r.below(16) == 0;
        self.put(&c, short);
    }

    // 20 and 21, alone and together, and among other faults.
    fn refused_settings(&mut self) {
        for format in 0..10 {
            for turn in 0..12 {
                let mut c = self.tiny(format);
                let mode = self.r.below(MODES);
                set_mode(&mut self.r, &mut c, mode);
                let r = &mut self.r;
                c.limit = r.of(&[0, 100, MOST]);
                if turn % 3 != 1 {
                    c.limit = r.of(&[MOST + 1, MOST + 2, MOST << 8, u64::MAX]);
                }
                if turn % 3 != 0 {
                    c.pels[turn / 3 % 2] = negative(r);
                }
                if turn / 6 == 1 {
                    match r.below(6) {
                        0 => c.width = 0,
                        1 => c.height = 0x8000_0000,
                        2 => c.palette = None,
                        3 => c.palette = Some(r.bytes(7)),
                        4 => c.calibrated = Some(calibrated(r)),
                        _ => c.plane.clear(),
                    }
                }
                self.put(&c, turn == 5);
            }
        }
    }
}

fn main() {
    let mut s = Sample { r: Rng(SEED), out: Vec::new(), cases: 0, seen: BTreeMap::new() };
    s.grid();
    s.streams();
    s.refusals();
    s.several();
    s.settings();
    s.refused_settings();
    let mut head = b"BMPS".to_vec();
    head.extend(s.cases.to_le_bytes());
    let mut to = std::io::stdout().lock();
    to.write_all(&head).unwrap();
    to.write_all(&s.out).unwrap();
    eprintln!("{} cases, {} bytes", s.cases, s.out.len() + 8);
    for (what, count) in &s.seen {
        eprintln!("{count:6} {what}");
    }
}
