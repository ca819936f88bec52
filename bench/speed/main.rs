//! The port and the original on the same pictures: time of a writing call.
//!
//! Both write into memory that is there before: the original appends to a Vec with capacity, the port into a lent buffer
//! that is not cleared. Files are compared first, with the agreed differences. Rounds are interleaved, and of each side the least time counts; the
//! spread is the least and the greatest ratio among five parts of the rounds, each with its own least times. The last
//! column is a copy of the file's bytes. `speed FACTOR NAME` runs the workloads with NAME in their names.
//! A second table has the writing call with row starts against the one without, and one row read against the whole file.
//! How the time grows with the picture is in bench/growth.

#[path = "../differential/agreed.rs"]
mod agreed;
#[path = "../reading/model.rs"]
#[allow(dead_code)]
mod model;
mod pictures;
#[path = "../differential/port.rs"]
#[allow(dead_code)]
mod port;
#[path = "../reading/reader.rs"]
mod reader;
mod starts;

use oxideav_bmp::encoder::{BmpBitfields, Picture, differential_append};
use oxideav_bmp::image::{BmpPixelFormat, Palette};
use oxideav_bmp::options::{CalibratedRgb, EncodeOptions};
use pictures::{BYTES, Cells, INDEXED4, PAL8};
use port::{Lent, Options, Settings, Source};
use std::hint::black_box;
use std::time::Instant;

const FORMATS: [BmpPixelFormat; 10] = [
    BmpPixelFormat::Rgba,
    BmpPixelFormat::Rgb24,
    BmpPixelFormat::Bgra,
    BmpPixelFormat::Bgr24,
    BmpPixelFormat::Rgb555,
    BmpPixelFormat::Rgb565,
    BmpPixelFormat::Pal8,
    BmpPixelFormat::Indexed4,
    BmpPixelFormat::Indexed2,
    BmpPixelFormat::Indexed1,
];

#[derive(Clone, Copy, Default)]
struct Chosen {
    top_down: bool,
    no_rle: bool,
    minimal: bool,
    masks: Option<(u16, [u32; 4])>,
    calibrated: bool,
    profile: bool,
}

struct Work {
    name: String,
    format: usize,
    width: usize,
    height: usize,
    cells: Cells,
    chosen: Chosen,
}

fn work(name: &str, format: usize, width: usize, height: usize, cells: Cells, chosen: Chosen) -> Work {
    Work { name: format!("{name}, {width} x {height}"), format, width, height, cells, chosen }
}

fn workloads() -> Vec<Work> {
    let plain = Chosen::default();
    let no_rle = Chosen { no_rle: true, ..plain };
    let top = Chosen { top_down: true, ..plain };
    let mut all = Vec::new();
    for width in [200, 199] {
        all.push(work("Pal8 surface", PAL8, width, 200, Cells::Surface, plain));
        all.push(work("Pal8 surface, no RLE", PAL8, width, 200, Cells::Surface, no_rle));
        all.push(work("Pal8 surface, top-down", PAL8, width, 200, Cells::Surface, top));
        all.push(work("Pal8 random", PAL8, width, 200, Cells::Random, plain));
        all.push(work("Pal8 solid", PAL8, width, 200, Cells::Solid, plain));
        all.push(work("Pal8 runs of 2 to 10", PAL8, width, 200, Cells::Runs, plain));
        all.push(work("Indexed4 surface", INDEXED4, width, 200, Cells::Surface, plain));
        all.push(work("Indexed4 random", INDEXED4, width, 200, Cells::Random, plain));
        all.push(work("Indexed4 runs of 2 to 10", INDEXED4, width, 200, Cells::Runs, plain));
        for (name, format) in [("Indexed2", 8), ("Indexed1", 9), ("Rgb24", 1), ("Bgr24", 3), ("Rgba", 0), ("Bgra", 2), ("Rgb555", 4), ("Rgb565", 5)] {
            all.push(work(name, format, width, 200, Cells::Random, plain));
        }
        let masks = |bpp, m| Chosen { masks: Some((bpp, m)), ..plain };
        all.push(work("Rgba, masks 5-6-5", 0, width, 200, Cells::Random, masks(16, [0xF800, 0x7E0, 0x1F, 0])));
        all.push(work("Rgba, masks 10-10-10-2", 0, width, 200, Cells::Random, masks(32, [0x3FF00000, 0xFFC00, 0x3FF, 0xC0000000])));
        all.push(work("Rgba, masks 24-8", 0, width, 200, Cells::Random, masks(32, [0xFFFFFF00, 0xFF, 0, 0])));
    }
    all.push(work("Pal8 surface, minimal palette", PAL8, 200, 200, Cells::Surface, Chosen { minimal: true, ..plain }));
    all.push(work("Rgb24, calibrated", 1, 200, 200, Cells::Random, Chosen { calibrated: true, ..plain }));
    all.push(work("Rgb24, profile", 1, 200, 200, Cells::Random, Chosen { profile: true, ..plain }));
    all.push(work("Rgba, top-down", 0, 200, 200, Cells::Random, top));
    all.push(work("Pal8 surface", PAL8, 1000, 1000, Cells::Surface, plain));
    all.push(work("Pal8 surface, no RLE", PAL8, 1000, 1000, Cells::Surface, no_rle));
    all.push(work("Pal8 random", PAL8, 1000, 1000, Cells::Random, plain));
    all.push(work("Rgba", 0, 4096, 4096, Cells::Random, plain));
    all
}

fn plane(w: &Work) -> Vec<u8> {
    pictures::plane(w.format, w.width, w.height, w.cells)
}

#[derive(Clone, Copy)]
struct Times {
    port: f64,
    original: f64,
    copy: f64,
}

impl Times {
    const NONE: Times = Times { port: f64::MAX, original: f64::MAX, copy: f64::MAX };

    fn least(self, other: Times) -> Times {
        Times { port: self.port.min(other.port), original: self.original.min(other.original), copy: self.copy.min(other.copy) }
    }

    fn ratio(self) -> f64 {
        self.port / self.original
    }
}

const PARTS: usize = 5;

fn timed(mut f: impl FnMut()) -> f64 {
    let start = Instant::now();
    f();
    start.elapsed().as_secs_f64()
}

fn measure(w: &Work, rounds: usize) -> (Vec<Times>, String, usize) {
    let plane = plane(w);
    let indexed = w.format >= PAL8;
    let entries: Vec<[u8; 4]> = (0..if w.chosen.minimal { 100 } else { 256 }).map(|k| [k as u8, 255 - k as u8, 128, 255]).collect();
    let bytes: Vec<u8> = entries.iter().flatten().copied().collect();
    let palette = Palette::new(entries);
    let icc = vec![9u8; 500];
    let stride = w.width * BYTES[w.format];
    let picture = Picture {
        format: FORMATS[w.format],
        width: w.width as u32,
        height: w.height as u32,
        stride,
        plane: &plane,
        palette: indexed.then_some(&palette),
        icc: w.chosen.profile.then_some(&icc[..]),
    };
    let mut options = EncodeOptions::new().with_top_down(w.chosen.top_down).with_rle(!w.chosen.no_rle).with_minimal_palette(w.chosen.minimal);
    let mut raw = Options { top_down: w.chosen.top_down, rle: !w.chosen.no_rle, minimal_palette: w.chosen.minimal, embed_icc: true, rendering_intent: 4, ..Options::default() };
    if let Some((bpp, m)) = w.chosen.masks {
        let mut fields = BmpBitfields::RGB565;
        (fields.bpp, fields.r, fields.g, fields.b, fields.a) = (bpp, m[0], m[1], m[2], m[3]);
        options = options.with_bitfields(fields);
        (raw.has_bitfields, raw.bitfields_bpp, raw.bitfields_masks) = (true, bpp, m);
    }
    if w.chosen.calibrated {
        options = options.with_calibrated_rgb(CalibratedRgb::new([1; 9], [2; 3]));
        (raw.has_calibrated, raw.endpoints, raw.gamma) = (true, [1; 9], [2; 3]);
    }
    let source = Source { format: w.format as u32, width: w.width as u32, height: w.height as u32, has_palette: indexed, has_icc: w.chosen.profile, has_linked_icc: false, stride: stride as u64 };
    let lent = Lent { plane: &plane, palette: if indexed { &bytes } else { &[] }, icc: if w.chosen.profile { &icc } else { &[] }, linked_icc: &[] };
    let bound = port::size_bound(source, raw, lent).bytes as usize;
    let mut out = vec![0u8; bound];
    let mut appended = Vec::with_capacity(bound);
    let answer = port::encode_into(source, raw, lent, &mut out, 0);
    let format = differential_append(&picture, &options, &mut appended).unwrap();
    agreed::agreed(format, raw.bitfields_masks, Settings::default(), &mut appended);
    assert_eq!(answer.refusal, 0);
    assert!(out[..answer.bytes as usize] == appended[..], "{}: the files differ", w.name);
    let len = appended.len();
    let (file, mut target) = (appended.clone(), vec![0u8; len]);
    let mut round = || Times {
        port: timed(|| {
            black_box(port::encode_into(source, raw, lent, black_box(&mut out), 0));
        }),
        original: timed(|| {
            appended.clear();
            black_box(differential_append(&picture, &options, black_box(&mut appended)).unwrap());
        }),
        copy: timed(|| black_box(&mut target).copy_from_slice(black_box(&file))),
    };
    let parts = (0..PARTS).map(|_| (0..rounds.div_ceil(PARTS)).fold(Times::NONE, |best, _| best.least(round()))).collect();
    (parts, format!("{format:?}"), len)
}

fn main() {
    let factor: usize = std::env::args().nth(1).and_then(|n| n.parse().ok()).unwrap_or(1);
    println!("| workload | written as | bytes | port µs | original µs | port / original | spread | port / copy |");
    println!("|---|---|---|---|---|---|---|---|");
    let mut logs = Vec::new();
    let part = std::env::args().nth(2);
    let works: Vec<Work> = workloads().into_iter().filter(|w| part.as_ref().is_none_or(|part| w.name.contains(part))).collect();
    for w in &works {
        let rounds = factor * if w.width * w.height > 1_000_000 { 25 } else { 200 };
        let (parts, format, len) = measure(w, rounds);
        let t = parts.iter().copied().fold(Times::NONE, Times::least);
        let (low, high) = parts.iter().fold((f64::MAX, 0f64), |(low, high), part| (low.min(part.ratio()), high.max(part.ratio())));
        logs.push(t.ratio().ln());
        println!("| {} | {} | {} | {:.1} | {:.1} | {:.2} | {:.2} to {:.2} | {:.2} |", w.name, format, len, t.port * 1e6, t.original * 1e6, t.ratio(), low, high, t.port / t.copy);
    }
    println!("\ngeometric mean of port / original: {:.2}", (logs.iter().sum::<f64>() / logs.len() as f64).exp());
    starts::table(factor, works.iter());
}
