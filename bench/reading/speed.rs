//! The time of a reading call: the library, the model in safe Rust, and a loop that widens a byte to a number for each
//! cell; and, in a second table, of one row read from its start by the library and by the model.
//!
//! All three fill the same memory. What the library and the model fill is compared first. Rounds are interleaved, and
//! of each side the least time counts; the spread is the least and the greatest ratio among five parts of the rounds.
//! `reading_speed FACTOR NAME` has FACTOR times as many rounds, and only the workloads with NAME in their names.

#[allow(dead_code)]
mod model;
#[path = "../differential/port.rs"]
#[allow(dead_code)]
mod port;
mod reader;

use port::{Lent, Options, Source};
use std::hint::black_box;
use std::time::Instant;

const PAL8: u32 = 6;
const INDEXED4: u32 = 7;
const BYTES: [usize; 10] = [4, 3, 4, 3, 2, 2, 1, 1, 1, 1];
const PARTS: usize = 5;

struct Work {
    name: String,
    file: Vec<u8>,
    cells: usize,
    /// Compared with the widening loop.
    has_bytes: bool,
}

// Pictures, as in bench/speed.

fn noise(len: usize) -> Vec<u8> {
    let mut seed = 88172645463325252u64;
    let mut next = || {
        seed ^= seed << 13;
        seed ^= seed >> 7;
        seed ^= seed << 17;
        (seed >> 24) as u8
    };
    (0..len).map(|_| next()).collect()
}

fn surface(side: usize) -> Vec<u8> {
    let part = |k: usize| k as f64 / side as f64;
    (0..side * side)
        .map(|k| (part(k % side), part(k / side)))
        .map(|(x, y)| ((x - 0.5) * (x - 0.5) * 400.0 / (0.4 + y) + y * 60.0) as u8)
        .collect()
}

// Files.

fn written(format: u32, side: usize, plane: &[u8], options: Options) -> Vec<u8> {
    let source = Source {
        format,
        width: side as u32,
        height: side as u32,
        has_palette: format >= PAL8,
        stride: (side * BYTES[format as usize]) as u64,
        ..Source::default()
    };
    let palette: Vec<u8> = (0..=255).flat_map(|k| [k, 255 - k, 128, 255]).collect();
    let lent = Lent { plane, palette: if format >= PAL8 { &palette } else { &[] }, icc: &[], linked_icc: &[] };
    let mut file = vec![0; port::size_bound(source, options, lent).bytes as usize];
    let answer = port::encode_into(source, options, lent, &mut file, 0);
    assert_eq!(answer.refusal, 0);
    file.truncate(answer.bytes as usize);
    file
}

/// The writer does not use a stream that is no shorter than the rows, so noise is coded here, in blocks.
fn coded_noise(side: usize) -> Vec<u8> {
    let plane = noise(side * side);
    let mut file = written(PAL8, side, &plane, Options::default());
    file.truncate(14 + 40 + 1024);
    file[30] = 1;
    for row in plane.chunks(side).rev() {
        for block in row.chunks(250) {
            file.extend([0, block.len() as u8]);
            file.extend(block);
        }
        file.extend([0, 0]);
    }
    file
}

fn workloads() -> Vec<Work> {
    let plain = Options::default();
    let coded = Options { rle: true, ..plain };
    let masks =
        |bitfields_bpp, bitfields_masks| Options { has_bitfields: true, bitfields_bpp, bitfields_masks, ..plain };
    let mut all = Vec::new();
    let mut add = |name: &str, side: usize, file: Vec<u8>, has_bytes| {
        all.push(Work { name: format!("{name}, {side} x {side}"), file, cells: side * side, has_bytes });
    };
    add("8-bit rows", 1000, written(PAL8, 1000, &noise(1_000_000), plain), true);
    add("RLE8 surface", 1000, written(PAL8, 1000, &surface(1000), coded), true);
    add("RLE8 solid", 1000, written(PAL8, 1000, &[7; 1_000_000], coded), true);
    add("RLE8 noise", 1000, coded_noise(1000), true);
    add("RLE4 surface", 1000, written(INDEXED4, 1000, &surface(1000), coded), false);
    add("4-bit rows", 1000, written(INDEXED4, 1000, &noise(1_000_000), plain), false);
    add("2-bit rows", 1000, written(8, 1000, &noise(1_000_000), plain), false);
    add("1-bit rows", 1000, written(9, 1000, &noise(1_000_000), plain), false);
    add("16-bit rows", 1000, written(4, 1000, &noise(2_000_000), plain), false);
    add("24-bit rows", 1000, written(1, 1000, &noise(3_000_000), plain), false);
    add("32-bit rows", 1000, written(0, 1000, &noise(4_000_000), plain), false);
    let file = written(0, 1000, &noise(4_000_000), masks(16, [0xF800, 0x7E0, 0x1F, 0]));
    add("masks 5-6-5", 1000, file, false);
    let file = written(0, 1000, &noise(4_000_000), masks(32, [0x3FF0_0000, 0xF_FC00, 0x3FF, 0xC000_0000]));
    add("masks 10-10-10-2", 1000, file, false);
    add("8-bit rows", 200, written(PAL8, 200, &noise(40_000), plain), true);
    add("RLE8 surface", 200, written(PAL8, 200, &surface(200), coded), true);
    all
}

// Times.

#[derive(Clone, Copy)]
struct Times {
    library: f64,
    model: f64,
    widening: f64,
}

impl Times {
    const NONE: Times = Times { library: f64::MAX, model: f64::MAX, widening: f64::MAX };

    fn least(self, other: Times) -> Times {
        Times {
            library: self.library.min(other.library),
            model: self.model.min(other.model),
            widening: self.widening.min(other.widening),
        }
    }

    fn ratio(self) -> f64 {
        self.library / self.model
    }
}

fn timed(f: impl FnOnce()) -> f64 {
    let start = Instant::now();
    f();
    start.elapsed().as_secs_f64()
}

fn widen(cells: &mut [u32], bytes: &[u8]) {
    for (cell, byte) in cells.iter_mut().zip(bytes) {
        *cell = u32::from(*byte);
    }
}

fn measure(work: &Work, rounds: usize) -> Vec<Times> {
    let sizes = reader::read_sizes(&work.file);
    assert!(sizes.refusal == 0 && sizes == model::read_sizes(&work.file), "{}: {sizes:?}", work.name);
    let mut head = vec![0; sizes.head_bytes as usize];
    let mut table = vec![0; sizes.table_bytes as usize];
    let mut cells = vec![0u32; sizes.cell_numbers as usize];
    let expected = model::read(&work.file, &mut head, &mut table, &mut cells);
    let mut again = vec![u32::MAX; cells.len()];
    let given = reader::read(&work.file, &mut head, &mut table, &mut again);
    assert!(expected.refusal == 0 && expected == given && cells == again, "{}: the cells differ", work.name);
    let bytes = noise(work.cells);
    let file = &work.file[..];
    // Each side comes first in every other round, since it finds in the caches what the one before has left there.
    let mut library_first = false;
    let mut round = || {
        let mut times = Times::NONE;
        library_first = !library_first;
        for library in [library_first, !library_first] {
            if library {
                times.library = timed(|| {
                    black_box(reader::read(black_box(file), &mut head, &mut table, black_box(&mut cells)));
                });
            } else {
                times.model = timed(|| {
                    black_box(model::read(black_box(file), &mut head, &mut table, black_box(&mut cells)));
                });
            }
        }
        times.widening = timed(|| widen(black_box(&mut cells), black_box(&bytes)));
        times
    };
    (0..PARTS).map(|_| (0..rounds.div_ceil(PARTS)).fold(Times::NONE, |best, _| best.least(round()))).collect()
}

/// The middle row alone, read a hundred times, since one takes less than the clock can tell.
fn measure_row(work: &Work, rounds: usize) -> Vec<Times> {
    let sizes = reader::read_sizes(&work.file);
    let mut cells = vec![0u32; (sizes.cell_numbers / u64::from(sizes.height)) as usize];
    let start = model::row_start(&work.file, sizes.height / 2).expect("a stored row");
    assert_eq!(model::read_row(&work.file, start, &mut cells), 0);
    let mut again = vec![u32::MAX; cells.len()];
    assert!(port::read_row(&work.file, start, &mut again) == 0 && cells == again, "{}: the row differs", work.name);
    let file = &work.file[..];
    let mut library_first = false;
    let mut hundred = |read: fn(&[u8], u64, &mut [u32]) -> u32| {
        let read_once = |_| _ = black_box(read(black_box(file), black_box(start), black_box(&mut cells)));
        timed(|| (0..100).for_each(read_once)) / 100.0
    };
    let mut round = || {
        let mut times = Times::NONE;
        library_first = !library_first;
        for library in [library_first, !library_first] {
            if library {
                times.library = hundred(port::read_row);
            } else {
                times.model = hundred(model::read_row);
            }
        }
        times
    };
    (0..PARTS).map(|_| (0..rounds.div_ceil(PARTS)).fold(Times::NONE, |best, _| best.least(round()))).collect()
}

/// The least ratio among the parts, and the greatest.
fn spread(parts: &[Times]) -> (f64, f64) {
    parts.iter().fold((f64::MAX, 0f64), |(low, high), part| (low.min(part.ratio()), high.max(part.ratio())))
}

fn rows(factor: usize, works: &[&Work]) {
    println!("\n| workload | library ns a row | model ns a row | library / model | spread |");
    println!("|---|---|---|---|---|");
    let mut logs = Vec::new();
    for work in works {
        let parts = measure_row(work, factor * 500);
        let best = parts.iter().copied().fold(Times::NONE, Times::least);
        let (low, high) = spread(&parts);
        logs.push(best.ratio().ln());
        println!(
            "| {} | {:.0} | {:.0} | {:.2} | {low:.2} to {high:.2} |",
            work.name,
            best.library * 1e9,
            best.model * 1e9,
            best.ratio()
        );
    }
    println!("\ngeometric mean of library / model: {:.2}", (logs.iter().sum::<f64>() / logs.len() as f64).exp());
}

fn main() {
    let factor: usize = std::env::args().nth(1).and_then(|n| n.parse().ok()).unwrap_or(1);
    let name = std::env::args().nth(2).unwrap_or_default();
    println!(
        "| workload | file bytes | library ns a cell | model ns a cell | library / model | spread | library / widening |"
    );
    println!("|---|---|---|---|---|---|---|");
    let mut logs = Vec::new();
    let all = workloads();
    let works: Vec<&Work> = all.iter().filter(|work| work.name.contains(&name)).collect();
    for work in &works {
        let parts = measure(work, factor * if work.cells > 100_000 { 200 } else { 2000 });
        let best = parts.iter().copied().fold(Times::NONE, Times::least);
        let (low, high) = spread(&parts);
        let nanoseconds = |time: f64| time * 1e9 / work.cells as f64;
        let widening = if work.has_bytes { format!("{:.2}", best.library / best.widening) } else { "-".into() };
        logs.push(best.ratio().ln());
        println!(
            "| {} | {} | {:.3} | {:.3} | {:.2} | {low:.2} to {high:.2} | {widening} |",
            work.name,
            work.file.len(),
            nanoseconds(best.library),
            nanoseconds(best.model),
            best.ratio()
        );
    }
    println!("\ngeometric mean of library / model: {:.2}", (logs.iter().sum::<f64>() / logs.len() as f64).exp());
    rows(factor, &works);
}
