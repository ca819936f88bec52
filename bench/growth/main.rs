//! How the time of a call grows with the picture, from 100 cells to 64 MB: writing a picture and reading its file.
//!
//! Memory is lent that is there before, and each call uses the same again, so that a small picture stays in the caches.
//! What is written is read back and compared with the picture first. Of each picture the least time counts; a call that
//! takes less than the clock can tell is made several times in one timing. All sizes are measured five times over, each
//! time in new memory, since what else the machine does may last as long as one picture is measured.
//! `growth FACTOR CSV` measures FACTOR times as long, and writes what it prints to CSV too, which is
//! target/growth/growth.csv if it is not given. plot.py makes docs/growth.png of it.

#[allow(dead_code)]
mod lent;
#[path = "../reading/model.rs"]
#[allow(dead_code)]
mod model;
#[path = "../speed/pictures.rs"]
#[allow(dead_code)]
mod pictures;
#[path = "../differential/port.rs"]
#[allow(dead_code)]
mod port;
#[path = "../reading/reader.rs"]
mod reader;

use lent::{Filled, Picture};
use pictures::{Cells, PAL8};
use std::hint::black_box;
use std::path::Path;
use std::time::Instant;

const SIDES: [usize; 9] = [10, 20, 40, 100, 200, 400, 1000, 2000, 4096];
/// Name, layout, cells, and whether RLE is asked for.
const PICTURES: [(&str, usize, Cells, bool); 3] = [
    ("Pal8 surface", PAL8, Cells::Surface, true),
    ("Pal8 surface, no RLE", PAL8, Cells::Surface, false),
    ("Rgba", 0, Cells::Random, true),
];
const PASSES: usize = 5;
/// The least seconds of a timing, and those for which a call is measured in a pass.
const TIMING: f64 = 1e-5;
const CALL: f64 = 0.05;
/// The number of Rle8 in the writing call's answer.
const RLE8: u32 = 7;

/// The seconds of both calls.
#[derive(Clone, Copy)]
struct Times {
    write: f64,
    read: f64,
    /// RLE was asked for, and the rows are plain: a stream would be no shorter.
    is_plain: bool,
}

impl Times {
    const NONE: Times = Times { write: f64::MAX, read: f64::MAX, is_plain: false };

    fn least(self, other: Times) -> Times {
        Times { write: self.write.min(other.write), read: self.read.min(other.read), ..other }
    }
}

fn timed(calls: usize, mut call: impl FnMut()) -> f64 {
    let start = Instant::now();
    (0..calls).for_each(|_| call());
    start.elapsed().as_secs_f64() / calls as f64
}

/// The least time of a call.
fn least(seconds: f64, mut call: impl FnMut()) -> f64 {
    let once = (0..3).map(|_| timed(1, &mut call)).fold(f64::MAX, f64::min);
    let calls = (TIMING / once).ceil() as usize;
    let timings = (seconds / once) as usize / calls;
    (0..timings.max(5)).map(|_| timed(calls, &mut call)).fold(f64::MAX, f64::min)
}

fn measure(side: usize, (name, format, cells, rle): (&str, usize, Cells, bool), seconds: f64) -> Times {
    let picture = Picture::new(format, side, cells, rle);
    let mut out = vec![0; picture.bound()];
    let answer = picture.write(&mut out);
    assert_eq!(answer.refusal, 0);
    let write = least(seconds, || _ = black_box(black_box(&picture).write(black_box(&mut out))));
    let file = &out[..answer.bytes as usize];
    let mut filled = Filled::new(file);
    assert_eq!(filled.read(file), 0);
    assert!(filled.shows(&picture), "{name}, {side} x {side}: the cells differ");
    let read = least(seconds, || _ = black_box(black_box(&mut filled).read(black_box(file))));
    Times { write, read, is_plain: rle && format == PAL8 && answer.format != RLE8 }
}

fn nanoseconds_a_cell(side: usize, seconds: f64) -> f64 {
    seconds * 1e9 / (side * side) as f64
}

fn print(unit: &str, rows: &[(usize, [Times; 3])], value: fn(usize, f64) -> f64) {
    let names = |verb: &str| PICTURES.map(|picture| format!("{}, {verb}", picture.0)).join(" | ");
    println!("| side, {unit} | {} | {} |", names("written"), names("read"));
    println!("|---|---|---|---|---|---|---|");
    for (side, row) in rows {
        let written = row.map(|times| (times.write, times.is_plain));
        let read = row.map(|times| (times.read, times.is_plain));
        print!("| {side} |");
        for (seconds, is_plain) in written.into_iter().chain(read) {
            print!(" {:.3}{} |", value(*side, seconds), if is_plain { "*" } else { "" });
        }
        println!();
    }
}

fn csv(rows: &[(usize, [Times; 3])]) -> String {
    let mut lines = vec!["call,picture,side,cells,plain_though_rle,microseconds_a_call,nanoseconds_a_cell".to_string()];
    for (side, row) in rows {
        for ((name, ..), times) in PICTURES.iter().zip(row) {
            for (call, seconds) in [("write", times.write), ("read", times.read)] {
                let (cells, microseconds) = (side * side, seconds * 1e6);
                let nanoseconds = nanoseconds_a_cell(*side, seconds);
                let is_plain = u8::from(times.is_plain);
                lines.push(format!("{call},\"{name}\",{side},{cells},{is_plain},{microseconds:.4},{nanoseconds:.5}"));
            }
        }
    }
    lines.join("\n") + "\n"
}

fn main() -> std::io::Result<()> {
    let factor: usize = std::env::args().nth(1).and_then(|n| n.parse().ok()).unwrap_or(1);
    let path = std::env::args().nth(2).unwrap_or_else(|| "target/growth/growth.csv".into());
    let mut rows = SIDES.map(|side| (side, [Times::NONE; 3]));
    for _ in 0..PASSES {
        for (side, row) in &mut rows {
            for (best, picture) in row.iter_mut().zip(PICTURES) {
                *best = best.least(measure(*side, picture, factor as f64 * CALL));
            }
        }
    }
    print("ns a cell", &rows, nanoseconds_a_cell);
    println!();
    print("µs a call", &rows[..4], |_, seconds| seconds * 1e6);
    println!("\n* plain rows, since a stream would be no shorter");
    if let Some(folder) = Path::new(&path).parent() {
        std::fs::create_dir_all(folder)?;
    }
    std::fs::write(path, csv(&rows))
}
