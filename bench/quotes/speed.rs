//! The time of a painting call: the library, and the safe Rust that a user would write, with a binary search for both
//! ends of a cell after the same checks.
//!
//! Both fill the same plane. What they fill is compared first. Rounds are interleaved, and of each side the least time
//! counts; the spread is the least and the greatest ratio among five parts of the rounds.
//! `quotes_speed FACTOR NAME` has FACTOR times as many rounds, and only the workloads with NAME in their names.

mod call;
#[path = "../reading/model.rs"]
#[allow(dead_code)]
mod model;
#[path = "../differential/random.rs"]
#[allow(dead_code)]
mod random;
#[path = "../reading/reader.rs"]
#[allow(dead_code)]
mod reader;

use random::Random;
use std::hint::black_box;
use std::time::Instant;

const PARTS: usize = 5;
const HATCH: u8 = 255;

/// The plain Rust.
fn plain(edges: &[f64], lows: &[f64], highs: &[f64], plane: &mut [u8]) -> u32 {
    if highs.len() < lows.len() || plane.len() < lows.len() {
        return 15;
    }
    let is_rising = edges.windows(2).all(|pair| pair[0] < pair[1]);
    if edges.is_empty() || edges.len() > 254 || edges[0].is_nan() || !is_rising {
        return 22;
    }
    if !lows.iter().zip(highs).all(|(low, high)| low <= high) {
        return 23;
    }
    let shade = |price: f64| edges.partition_point(|edge| *edge <= price);
    for ((index, low), high) in plane.iter_mut().zip(lows).zip(highs) {
        let (low, high) = (shade(*low), shade(*high));
        *index = if low == high { low as u8 } else { HATCH };
    }
    0
}

struct Work {
    name: &'static str,
    edges: Vec<f64>,
    lows: Vec<f64>,
    highs: Vec<f64>,
}

/// Edges at 1, 2, 3 and so on; prices from 0 to one above the last.
fn work(name: &'static str, edges: usize, cells: usize, spread: f64, price: impl FnMut(usize) -> f64) -> Work {
    let top = (edges + 1) as f64;
    let lows: Vec<f64> = (0..cells).map(price).map(|part| part * top).collect();
    let highs = lows.iter().map(|low| low + spread).collect();
    Work { name, edges: (1..=edges).map(|edge| edge as f64).collect(), lows, highs }
}

fn workloads() -> Vec<Work> {
    let mut random = Random::new(1);
    let mut noise = |_: usize| random.below(1 << 40) as f64 / (1u64 << 40) as f64;
    let surface = |side: usize| {
        move |k: usize| {
            let (x, y) = ((k % side) as f64 / side as f64, (k / side) as f64 / side as f64);
            ((x - 0.5) * (x - 0.5) * 1.6 / (0.4 + y) + y * 0.2).min(1.0)
        }
    };
    vec![
        work("254 edges, random, 40,000 cells", 254, 40_000, 0.1, &mut noise),
        work("254 edges, surface, 40,000 cells", 254, 40_000, 0.1, surface(200)),
        work("254 edges, all hatch, 40,000 cells", 254, 40_000, 1.0, |k| noise(k) * 253.0 / 255.0),
        work("20 edges, random, 40,000 cells", 20, 40_000, 0.1, &mut noise),
        work("20 edges, surface, 40,000 cells", 20, 40_000, 0.1, surface(200)),
        work("1 edge, random, 40,000 cells", 1, 40_000, 0.1, &mut noise),
        work("1 edge, surface, 40,000 cells", 1, 40_000, 0.1, surface(200)),
        work("254 edges, random, 1,000,000 cells", 254, 1_000_000, 0.1, &mut noise),
        work("254 edges, surface, 1,000,000 cells", 254, 1_000_000, 0.1, surface(1000)),
    ]
}

/// Seconds of the library and of the plain Rust.
type Times = [f64; 2];

fn least(one: Times, other: Times) -> Times {
    [one[0].min(other[0]), one[1].min(other[1])]
}

const SIDES: [fn(&[f64], &[f64], &[f64], &mut [u8]) -> u32; 2] = [call::shade_quotes, plain];

/// The plane, after both sides have filled it alike.
fn painted(work: &Work) -> Vec<u8> {
    let planes = SIDES.map(|side| {
        let mut plane = vec![7; work.lows.len()];
        assert_eq!(side(&work.edges, &work.lows, &work.highs, &mut plane), 0, "{}: refused", work.name);
        plane
    });
    assert!(planes[0] == planes[1], "{}: the planes differ", work.name);
    let [plane, _] = planes;
    plane
}

fn measure(work: &Work, plane: &mut [u8], rounds: usize) -> Vec<Times> {
    let Work { edges, lows, highs, .. } = work;
    let mut round = |k: usize| {
        let mut times = [0.0; 2];
        // Each side comes first in every other round, since it finds in the caches what the one before has left there.
        for side in [k % 2, 1 - k % 2] {
            let start = Instant::now();
            black_box(SIDES[side](black_box(edges), black_box(lows), black_box(highs), black_box(&mut *plane)));
            times[side] = start.elapsed().as_secs_f64();
        }
        times
    };
    let part = |_| (0..rounds.div_ceil(PARTS)).map(&mut round).reduce(least).expect("a round");
    (0..PARTS).map(part).collect()
}

fn main() {
    let factor: usize = std::env::args().nth(1).and_then(|n| n.parse().ok()).unwrap_or(1);
    let name = std::env::args().nth(2).unwrap_or_default();
    println!("| workload | hatched | library ns a cell | plain ns a cell | library / plain | spread |");
    println!("|---|---|---|---|---|---|");
    let mut logs = Vec::new();
    for work in workloads().iter().filter(|work| work.name.contains(&name)) {
        let mut plane = painted(work);
        let cells = plane.len();
        let hatched = plane.iter().filter(|index| **index == HATCH).count();
        let parts = measure(work, &mut plane, factor * if cells > 100_000 { 50 } else { 1000 });
        let ratios = || parts.iter().map(|times| times[0] / times[1]);
        let (low, high) = (ratios().fold(f64::MAX, f64::min), ratios().fold(0.0, f64::max));
        let [library, plain] = parts.iter().copied().reduce(least).expect("a part");
        let nanoseconds = |time: f64| time * 1e9 / cells as f64;
        logs.push((library / plain).ln());
        println!(
            "| {} | {:.0} % | {:.2} | {:.2} | {:.2} | {low:.2} to {high:.2} |",
            work.name,
            100.0 * hatched as f64 / cells as f64,
            nanoseconds(library),
            nanoseconds(plain),
            library / plain
        );
    }
    println!("\ngeometric mean of library / plain: {:.2}", (logs.iter().sum::<f64>() / logs.len() as f64).exp());
}
