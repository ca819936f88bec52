//! Pictures written and read by one thread, and by two that each take half of them. The library has no state and
//! allocates nothing, so that on two cores two threads should take half the time.
//!
//! Both sides are the same code, with one thread or two. All threads are lent the same picture or file, and each has
//! memory of its own to be filled. A thread makes one call that does not count, and waits for the other; the time is
//! from the first start after that to the last end, so that starting the threads does not count. What each has filled is
//! compared after every round with what one call fills. Rounds are interleaved, and of each side the least time counts;
//! the spread is the least and the greatest ratio among five parts of the rounds.
//! The last column is the same ratio, in the same rounds, of a loop in registers. It is above 0.5 where the machine has
//! something else to do, or where two cores of a virtual machine share one.
//! `threads FACTOR NAME` has FACTOR times as many rounds, and only the workloads with NAME in their names.

#[path = "../growth/lent.rs"]
#[allow(dead_code)]
mod lent;
#[path = "../reading/model.rs"]
#[allow(dead_code)]
mod model;
#[path = "../speed/pictures.rs"]
#[allow(dead_code)]
mod pictures;
#[path = "../differential/port.rs"]
#[allow(dead_code)]
mod port;
#[path = "../reading/reader.rs"]
mod reader;

use lent::{Filled, Picture};
use pictures::{Cells, PAL8};
use std::hint::black_box;
use std::sync::Barrier;
use std::thread;
use std::time::Instant;

const PARTS: usize = 5;
/// About as many seconds as one thread takes for the pictures of a round.
const ROUND: f64 = 0.004;
const LOOPS: usize = 40;

/// Seconds of one thread and of two, for a picture and for a loop.
#[derive(Clone, Copy)]
struct Times {
    picture: [f64; 2],
    registers: [f64; 2],
}

impl Times {
    const NONE: Times = Times { picture: [f64::MAX; 2], registers: [f64::MAX; 2] };

    fn least(self, other: Times) -> Times {
        let least = |one: [f64; 2], other: [f64; 2]| [one[0].min(other[0]), one[1].min(other[1])];
        Times { picture: least(self.picture, other.picture), registers: least(self.registers, other.registers) }
    }

    fn ratio(self) -> f64 {
        self.picture[1] / self.picture[0]
    }
}

/// Eight chains of numbers, which nothing in memory holds back.
fn registers(result: &mut u64) {
    let mut numbers = black_box([1u64, 2, 3, 4, 5, 6, 7, 8]);
    for _ in 0..20_000 {
        numbers = numbers.map(|number| number.wrapping_mul(5).rotate_left(7) ^ 85);
    }
    *result = numbers.into_iter().fold(0, |sum, number| sum ^ number);
}

/// Seconds for each call, from the first start to the last end, with a thread for each of the memories.
fn run<M: Send>(memories: &mut [M], calls: usize, call: &(impl Fn(&mut M) + Sync)) -> f64 {
    let share = calls / memories.len();
    let barrier = Barrier::new(memories.len());
    let work = |own: &mut M| {
        call(own);
        barrier.wait();
        let start = Instant::now();
        (0..share).for_each(|_| call(black_box(&mut *own)));
        (start, Instant::now())
    };
    let times: Vec<(Instant, Instant)> = thread::scope(|scope| {
        let threads: Vec<_> = memories.iter_mut().map(|own| scope.spawn(|| work(own))).collect();
        threads.into_iter().map(|thread| thread.join().expect("a thread that ends")).collect()
    });
    let start = times.iter().map(|time| time.0).min().expect("a thread");
    let end = times.iter().map(|time| time.1).max().expect("a thread");
    (end - start).as_secs_f64() / calls as f64
}

fn measure<M: Clone + PartialEq + Send>(unfilled: M, rounds: usize, call: impl Fn(&mut M) + Sync) -> Vec<Times> {
    let mut filled = unfilled.clone();
    call(&mut filled);
    let once = (0..5).map(|_| run(&mut [unfilled.clone()], 1, &call)).fold(f64::MAX, f64::min);
    let pictures = 2 * (ROUND / 2.0 / once).ceil() as usize;
    let mut memories = [unfilled.clone(), unfilled.clone()];
    let mut round = |k: usize| {
        let mut times = Times::NONE;
        // Each side comes first in every other round.
        for threads in [1 + k % 2, 2 - k % 2] {
            memories.fill(unfilled.clone());
            times.picture[threads - 1] = run(&mut memories[..threads], pictures, &call);
            assert!(memories[..threads].iter().all(|own| *own == filled), "what {threads} threads filled differs");
            times.registers[threads - 1] = run(&mut [0, 0][..threads], LOOPS, &registers);
        }
        times
    };
    (0..PARTS).map(|_| (0..rounds.div_ceil(PARTS)).map(&mut round).fold(Times::NONE, Times::least)).collect()
}

fn print(name: &str, parts: &[Times], logs: &mut Vec<f64>) {
    let ratios = || parts.iter().map(|part| part.ratio());
    let (low, high) = (ratios().fold(f64::MAX, f64::min), ratios().fold(0.0, f64::max));
    let best = parts.iter().copied().fold(Times::NONE, Times::least);
    let [one, two] = best.picture.map(|seconds| seconds * 1e6);
    let [loop_one, loop_two] = best.registers;
    logs.push(best.ratio().ln());
    println!(
        "| {name} | {one:.2} | {two:.2} | {:.2} | {low:.2} to {high:.2} | {:.2} |",
        best.ratio(),
        loop_two / loop_one
    );
}

fn main() {
    let factor: usize = std::env::args().nth(1).and_then(|n| n.parse().ok()).unwrap_or(1);
    let part = std::env::args().nth(2).unwrap_or_default();
    println!(
        "| workload | one thread, µs a picture | two threads, µs a picture | two / one | spread | registers, two / one |"
    );
    println!("|---|---|---|---|---|---|");
    let mut logs = Vec::new();
    let rounds = factor * 400;
    for (name, format, side, cells, rle) in [
        ("Pal8 surface", PAL8, 200, Cells::Surface, true),
        ("Pal8 surface, no RLE", PAL8, 200, Cells::Surface, false),
        ("Rgba", 0, 200, Cells::Random, true),
        ("Pal8 surface", PAL8, 1000, Cells::Surface, true),
    ] {
        let picture = Picture::new(format, side, cells, rle);
        let file = picture.written();
        let name = format!("{name}, {side} x {side}");
        let (written, read) = (format!("{name}, written"), format!("{name}, read"));
        if written.contains(&part) {
            let write = |out: &mut Vec<u8>| assert_eq!(black_box(&picture).write(out).refusal, 0);
            print(&written, &measure(vec![0xA5; picture.bound()], rounds, write), &mut logs);
        }
        if read.contains(&part) {
            let read_file = |filled: &mut Filled| assert_eq!(filled.read(black_box(&file)), 0);
            print(&read, &measure(Filled::new(&file), rounds, read_file), &mut logs);
        }
    }
    println!("\ngeometric mean of two / one: {:.2}", (logs.iter().sum::<f64>() / logs.len() as f64).exp());
    println!("cores: {}", thread::available_parallelism().map_or(0, |cores| cores.get()));
}
