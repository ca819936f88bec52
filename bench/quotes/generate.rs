//! Generated calls: scales, cells and lengths, good ones and ones with a fault. Prices are bits.

use crate::random::Random;
use crate::shades::{INFINITY, place};

pub struct Call {
    pub edges: Vec<u64>,
    pub lows: Vec<u64>,
    pub highs: Vec<u64>,
    /// Bytes of the lent plane.
    pub plane: usize,
}

const SIGN: u64 = 1 << 63;
const QUIET: u64 = 1 << 51;
const LEAST_NORMAL: u64 = 1 << 52;
const TOP: i64 = INFINITY as i64;

/// The first, the last or any of so many places.
fn somewhere(random: &mut Random, count: usize) -> usize {
    let any = random.below(count as u64) as usize;
    random.pick(&[0, any, count - 1])
}

// Prices.

fn signed(random: &mut Random, bits: u64) -> u64 {
    bits | if random.flag() { SIGN } else { 0 }
}

/// The bits at a place; 0 has two.
pub fn bits(random: &mut Random, place: i64) -> u64 {
    match place {
        0 => signed(random, 0),
        _ if place < 0 => SIGN | place.unsigned_abs(),
        _ => place as u64,
    }
}

/// Quiet or signalling, of either sign, with any other bits.
pub fn nan(random: &mut Random) -> u64 {
    let rest = random.below(QUIET);
    let kind = if random.flag() { QUIET | random.pick(&[0, rest]) } else { rest.max(1) };
    signed(random, INFINITY | kind)
}

/// A price of any kind.
pub fn price(random: &mut Random) -> u64 {
    let size = match random.below(10) {
        0 => random.pick(&[0, 1, LEAST_NORMAL - 1, LEAST_NORMAL, INFINITY - 1, INFINITY]),
        1 => random.below(LEAST_NORMAL),
        2 | 3 => random.below(INFINITY + 1),
        _ => (random.below(1_000_001) as f64 / 1000.0).to_bits(),
    };
    signed(random, size)
}

fn price_place(random: &mut Random) -> i64 {
    place(price(random)).expect("a price")
}

// Scales.

/// Places in rising order: neighbours or others at one distance, an even grid, or any.
fn rising(random: &mut Random, count: usize) -> Vec<i64> {
    let kind = random.below(4);
    let step = if kind == 0 { random.pick(&[1, 2, 3, 1000, 1 << 44]) } else { 0 };
    let first = price_place(random).clamp(-TOP, TOP - step * count as i64);
    let grid = random.pick(&[0.001, 0.25, 1.0, 3.0]);
    let mut places: Vec<i64> = Vec::new();
    while places.len() < count {
        let k = places.len() as i64;
        places.push(match kind {
            0 => first + step * k,
            1 => place((grid * (k - 100) as f64).to_bits()).expect("a number"),
            _ => price_place(random),
        });
        if kind > 1 && places.len() == count {
            places.sort_unstable();
            places.dedup();
        }
    }
    if random.one_in(4) && count > 1 {
        (places[0], places[count - 1]) = (-TOP, TOP);
    }
    places
}

pub fn scale(random: &mut Random, count: usize) -> Vec<u64> {
    rising(random, count).into_iter().map(|place| bits(random, place)).collect()
}

fn count_of_edges(random: &mut Random) -> usize {
    match random.below(3) {
        0 => random.pick(&[1, 2, 15, 16, 17, 31, 32, 33, 239, 240, 241, 253, 254]),
        1 => random.range(1, 20) as usize,
        _ => random.range(1, 254) as usize,
    }
}

/// Edges that are no scale: by their count, by a NaN, or because they do not rise.
fn no_scale(random: &mut Random) -> Vec<u64> {
    let count = count_of_edges(random).max(2);
    let at = somewhere(random, count - 1);
    let mut edges = scale(random, count);
    match random.below(8) {
        0 => edges.clear(),
        1 => edges = scale(random, 255),
        2 => {
            let count = random.range(256, 600) as usize;
            edges = scale(random, count);
        }
        3 => edges[at + random.below(2) as usize] = nan(random),
        4 => edges[at + 1] = edges[at],
        5 => edges.swap(at, at + 1),
        6 => {
            // -0 and 0 where they would rise, if they were two prices.
            let below = edges.iter().filter(|edge| place(**edge) < Some(0)).count();
            edges.retain(|edge| place(*edge) != Some(0));
            let zero = signed(random, 0);
            edges.splice(below..below, [zero, zero ^ SIGN]);
            edges.truncate(254);
        }
        _ => edges.reverse(),
    }
    edges
}

// Cells.

/// A place up to two steps from an edge, or any.
fn end(random: &mut Random, edges: &[u64]) -> i64 {
    let edge = if edges.is_empty() || random.one_in(4) { None } else { place(random.pick(edges)) };
    match edge {
        Some(edge) => (edge + random.below(5) as i64 - 2).clamp(-TOP, TOP),
        None => price_place(random),
    }
}

fn cell(random: &mut Random, edges: &[u64]) -> [u64; 2] {
    let one = end(random, edges);
    let other = match random.below(3) {
        0 => one,
        1 => (one + 1).min(TOP),
        _ => end(random, edges),
    };
    [one.min(other), one.max(other)].map(|place| bits(random, place))
}

/// A cell end that is a NaN, or a low above its high.
fn no_quote(random: &mut Random, cell: [u64; 2]) -> [u64; 2] {
    let [low, high] = cell;
    match random.below(5) {
        0 => [nan(random), high],
        1 => [low, nan(random)],
        2 => [nan(random), nan(random)],
        3 => {
            let high = place(high).expect("a price").min(TOP - 1);
            [high + 1, high].map(|place| bits(random, place))
        }
        _ => [price(random) & !SIGN | 1, SIGN | 1],
    }
}

/// As many as are needed or more; with a fault fewer.
fn length(random: &mut Random, need: usize, is_short: bool) -> usize {
    match random.below(4) {
        _ if is_short && need > 0 => somewhere(random, need),
        0 => need + random.range(1, 20) as usize,
        1 => need + 1,
        _ => need,
    }
}

/// Each of the three faults once in five calls.
pub fn call(random: &mut Random) -> Call {
    let [is_short, is_no_scale, is_no_quote] = [(); 3].map(|()| random.one_in(5));
    let count = count_of_edges(random);
    let edges = if is_no_scale { no_scale(random) } else { scale(random, count) };
    let cells = match random.below(10) {
        0 => 0,
        1 => 1,
        2 => random.range(40, 300),
        _ => random.range(2, 40),
    } as usize;
    let mut quotes: Vec<[u64; 2]> = (0..cells).map(|_| cell(random, &edges)).collect();
    if is_no_quote && cells > 0 {
        let at = somewhere(random, cells);
        quotes[at] = no_quote(random, quotes[at]);
    }
    let short = random.range(1, 3);
    let highs = length(random, cells, is_short && short & 1 != 0);
    let plane = length(random, cells, is_short && short & 2 != 0);
    let past: Vec<u64> = (cells..highs).map(|_| if random.one_in(3) { nan(random) } else { price(random) }).collect();
    Call {
        edges,
        lows: quotes.iter().map(|quote| quote[0]).collect(),
        highs: quotes.iter().map(|quote| quote[1]).chain(past).take(highs).collect(),
        plane,
    }
}
