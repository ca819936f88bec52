//! Parts that try everything in a range.

use crate::compare::{Report, compare};
use crate::generate::{self, Call};
use crate::random::Random;
use crate::shades::place;

/// NaN, -infinity, -1, -0, 0, the least price above it, 1, infinity.
const SPECIAL: [f64; 8] = [f64::NAN, f64::NEG_INFINITY, -1.0, -0.0, 0.0, f64::from_bits(1), 1.0, f64::INFINITY];

/// Up to three edges over the special prices, with a cell of each two of them.
pub fn special_prices(report: &mut Report, random: &mut Random) {
    let values = SPECIAL.map(f64::to_bits);
    for count in 0..=3 {
        for number in 0..values.len().pow(count) {
            let edges: Vec<u64> = (0..count).map(|k| values[number / values.len().pow(k) % values.len()]).collect();
            for pair in 0..values.len().pow(2) {
                let (lows, highs) = (vec![values[pair / values.len()]], vec![values[pair % values.len()]]);
                compare(report, random, &Call { edges: edges.clone(), lows, highs, plane: 1 });
            }
        }
    }
}

/// Up to three lows with up to four highs and bytes, all cells good or one of them not, on scales and on edges that are
/// none.
pub fn lengths(report: &mut Report, random: &mut Random) {
    let mut all_edges: Vec<Vec<u64>> = [1, 2, 254, 255].map(|count| generate::scale(random, count)).to_vec();
    all_edges.extend([vec![], vec![generate::nan(random)]]);
    for edges in &all_edges {
        for number in 0..4 * 5 * 5 {
            let (cells, highs, plane) = (number / 25, number / 5 % 5, number % 5);
            for bad in 0..=cells {
                let price = |k: usize| if k == bad { f64::NAN } else { k as f64 }.to_bits();
                let (lows, highs) = ((0..cells).map(price).collect(), (0..highs).map(price).collect());
                compare(report, random, &Call { edges: edges.clone(), lows, highs, plane });
            }
        }
    }
}

/// Each count of edges on four scales: of the prices a step below each edge, at it and a step above it, cells of each
/// with itself and with the three behind it.
pub fn every_edge(report: &mut Report, random: &mut Random) {
    for count in 1..=254 {
        for _ in 0..4 {
            let edges = generate::scale(random, count);
            let places = edges.iter().map(|edge| place(*edge).expect("a price"));
            let about: Vec<i64> = places.flat_map(|at| [at - 1, at, at + 1]).collect();
            let ends = about.iter().enumerate().flat_map(|(k, low)| {
                about[k..].iter().take(4).filter(move |high| low <= high).map(|high| [*low, *high])
            });
            let cells: Vec<[u64; 2]> = ends
                .map(|cell| cell.map(|at| generate::bits(random, at)))
                .filter(|cell| cell.iter().all(|bits| place(*bits).is_some()))
                .collect();
            let end = |at: usize| cells.iter().map(|cell| cell[at]).collect();
            compare(report, random, &Call { edges, lows: end(0), highs: end(1), plane: cells.len() });
        }
    }
}
