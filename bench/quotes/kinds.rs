//! What a call has, by its lists alone: the names that are counted, and those that must be met.

use crate::generate::Call;
use crate::painted::FILES;
use crate::shades::{is_no_quote, is_no_scale, is_short, place};

/// A group, a name in it, and the answers that calls of that name must have had.
pub type Needed = (&'static str, &'static str, &'static [u32]);
type Met = Vec<(&'static str, &'static str)>;

const LISTS: [&str; 4] = ["an edge", "a low", "a high", "a high past the lows"];
const PRICES: [&str; 12] = [
    "quiet NaN",
    "quiet NaN, negative",
    "signalling NaN",
    "signalling NaN, negative",
    "infinity",
    "-infinity",
    "0",
    "-0",
    "subnormal",
    "subnormal, negative",
    "normal",
    "normal, negative",
];
const NANS: usize = 4;
const PLACES: [&str; 5] =
    ["at an edge", "a step below an edge", "a step above an edge", "below all edges", "above all edges"];
const COUNTS: [&str; 6] = ["none", "1", "2 to 253", "254", "255", "over 255"];
/// Of edges k and k + 1.
const NEIGHBOURS: [&str; 5] = ["equal", "-0 and 0", "falling", "a step apart", "further apart"];
const CELLS: [&str; 3] = ["none", "1", "more"];
/// Of the low and the high of a cell.
const ENDS: [&str; 7] = [
    "low above high",
    "low a step above high",
    "one price",
    "low 0, high -0",
    "low -0, high 0",
    "high a step above low",
    "further apart",
];
const LENGTHS: [&str; 6] = ["as many", "one more", "more", "one fewer", "fewer", "none"];
/// By which of 15, 22 and 23 apply, as bits.
const APPLYING: [(&str, u32); 8] = [
    ("none", 0),
    ("15", 15),
    ("22", 22),
    ("15, 22", 15),
    ("23", 23),
    ("15, 23", 15),
    ("22, 23", 22),
    ("15, 22, 23", 15),
];

/// All that must be met.
pub fn needed() -> Vec<Needed> {
    const ACCEPTED: &[u32] = &[0];
    let mut all = Vec::new();
    let mut add = |group, names: &[&'static str], answers| {
        all.extend(names.iter().map(|name| (group, *name, answers)));
    };
    for (list, refused) in LISTS.into_iter().zip([&[22][..], &[23], &[23], ACCEPTED]) {
        add(list, &PRICES[..NANS], refused);
        add(list, &PRICES[NANS..], ACCEPTED);
    }
    add(LISTS[1], &PLACES, ACCEPTED);
    add(LISTS[2], &PLACES, ACCEPTED);
    add("edges", &COUNTS[1..4], ACCEPTED);
    add("edges", &[COUNTS[0], COUNTS[4], COUNTS[5]], &[22]);
    add("neighbouring edges", &NEIGHBOURS[..3], &[22]);
    add("neighbouring edges", &NEIGHBOURS[3..], ACCEPTED);
    add("cells", &CELLS[..1], &[0, 22]);
    add("cells", &CELLS[1..], ACCEPTED);
    add("ends of a cell", &ENDS[..2], &[23]);
    add("ends of a cell", &ENDS[2..], ACCEPTED);
    for list in ["highs for lows", "plane for lows"] {
        add(list, &LENGTHS[..3], ACCEPTED);
        add(list, &LENGTHS[3..], &[15]);
    }
    add("files", &FILES, ACCEPTED);
    for (names, answer) in &APPLYING {
        add("numbers that apply", &[*names], std::slice::from_ref(answer));
    }
    all
}

fn price(bits: u64) -> usize {
    let (sign, exponent, fraction) = ((bits >> 63) as usize, bits >> 52 & 0x7FF, bits & ((1 << 52) - 1));
    let kind = match (exponent, fraction) {
        (0x7FF, 0) => 2,
        (0x7FF, _) if fraction >> 51 == 1 => 0,
        (0x7FF, _) => 1,
        (0, 0) => 3,
        (0, _) => 4,
        _ => 5,
    };
    2 * kind + sign
}

/// How many steps the second of two prices is above the first.
fn apart(pair: [u64; 2]) -> Option<i64> {
    Some(place(pair[1])?.saturating_sub(place(pair[0])?))
}

fn neighbours(pair: [u64; 2]) -> Option<usize> {
    Some(match apart(pair)? {
        0 if pair[0] == pair[1] => 0,
        0 => 1,
        ..0 => 2,
        1 => 3,
        _ => 4,
    })
}

fn ends(cell: [u64; 2]) -> Option<usize> {
    Some(match apart(cell)? {
        ..-1 => 0,
        -1 => 1,
        0 if cell[0] == cell[1] => 2,
        0 if cell[0] == 0 => 3,
        0 => 4,
        1 => 5,
        _ => 6,
    })
}

fn length(given: usize, need: usize) -> usize {
    match given {
        _ if given >= need => (given - need).min(2),
        _ if given + 1 == need => 3,
        0 => 5,
        _ => 4,
    }
}

/// Each name once that a mark points to.
fn add(met: &mut Met, group: &'static str, names: &[&'static str], marks: impl IntoIterator<Item = usize>) {
    let seen = marks.into_iter().fold(0, |seen, mark| seen | 1 << mark);
    met.extend(names.iter().enumerate().filter(|(k, _)| seen >> k & 1 == 1).map(|(_, name)| (group, *name)));
}

/// Every name of a call.
pub fn of(call: &Call) -> Met {
    let Call { edges, lows, highs, plane } = call;
    let cells: Vec<[u64; 2]> = lows.iter().zip(highs).map(|(low, high)| [*low, *high]).collect();
    let (of_cells, past) = highs.split_at(cells.len());
    let met = &mut Met::new();
    for (list, prices) in LISTS.into_iter().zip([edges, lows, of_cells, past]) {
        add(met, list, &PRICES, prices.iter().map(|bits| price(*bits)));
    }
    let is_no_scale = is_no_scale(edges);
    if !is_no_scale {
        let places: Vec<i64> = edges.iter().filter_map(|edge| place(*edge)).collect();
        let is_edge = |at: i64| places.binary_search(&at).is_ok();
        for (list, prices) in [(LISTS[1], &lows[..]), (LISTS[2], of_cells)] {
            let marks = prices.iter().filter_map(|price| place(*price)).flat_map(|at| {
                let (is_below, is_above) = (at < places[0], at > places[places.len() - 1]);
                let are = [is_edge(at), is_edge(at + 1), is_edge(at - 1), is_below, is_above];
                (0..PLACES.len()).filter(move |k| are[*k])
            });
            add(met, list, &PLACES, marks);
        }
    }
    let count = match edges.len() {
        few @ 0..=1 => few,
        2..=253 => 2,
        many => (many - 251).min(5),
    };
    add(met, "edges", &COUNTS, [count]);
    add(met, "neighbouring edges", &NEIGHBOURS, edges.windows(2).filter_map(|pair| neighbours([pair[0], pair[1]])));
    add(met, "cells", &CELLS, [lows.len().min(2)]);
    add(met, "ends of a cell", &ENDS, cells.iter().filter_map(|cell| ends(*cell)));
    add(met, "highs for lows", &LENGTHS, [length(highs.len(), lows.len())]);
    add(met, "plane for lows", &LENGTHS, [length(*plane, lows.len())]);
    let is_short = is_short(lows.len(), highs.len(), *plane);
    let has_no_quote = cells.iter().any(|[low, high]| is_no_quote(*low, *high));
    let applying = usize::from(is_short) + 2 * usize::from(is_no_scale) + 4 * usize::from(has_no_quote);
    met.push(("numbers that apply", APPLYING[applying].0));
    std::mem::take(met)
}
