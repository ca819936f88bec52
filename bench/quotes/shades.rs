//! The model: document 02, A.6, in its own words, on the bits of the prices. No price is ever compared as a float.

const SIGN: u64 = 1 << 63;
pub const INFINITY: u64 = 0x7FF0_0000_0000_0000;

/// A price's place in their order, from its bits; nothing for a NaN. -0 and 0 have one place, neighbours are one apart.
pub fn place(bits: u64) -> Option<i64> {
    let size = bits & !SIGN;
    let signed = if bits & SIGN == 0 { size as i64 } else { -(size as i64) };
    if size > INFINITY { None } else { Some(signed) }
}

/// "A price's shade is the count of edges at or below it".
fn shade(edges: &[u64], price: u64) -> usize {
    edges.iter().filter(|edge| place(**edge) <= place(price)).count()
}

/// "A cell whose ends have the same shade gets it; any other gets index 255, the hatch".
fn index(edges: &[u64], low: u64, high: u64) -> u8 {
    let shades = [shade(edges, low), shade(edges, high)];
    if shades[0] == shades[1] { shades[0] as u8 } else { 255 }
}

/// "highs or a lent plane shorter than the lows give 15".
pub fn is_short(lows: usize, highs: usize, plane: usize) -> bool {
    highs < lows || plane < lows
}

/// "22, edge count outside 1 to 254, an edge not a number, or edges not strictly rising".
pub fn is_no_scale(edges: &[u64]) -> bool {
    let has_nan = edges.iter().any(|edge| place(*edge).is_none());
    let is_rising = edges.windows(2).all(|pair| place(pair[0]) < place(pair[1]));
    !(1..=254).contains(&edges.len()) || has_nan || !is_rising
}

/// "23, a cell end not a number or low above high".
pub fn is_no_quote(low: u64, high: u64) -> bool {
    match (place(low), place(high)) {
        (Some(low), Some(high)) => low > high,
        _ => true,
    }
}

/// The call: 0, or the first number that applies.
pub fn shade_quotes(edges: &[u64], lows: &[u64], highs: &[u64], plane: &mut [u8]) -> u32 {
    if is_short(lows.len(), highs.len(), plane.len()) {
        return 15;
    }
    if is_no_scale(edges) {
        return 22;
    }
    if (0..lows.len()).any(|k| is_no_quote(lows[k], highs[k])) {
        return 23;
    }
    for k in 0..lows.len() {
        plane[k] = index(edges, lows[k], highs[k]);
    }
    0
}
