//! One call on both sides.

use crate::call;
use crate::fence::{self, Fence};
use crate::generate::Call;
use crate::kinds;
use crate::random::Random;
use crate::shades;
use std::collections::BTreeMap;
use std::sync::atomic::Ordering;

/// The answers, in the order of the columns.
pub const ANSWERS: [u32; 4] = [0, 15, 22, 23];
const GUARD: usize = 9;

pub struct Report {
    pub calls: u64,
    pub found: u64,
    /// Cells of accepted calls, by their index.
    pub indices: [u64; 256],
    /// By group and name, how many calls were to have each answer.
    pub counts: BTreeMap<(&'static str, &'static str), [u64; 4]>,
    first: Option<String>,
    fences: [Fence; 3],
}

impl Report {
    pub fn new() -> Self {
        Self {
            calls: 0,
            found: 0,
            indices: [0; 256],
            counts: BTreeMap::new(),
            first: None,
            fences: [(); 3].map(|()| Fence::new(16)),
        }
    }

    pub fn count(&mut self, group: &'static str, name: &'static str, answer: u32) {
        let column = ANSWERS.iter().position(|number| *number == answer).expect("an answer of the model");
        self.counts.entry((group, name)).or_default()[column] += 1;
    }

    pub fn difference(&mut self, text: impl FnOnce() -> String) {
        self.found += 1;
        if self.first.is_none() {
            self.first = Some(text());
        }
    }

    pub fn print(&self) {
        let mut group = "";
        for ((of, name), counts) in &self.counts {
            if *of != group {
                group = of;
                println!("\n{group:30} {:>10} {:>10} {:>10} {:>10}", 0, 15, 22, 23);
            }
            let [accepted, short, scale, quote] = counts;
            println!("  {name:28} {accepted:10} {short:10} {scale:10} {quote:10}");
        }
        if let Some(text) = &self.first {
            println!("\nFIRST DIFFERENCE {text}");
        }
    }
}

/// The prices up to a page that may not be read.
fn lend<'a>(fence: &'a mut Fence, prices: &[u64]) -> &'a [f64] {
    let bytes: Vec<u8> = prices.iter().flat_map(|price| price.to_ne_bytes()).collect();
    let (before, doubles, behind) = unsafe { fence.lend(&bytes).align_to() };
    assert!(before.is_empty() && behind.is_empty(), "doubles end at the page's end");
    doubles
}

fn is_same(lent: &[f64], prices: &[u64]) -> bool {
    lent.iter().map(|price| price.to_bits()).eq(prices.iter().copied())
}

/// The cells of an accepted call.
pub struct Planes {
    pub model: Vec<u8>,
    pub library: Vec<u8>,
}

/// Both sides, on a plane of random bytes with guards before and behind it.
pub fn compare(report: &mut Report, random: &mut Random, call: &Call) -> Option<Planes> {
    fence::CALL.store(report.calls, Ordering::Relaxed);
    let Call { edges, lows, highs, plane } = call;
    let lent = GUARD..GUARD + plane;
    let mut expected = random.bytes(plane + 2 * GUARD);
    let mut given = expected.clone();
    let answer = shades::shade_quotes(edges, lows, highs, &mut expected[lent.clone()]);

    let [first, second, third] = &mut report.fences;
    let (scale, low, high) = (lend(first, edges), lend(second, lows), lend(third, highs));
    let number = call::shade_quotes(scale, low, high, &mut given[lent]);
    let mut notes = Vec::new();
    if number != answer {
        notes.push(format!("model {answer}, library {number}"));
    }
    if let Some(at) = (0..given.len()).find(|k| given[*k] != expected[*k]) {
        let at_cell = at as isize - GUARD as isize;
        notes.push(format!("plane at {at_cell} of {plane}: model {}, library {}", expected[at], given[at]));
    }
    if !(is_same(scale, edges) && is_same(low, lows) && is_same(high, highs)) {
        notes.push("a list has changed".into());
    }

    if !notes.is_empty() {
        let at = report.calls;
        report.difference(|| {
            format!("in call {at}\n  {}\n  edges {edges:x?}\n  lows {lows:x?}\n  highs {highs:x?}", notes.join("\n  "))
        });
    }
    report.calls += 1;
    for (group, name) in kinds::of(call) {
        report.count(group, name, answer);
    }
    if answer != 0 {
        return None;
    }
    let [model, library] = [expected, given].map(|plane| plane[GUARD..][..lows.len()].to_vec());
    for index in &model {
        report.indices[usize::from(*index)] += 1;
    }
    Some(Planes { model, library })
}
