//! Row starts: the writing call with them against the one without, and one row read against the whole file.

use crate::{BYTES, Chosen, PAL8, PARTS, Work, plane, port, reader, timed};
use port::{Lent, Options, Settings, Source};
use std::hint::black_box;

struct Times {
    without: f64,
    with: f64,
    whole: f64,
    row: f64,
}

impl Times {
    const NONE: Times = Times { without: f64::MAX, with: f64::MAX, whole: f64::MAX, row: f64::MAX };

    fn least(self, other: Times) -> Times {
        Times {
            without: self.without.min(other.without),
            with: self.with.min(other.with),
            whole: self.whole.min(other.whole),
            row: self.row.min(other.row),
        }
    }
}

fn options(chosen: &Chosen) -> Options {
    let mut options = Options {
        top_down: chosen.top_down,
        rle: !chosen.no_rle,
        minimal_palette: chosen.minimal,
        embed_icc: true,
        has_calibrated: chosen.calibrated,
        rendering_intent: 4,
        ..Options::default()
    };
    if let Some((bpp, masks)) = chosen.masks {
        (options.has_bitfields, options.bitfields_bpp, options.bitfields_masks) = (true, bpp, masks);
    }
    options
}

/// Files and rows are compared first. The sides take turns in each round, and of each the least time counts; the spread
/// is that of with / without among the parts.
fn measure(w: &Work, rounds: usize) -> (Times, f64, f64) {
    let (plane, icc) = (plane(w), [9u8; 500]);
    let palette: Vec<u8> = (0..=255).flat_map(|k| [k, 255 - k, 128, 255]).collect();
    let (width, height, stride) = (w.width as u32, w.height as u32, (w.width * BYTES[w.format]) as u64);
    let has_palette = w.format >= PAL8;
    let has_icc = w.chosen.profile;
    let source = Source { format: w.format as u32, width, height, has_palette, has_icc, has_linked_icc: false, stride };
    let options = options(&w.chosen);
    let lent = Lent { plane: &plane, palette: &palette, icc: &icc, linked_icc: &[] };
    let bound = port::size_bound(source, options, lent).bytes as usize;
    let (mut out, mut other, mut starts) = (vec![0; bound], vec![0; bound], vec![0; w.height]);
    let answer = port::encode_into(source, options, lent, &mut other, 0);
    let given = port::encode_with_starts(source, options, Settings::default(), lent, &mut out, 0, &mut starts);
    assert!(answer.refusal == 0 && answer == given && out == other, "{}: the files differ", w.name);
    let file = other[..answer.bytes as usize].to_vec();

    let sizes = reader::read_sizes(&file);
    let (mut head, mut table) = (vec![0; sizes.head_bytes as usize], vec![0; sizes.table_bytes as usize]);
    let mut cells = vec![0; sizes.cell_numbers as usize];
    let mut row = vec![0; cells.len() / w.height];
    assert_eq!(reader::read(&file, &mut head, &mut table, &mut cells).refusal, 0);
    for (k, start) in starts.iter().enumerate() {
        let y = if w.chosen.top_down { k } else { w.height - 1 - k };
        assert_eq!(port::read_row(&file, *start, &mut row), 0);
        assert!(row == cells[y * row.len()..][..row.len()], "{}: row {y} differs", w.name);
    }
    let middle = starts[w.height / 2];
    let mut with_first = false;
    let mut round = || {
        let mut times = Times::NONE;
        with_first = !with_first;
        for with in [with_first, !with_first] {
            if with {
                times.with = timed(|| {
                    let (out, starts) = (black_box(&mut out), black_box(&mut starts));
                    black_box(port::encode_with_starts(source, options, Settings::default(), lent, out, 0, starts));
                });
            } else {
                times.without = timed(|| {
                    black_box(port::encode_into(source, options, lent, black_box(&mut other), 0));
                });
            }
        }
        times.whole = timed(|| {
            black_box(reader::read(black_box(&file), &mut head, &mut table, black_box(&mut cells)));
        });
        // A row takes less than the clock can tell, so there are a hundred.
        times.row = timed(|| {
            (0..100).for_each(|_| {
                black_box(port::read_row(black_box(&file), black_box(middle), black_box(&mut row)));
            })
        }) / 100.0;
        times
    };
    let (mut best, mut low, mut high) = (Times::NONE, f64::MAX, 0f64);
    for _ in 0..PARTS {
        let part = (0..rounds.div_ceil(PARTS)).fold(Times::NONE, |best, _| best.least(round()));
        let ratio = part.with / part.without;
        (low, high) = (low.min(ratio), high.max(ratio));
        best = best.least(part);
    }
    (best, low, high)
}

/// The second table.
pub fn table<'a>(factor: usize, works: impl Iterator<Item = &'a Work>) {
    println!(
        "\n| workload | without starts µs | with starts µs | with / without | spread | whole file µs | one row µs | whole / row |"
    );
    println!("|---|---|---|---|---|---|---|---|");
    let mut logs = Vec::new();
    for w in works {
        let rounds = factor * if w.width * w.height > 1_000_000 { 10 } else { 100 };
        let (t, low, high) = measure(w, rounds);
        let ratio = t.with / t.without;
        logs.push(ratio.ln());
        let [without, with, whole, row] = [t.without, t.with, t.whole, t.row].map(|seconds| seconds * 1e6);
        println!(
            "| {} | {without:.1} | {with:.1} | {ratio:.2} | {low:.2} to {high:.2} | {whole:.1} | {row:.3} | {:.0} |",
            w.name,
            whole / row
        );
    }
    println!("\ngeometric mean of with / without: {:.2}", (logs.iter().sum::<f64>() / logs.len() as f64).exp());
}
