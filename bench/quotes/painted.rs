//! A plane that the library painted, written by its writer and read back by its reader.

use crate::compare::{Report, compare};
use crate::generate::Call;
use crate::port::{self, Lent, Options, Source};
use crate::random::Random;
use crate::reader;

const PAL8: u32 = 6;
const RLE8: u32 = 7;
pub const FILES: [&str; 3] = ["Indexed8", "Indexed8, top-down", "Rle8"];

/// A surface of prices that rise by steps, each cell with a spread.
fn surface(random: &mut Random, width: usize, height: usize) -> Call {
    let (across, down) = (random.range(1, 12) as usize, random.range(1, 6) as usize);
    let (first, step) = (random.below(200) as f64 - 100.0, random.pick(&[0.25, 1.0, 7.0]));
    let spread = random.pick(&[0.0, 0.125, 0.5, 3.0]);
    let low = |k: usize| first + (k % width / across + k / width / down) as f64 / 4.0;
    let cells = width * height;
    Call {
        edges: (0..random.range(1, 254)).map(|k| (first + (k as f64 - 3.0) * step).to_bits()).collect(),
        lows: (0..cells).map(|k| low(k).to_bits()).collect(),
        highs: (0..cells).map(|k| (low(k) + spread).to_bits()).collect(),
        plane: cells,
    }
}

/// Each cell that the file shows is the model's index.
pub fn painted(report: &mut Report, random: &mut Random) {
    let (width, height) = (random.range(1, 120) as usize, random.range(1, 40) as usize);
    let call = surface(random, width, height);
    let planes = compare(report, random, &call).expect("a surface on a scale");
    let options = Options { rle: random.flag(), top_down: random.one_in(4), ..Options::default() };
    let source = Source {
        format: PAL8,
        width: width as u32,
        height: height as u32,
        has_palette: true,
        stride: width as u64,
        ..Source::default()
    };
    let palette = random.bytes(1024);
    let lent = Lent { plane: &planes.library, palette: &palette, icc: &[], linked_icc: &[] };
    let mut file = vec![0; port::size_bound(source, options, lent).bytes as usize];
    let answer = port::encode_into(source, options, lent, &mut file, 0);
    let (mut head, mut table, mut cells) = ([0; 54], [0; 1024], vec![u32::MAX; width * height]);
    let reading = reader::read(&file[..answer.bytes as usize], &mut head, &mut table, &mut cells);
    if reading.refusal != 0 || !cells.iter().copied().eq(planes.model.iter().map(|index| u32::from(*index))) {
        report.difference(|| format!("in a file of {width} x {height}: {answer:?}, {reading:?}"));
    }
    let kind = if answer.format == RLE8 { 2 } else { usize::from(options.top_down) };
    report.count("files", FILES[kind], 0);
}
