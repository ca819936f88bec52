//! Parts that try everything in a range.

use crate::compare::{Report, compare};
use crate::hand::{self, set_dword, set_word};
use crate::model;
use crate::pictures::{self, MODES, Mode};
use crate::random::Random;

/// All streams of up to seven bytes over five values, in three shapes at both depths.
pub fn short_streams(report: &mut Report, random: &mut Random) {
    const VALUES: [u8; 5] = [0, 1, 2, 3, 4];
    for (depth, compression) in [(8, 1), (4, 2)] {
        for (width, height) in [(3, 2), (4, 1), (1, 3)] {
            let mut head = vec![0; 58];
            head[..2].copy_from_slice(b"BM");
            for (at, value) in [(10, 58), (14, 40), (18, width), (22, height), (30, compression), (46, 1)] {
                set_dword(&mut head, at, value);
            }
            set_word(&mut head, 28, depth);
            for len in 0..=7 {
                for number in 0..VALUES.len().pow(len) {
                    let mut file = head.clone();
                    file.extend((0..len).map(|k| VALUES[number / VALUES.len().pow(k) % VALUES.len()]));
                    compare(report, random, "all short streams", &file, None, true);
                }
            }
        }
    }
}

/// A small file of every format in every mode, and hand-made ones that are read.
fn samples(random: &mut Random) -> Vec<Vec<u8>> {
    let mut samples = Vec::new();
    for format in 0..10 {
        for mode in MODES.into_iter().filter(|mode| *mode != Mode::Masks || format < 4) {
            samples.push(pictures::written_as(random, format, mode, 5, 2).file);
        }
    }
    while samples.len() < 80 {
        let file = hand::made(random);
        if file.len() < 300 && model::read_sizes(&file).refusal == 0 {
            samples.push(file);
        }
    }
    samples
}

/// Places and values that are wrong in some or all files; the mark and the depth are words.
const WRONG: [(usize, u32); 20] = [
    (0, 0x4D43),
    (14, 41),
    (18, 0),
    (18, 1 << 31),
    (22, 0),
    (22, u32::MAX),
    (28, 3),
    (28, 8),
    (28, 16),
    (30, 1),
    (30, 2),
    (30, 3),
    (30, 4),
    (30, 6),
    (46, 3),
    (46, 257),
    (54, 5),
    (58, 5),
    (62, 5),
    (66, 5),
];

/// A test of 17 is made where its fields lie whole: each wrong value, at every length of the file about its head.
pub fn wrong_fields(report: &mut Report, random: &mut Random) {
    for sample in samples(random) {
        for (at, value) in WRONG {
            let mut file = sample.clone();
            if matches!(at, 0 | 28) {
                set_word(&mut file, at, value as u16)
            } else {
                set_dword(&mut file, at, value)
            }
            for len in 0..=file.len().min(140) {
                compare(report, random, "all lengths with a wrong field", &file[..len], None, true);
            }
        }
    }
}

/// Every length of each sample, and every value of each byte of its head.
pub fn heads(report: &mut Report, random: &mut Random) {
    for sample in samples(random) {
        for len in 0..sample.len() {
            compare(report, random, "all lengths", &sample[..len], None, true);
        }
        let mut file = sample.clone();
        for at in 0..sample.len().min(138) {
            for value in 0..=255 {
                file[at] = value;
                compare(report, random, "all values of a byte of the head", &file, None, true);
            }
            file[at] = sample[at];
        }
    }
}
