//! Damaged and undamaged files through the library's reader and the model. README.md says what is compared.

mod compare;
mod damage;
mod exhaustive;
mod fence;
mod hand;
mod model;
mod pictures;
#[path = "../differential/port.rs"]
#[allow(dead_code)]
mod port;
#[path = "../differential/random.rs"]
mod random;
mod reader;
mod row;

use compare::{ANSWERS, Report, compare};
use random::Random;
use std::time::Instant;

fn usage() -> ! {
    eprintln!("reading [CALLS [SEED]]");
    std::process::exit(2)
}

/// A file of the writer, whole in one call of eight, or one made by hand, or stray bytes; then most often damaged.
fn one(report: &mut Report, random: &mut Random) {
    let (origin, mut file, written) = match random.below(16) {
        0 => ("stray bytes", hand::stray(random), None),
        1..=6 => ("made by hand", hand::made(random), None),
        _ => {
            let written = pictures::written(random);
            ("written", written.file.clone(), Some(written))
        }
    };
    let kind = match random.below(8) {
        0 => "none",
        1 => {
            for _ in 0..random.range(2, 4) {
                damage::once(random, &mut file, damage::any_file);
            }
            "several"
        }
        _ => damage::once(random, &mut file, damage::any_file),
    };
    let is_exact = random.flag();
    let reading = compare(report, random, kind, &file, written.as_ref().filter(|_| kind == "none"), is_exact);
    report.count("answers by origin", origin, reading.refusal);
}

fn timed(what: &str, report: &mut Report, part: impl FnOnce(&mut Report)) {
    let (start, before) = (Instant::now(), report.calls);
    part(report);
    let calls = report.calls - before;
    println!("{what}: {calls} calls, {:.1} s, differences so far {}", start.elapsed().as_secs_f64(), report.found);
}

/// Kinds of damage and answers that no call had, of a file or of a row.
fn not_met(report: &Report) -> Vec<String> {
    let met = |name: &str| report.counts.keys().any(|(_, known)| *known == name);
    let mut missing: Vec<String> = damage::kinds().into_iter().filter(|kind| !met(kind)).map(String::from).collect();
    for group in ["answers by damage", "one row, answers by damage"] {
        let of_group = || report.counts.iter().filter(|((of, _), _)| *of == group);
        for (column, number) in ANSWERS.iter().enumerate() {
            if of_group().all(|(_, counts)| counts[column] == 0) {
                missing.push(format!("{group}: {number}"));
            }
        }
    }
    missing
}

fn main() {
    let numbers: Option<Vec<u64>> = std::env::args().skip(1).map(|word| word.parse().ok()).collect();
    let (calls, seed) = match numbers.as_deref() {
        Some([]) => (1_000_000, 1),
        Some([calls]) => (*calls, 1),
        Some([calls, seed]) => (*calls, *seed),
        _ => usage(),
    };
    println!("seed {seed}, {calls} generated calls");
    let start = Instant::now();
    let (mut report, mut random) = (Report::new(), Random::new(seed));
    timed("all short streams", &mut report, |report| exhaustive::short_streams(report, &mut random));
    timed("all lengths, all bytes of heads", &mut report, |report| exhaustive::heads(report, &mut random));
    timed("wrong fields at all lengths", &mut report, |report| exhaustive::wrong_fields(report, &mut random));
    timed("generated", &mut report, |report| (0..calls).for_each(|_| one(report, &mut random)));
    report.print();
    println!("\ntime: {:.1} s", start.elapsed().as_secs_f64());
    println!("files of the writer read back to what was handed in: {}", report.returned);
    println!("rows read alone: {}, and from their starts as in a whole reading: {}", report.rows, report.rows_of_whole);
    let missing = not_met(&report);
    for name in &missing {
        println!("NOT MET: {name}");
    }
    println!("seed {seed}, calls {}, differences {}", report.calls, report.found);
    if report.found > 0 || !missing.is_empty() {
        std::process::exit(1);
    }
}
