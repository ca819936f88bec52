//! The original encoder and the port on the same cases. README.md says what is compared.

mod agreed;
mod case;
mod compare;
mod counts;
mod exhaustive;
mod generate;
mod limit;
mod original;
mod port;
mod random;
mod row;
mod rule;
mod sparse;
mod starts;

use compare::Report;
use counts::Answer;
use random::Random;
use std::time::Instant;

/// The sparse memory of the large pictures.
const SPARSE_LEN: usize = 64 << 30;

struct Arguments {
    seed: u64,
    cases: u64,
    limit: bool,
}

fn usage() -> ! {
    eprintln!("differential [--seed N] [--cases N] [--limit]");
    std::process::exit(2)
}

fn arguments() -> Arguments {
    let mut arguments = Arguments { seed: 1, cases: 500_000, limit: false };
    let mut words = std::env::args().skip(1);
    while let Some(word) = words.next() {
        let mut number = || words.next().and_then(|n| n.parse().ok()).unwrap_or_else(|| usage());
        match word.as_str() {
            "--seed" => arguments.seed = number(),
            "--cases" => arguments.cases = number(),
            "--limit" => arguments.limit = true,
            _ => usage(),
        }
    }
    arguments
}

/// One ordinary case, with refused settings too, and of an accepted one copies with a fault.
fn ordinary(random: &mut Random, report: &mut Report) {
    let mut case = generate::ordinary(random);
    case.settings = generate::settings(random, &case, compare::stream(&case));
    let answer = compare::compare(&case, &[], report);
    if random.one_in(8) {
        compare::refused_settings(&case, &[], random, report);
    }
    let Answer::File(_) = answer else { return };
    if random.one_in(4) {
        compare::port_alone(&case, random, report);
    }
    if random.one_in(3) {
        let copy = generate::faulted(random, &case);
        compare::compare(&copy, &[], report);
    }
}

fn generated(arguments: &Arguments, report: &mut Report) {
    let mut random = Random::new(arguments.seed);
    let zeros = sparse::Sparse::new(SPARSE_LEN);
    let start = report.counts.total();
    while report.counts.total() - start < arguments.cases {
        if random.one_in(16) {
            let case = generate::large(&mut random, SPARSE_LEN as u64);
            compare::compare(&case, zeros.bytes(), report);
            if random.one_in(8) {
                compare::refused_settings(&case, zeros.bytes(), &mut random, report);
            }
        } else {
            ordinary(&mut random, report);
        }
    }
}

fn timed(what: &str, report: &mut Report, part: impl FnOnce(&mut Report)) {
    let (start, before) = (Instant::now(), report.counts.total());
    part(report);
    let cases = report.counts.total() - before;
    println!("{what}: {cases} cases, {:.1} s, differences so far {}", start.elapsed().as_secs_f64(), report.found);
}

fn main() {
    let arguments = arguments();
    println!("seed {}, {} generated cases", arguments.seed, arguments.cases);
    let start = Instant::now();
    let mut report = Report::new();
    timed("all short rows", &mut report, exhaustive::short_rows);
    timed("long rows", &mut report, exhaustive::long_rows);
    timed("all samples at all channel widths", &mut report, exhaustive::samples);
    timed("all pairs of runs at depth 16", &mut report, exhaustive::pairs);
    timed("mask checks", &mut report, exhaustive::mask_checks);
    timed("all limits of small pictures", &mut report, exhaustive::limits);
    timed("the panel", &mut report, exhaustive::panel);
    timed("pairs of resolutions", &mut report, exhaustive::resolutions);
    timed("generated", &mut report, |report| generated(&arguments, report));
    if arguments.limit {
        timed("the true limit", &mut report, limit::all);
    }
    println!("time: {:.1} s", start.elapsed().as_secs_f64());
    report.counts.print();
    report.print();
    let gaps = report.counts.gaps();
    for gap in &gaps {
        println!("NOT MET, OR MET AND NOT POSSIBLE: {gap}");
    }
    println!("combinations that exist and were not met: {}", gaps.len());
    if report.found > 0 || !gaps.is_empty() {
        std::process::exit(1);
    }
}
