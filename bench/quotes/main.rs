//! Grids painted from prices by the library and by a model. README.md says what is compared.

mod call;
mod compare;
mod exhaustive;
#[path = "../reading/fence.rs"]
mod fence;
mod generate;
mod kinds;
#[path = "../reading/model.rs"]
#[allow(dead_code)]
mod model;
mod painted;
#[path = "../differential/port.rs"]
#[allow(dead_code)]
mod port;
#[path = "../differential/random.rs"]
mod random;
#[path = "../reading/reader.rs"]
#[allow(dead_code)]
mod reader;
mod shades;

use compare::{ANSWERS, Report, compare};
use random::Random;
use std::time::Instant;

/// A painted file for so many generated calls.
const CALLS_A_FILE: u64 = 50;

fn usage() -> ! {
    eprintln!("quotes [CALLS [SEED]]");
    std::process::exit(2)
}

fn cells(report: &Report) -> u64 {
    report.indices.iter().sum()
}

fn timed(what: &str, report: &mut Report, part: impl FnOnce(&mut Report)) {
    let (start, calls, painted) = (Instant::now(), report.calls, cells(report));
    part(report);
    let (calls, painted, seconds) = (report.calls - calls, cells(report) - painted, start.elapsed().as_secs_f64());
    println!("{what}: {calls} calls, {painted} cells, {seconds:.1} s, differences so far {}", report.found);
}

/// What should have been met and was not.
fn not_met(report: &Report) -> Vec<String> {
    let is_met = |group, name, answer: &u32| {
        let column = ANSWERS.iter().position(|number| number == answer).expect("an answer of the model");
        report.counts.get(&(group, name)).is_some_and(|counts| counts[column] > 0)
    };
    let needed = kinds::needed().into_iter().flat_map(|(group, name, answers)| {
        answers
            .iter()
            .filter(move |answer| !is_met(group, name, answer))
            .map(move |answer| format!("{group}, {name}: {answer}"))
    });
    let indices = (0..256).filter(|index| report.indices[*index] == 0).map(|index| format!("index {index}"));
    needed.chain(indices).collect()
}

fn main() {
    let numbers: Option<Vec<u64>> = std::env::args().skip(1).map(|word| word.parse().ok()).collect();
    let (calls, seed) = match numbers.as_deref() {
        Some([]) => (200_000, 1),
        Some([calls]) => (*calls, 1),
        Some([calls, seed]) => (*calls, *seed),
        _ => usage(),
    };
    println!("seed {seed}, {calls} generated calls");
    let (mut report, mut random) = (Report::new(), Random::new(seed));
    timed("special prices", &mut report, |report| exhaustive::special_prices(report, &mut random));
    timed("lengths", &mut report, |report| exhaustive::lengths(report, &mut random));
    timed("about every edge", &mut report, |report| exhaustive::every_edge(report, &mut random));
    timed("generated", &mut report, |report| {
        for _ in 0..calls {
            let call = generate::call(&mut random);
            compare(report, &mut random, &call);
        }
    });
    timed("to a file and back", &mut report, |report| {
        (0..calls.div_ceil(CALLS_A_FILE)).for_each(|_| painted::painted(report, &mut random));
    });
    report.print();
    let missing = not_met(&report);
    println!();
    for name in &missing {
        println!("NOT MET: {name}");
    }
    println!("hatched cells {}, all cells {}", report.indices[255], cells(&report));
    println!("seed {seed}, calls {}, differences {}", report.calls, report.found);
    if report.found > 0 || !missing.is_empty() {
        std::process::exit(1);
    }
}
