//! `compare SEED N`: N random cases on every engine, then the tally.
//! `compare small`: every prefix and every one-byte change of the paper's small file.

use std::process::ExitCode;

use oracle::command::{keep, run};
use oracle::compare::{compare, Tally};
use oracle::generate::{case, Aim, Aimed};
use oracle::small;

fn compare_all(cases: impl Iterator<Item = (String, Aimed)>) -> Result<(), String> {
    let mut tally = Tally::default();
    for (name, aimed) in cases {
        let path = format!("{name}.case");
        let compared = compare(&aimed.case, &aimed.aim)
            .map_err(|text| keep(&path, &text, &aimed.case.to_text(), "oracle/replay"))?;
        tally.add(&aimed, &compared);
    }
    print!("{tally}");
    Ok(())
}

fn small_cases() -> impl Iterator<Item = (String, Aimed)> {
    small::changes().enumerate().flat_map(|(number, file)| {
        small::runs(file).into_iter().enumerate().map(move |(run, case)| {
            (format!("small-{number}-{run}"), Aimed { case, aim: Aim::Open, names: Vec::new() })
        })
    })
}

fn of_seed(seed: u64, count: u64) -> Result<(), String> {
    compare_all((0..count).map(|at| (format!("compare-{seed}-{at}"), case(seed, at))))
}

fn main() -> ExitCode {
    run("compare SEED N, or compare small", of_seed, |word| match word {
        "small" => compare_all(small_cases()),
        _ => Err(format!("{word}: compare knows small alone")),
    })
}
