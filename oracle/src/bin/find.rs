//! `find SEED N`: N random finds on every engine, then the tally.
//! `find FILE`: one case that it wrote out.

use std::process::ExitCode;

use oracle::case::Row;
use oracle::command::{keep, kept, run};
use oracle::find_compare::{compare, Tally};
use oracle::finder::Find;
use oracle::finds::{case, Aimed};
use oracle::generate::Aim;

fn compare_all(seed: u64, count: u64) -> Result<(), String> {
    let mut tally = Tally::default();
    for number in 0..count {
        let aimed = case(seed, number);
        let path = format!("find-{seed}-{number}.find");
        let compared = compare(&aimed)
            .map_err(|text| keep(&path, &text, &aimed.find.to_text(), "oracle/find"))?;
        tally.add(&aimed, &compared);
    }
    print!("{tally}");
    Ok(())
}

fn print(what: &str, rows: &[Row]) {
    println!("{what}: {}", rows.len());
    for row in rows {
        println!("  {} {:08x} {}", row.document, row.score, f32::from_bits(row.score));
    }
}

fn replay(path: &str) -> Result<(), String> {
    let find = Find::from_text(&kept(path)?)?;
    let found = compare(&Aimed { find, aim: Aim::Open, names: Vec::new() })?.found;
    println!("returned {}", found.code);
    print("reports", &found.reports);
    print("notes", &found.notes);
    Ok(())
}

fn main() -> ExitCode {
    run("find SEED N, or find FILE", compare_all, replay)
}
