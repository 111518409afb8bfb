//! `write SEED N`: N random contents on every writer, then the tally.
//! `write FILE`: one case that it wrote out.

use std::process::ExitCode;

use oracle::command::{keep, kept, run};
use oracle::contents::Contents;
use oracle::generate::Aim;
use oracle::write_compare::{compare, Tally};
use oracle::writes::{case, Aimed};

fn compare_all(seed: u64, count: u64) -> Result<(), String> {
    let mut tally = Tally::default();
    for number in 0..count {
        let aimed = case(seed, number);
        let path = format!("write-{seed}-{number}.contents");
        let written = compare(&aimed)
            .map_err(|text| keep(&path, &text, &aimed.contents.to_text(), "oracle/write"))?;
        tally.add(&aimed, &written);
    }
    print!("{tally}");
    Ok(())
}

fn replay(path: &str) -> Result<(), String> {
    let contents = Contents::from_text(&kept(path)?)?;
    let written = compare(&Aimed { contents, aim: Aim::Open, names: Vec::new() })?;
    println!("returned {}, length {}", written.code, written.length);
    let hex: String = written.bytes.iter().map(|byte| format!("{byte:02x}")).collect();
    println!("{hex}");
    Ok(())
}

fn main() -> ExitCode {
    run("write SEED N, or write FILE", compare_all, replay)
}
