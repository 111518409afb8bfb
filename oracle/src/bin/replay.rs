//! `replay FILE`: one written case on every engine, with what each answers.

use std::process::ExitCode;

use oracle::case::{Case, Outcome};
use oracle::command::{ended, kept};
use oracle::compare::compare;
use oracle::engine::{self, Source};
use oracle::generate::Aim;
use oracle::plain;

fn print(engine: &str, outcome: &Outcome) {
    println!("{engine}: code {}, count {}", outcome.code, outcome.count);
    for row in &outcome.rows {
        println!("  {} {:08x} {}", row.document, row.score, f32::from_bits(row.score));
    }
}

fn replay(case: &Case) -> Result<(), String> {
    let plain = plain::run(case);
    print("plain", &plain);
    if plain.code == 0 || plain.code == 12 {
        let skipped = engine::run(&Source::read(&case.file), case)?;
        print("published", &skipped.outcome);
        let loads = skipped.loads.iter().map(|load| format!("{}:{}", load.position, load.block));
        println!("loads (place in the query:block): {}", loads.collect::<Vec<_>>().join(" "));
    }
    compare(case, &Aim::Open).map(|_| ())
}

fn main() -> ExitCode {
    let Some(path) = std::env::args().nth(1) else {
        eprintln!("replay FILE");
        return ExitCode::FAILURE;
    };
    ended(kept(&path).and_then(|text| Case::from_text(&text)).and_then(|case| replay(&case)))
}
