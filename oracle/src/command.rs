//! What the commands have in common: two numbers or a file as their words, a case kept for later, and
//! how a comparison ends.

use std::process::ExitCode;

/// No difference, or what differs.
pub fn ended(compared: Result<(), String>) -> ExitCode {
    match compared {
        Ok(()) => {
            println!("no unexpected difference");
            ExitCode::SUCCESS
        }
        Err(text) => {
            println!("{text}");
            ExitCode::FAILURE
        }
    }
}

/// Keeps a case in which engines differ, with the command that compares it again.
pub fn keep(path: &str, difference: &str, case: &str, again: &str) -> String {
    match std::fs::write(path, format!("# {difference}\n{case}")) {
        Ok(()) => format!("{difference}\nagain with: {again} {path}"),
        Err(error) => format!("{difference}\n{path} could not be written: {error}"),
    }
}

/// The text of a case that was kept.
pub fn kept(path: &str) -> Result<String, String> {
    std::fs::read_to_string(path).map_err(|error| format!("{path}: {error}"))
}

/// `SEED N` compares all, `FILE` one.
pub fn run(
    usage: &str,
    all: impl FnOnce(u64, u64) -> Result<(), String>,
    one: impl FnOnce(&str) -> Result<(), String>,
) -> ExitCode {
    let words: Vec<String> = std::env::args().skip(1).collect();
    let numbers: Option<Vec<u64>> = words.iter().map(|word| word.parse().ok()).collect();
    match (numbers.as_deref(), &words[..]) {
        (Some(&[seed, count]), _) => ended(all(seed, count)),
        (None, [path]) => ended(one(path)),
        _ => {
            eprintln!("{usage}");
            ExitCode::FAILURE
        }
    }
}
