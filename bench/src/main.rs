//! Times the archive beside the published Rust, in one process and on the same files.

mod check;
mod clock;
mod corpus;
mod data;
mod engines;
mod file;
mod finder;
mod measure;
mod options;
mod saved;
mod tables;
mod unpack;
mod writer;

use std::collections::HashMap;
use std::process::ExitCode;
use std::time::Duration;

use corpus::{Corpus, Files, Kind, Prepared, MOST_LISTS};
use engines::{our_run, rust_run, Rows};
use finder::FindRow;
use measure::{Shape, Times, WriteTimes, Writing, LISTS};
use options::{Loop, Options, Work};
use saved::Saved;
use tables::{CheckRow, RunRow, Timed, WriteRow};
use unpack::{Blocks, UnpackRow};

/// Random files on which the checks must agree before anything is timed.
const CASES: u64 = 5_000;

/// Random contents on which the writers must agree before they are timed.
const CONTENTS: u64 = 500;

/// Every run that is asked for. A round goes over all of them, so that a slow moment of the machine
/// meets every row the same.
fn time_runs(options: &Options, files: &mut Files) -> Result<Vec<RunRow>, String> {
    let wanted = |shape: &Shape| options.only.iter().all(|word| shape.words().contains(word));
    let shapes: Vec<Shape> = Shape::all().into_iter().filter(wanted).collect();
    let mut rows = Vec::new();
    for shape in shapes {
        let file = files.get(shape.lists, shape.kind);
        measure::same_check(&file.file)?;
        measure::same_rows(file, &shape)?;
        rows.push(RunRow { shape, postings: file.postings, times: Times::NONE });
    }
    for _ in 0..options.rounds {
        for row in &mut rows {
            let file = files.get(row.shape.lists, row.shape.kind);
            measure::runs(file, &row.shape, &mut row.times);
        }
    }
    share_checks(&mut rows);
    Ok(rows)
}

/// A ranking is a run less the check of its file. All rows of a file have its least check time, since
/// a slow check, taken from a run that was not slow, would make the ranking look too fast.
fn share_checks(rows: &mut [RunRow]) {
    let mut least: HashMap<(usize, Kind), (f64, f64)> = HashMap::new();
    for RunRow { shape, times, .. } in rows.iter() {
        let (ours, rusts) = least.entry((shape.lists, shape.kind)).or_insert((f64::MAX, f64::MAX));
        *ours = ours.min(times.our_check);
        *rusts = rusts.min(times.rust_check);
    }
    for RunRow { shape, times, .. } in rows {
        (times.our_check, times.rust_check) = least[&(shape.lists, shape.kind)];
    }
}

/// The check of each large file that was run on.
fn checks_of(rows: &[RunRow]) -> Vec<CheckRow> {
    let of_file =
        |lists| rows.iter().find(|row| (row.shape.lists, row.shape.kind) == (lists, Kind::Large));
    let of_row = |row: &RunRow| CheckRow {
        lists: row.shape.lists,
        postings: row.postings,
        times: row.times,
    };
    LISTS.into_iter().filter_map(of_file).map(of_row).collect()
}

fn time_growth(options: &Options) -> Result<Vec<CheckRow>, String> {
    if !options.only.is_empty() && options.only != ["check"] {
        return Ok(Vec::new());
    }
    let powers = if options.quick { 4..=6 } else { 4..=7 };
    let files: Vec<Prepared> =
        powers.map(|power| Corpus::of_postings(MOST_LISTS, 10usize.pow(power))).collect();
    let mut rows = Vec::new();
    for file in &files {
        measure::same_check(&file.file)?;
        rows.push(CheckRow { lists: file.lists, postings: file.postings, times: Times::NONE });
    }
    for _ in 0..options.rounds {
        for (file, row) in files.iter().zip(&mut rows) {
            measure::checks(file, &mut row.times);
        }
    }
    Ok(rows)
}

/// The writers, on files of the same shape as those of the growth.
fn time_writes(options: &Options) -> Result<Vec<WriteRow>, String> {
    if !options.only.is_empty() && options.only != ["write"] {
        return Ok(Vec::new());
    }
    measure::same_writes(CONTENTS)?;
    let powers: &[u32] = if options.quick { &[4, 6] } else { &[4, 6, 7] };
    let contents = |&power: &u32| corpus::contents(MOST_LISTS, 10usize.pow(power));
    let mut writings: Vec<Writing> =
        powers.iter().map(|power| Writing::compared(contents(power))).collect::<Result<_, _>>()?;
    let row = |writing: &Writing| WriteRow {
        lists: writing.contents.counts.len(),
        postings: writing.contents.docs.len(),
        times: WriteTimes::NONE,
    };
    let mut rows: Vec<WriteRow> = writings.iter().map(row).collect();
    for _ in 0..options.rounds {
        for (writing, row) in writings.iter_mut().zip(&mut rows) {
            writing.time(&mut row.times);
        }
    }
    Ok(rows)
}

/// The note finder, on files of the runs and where scores rise with the document.
fn time_finds(options: &Options, files: &mut Files) -> Result<Vec<FindRow>, String> {
    let find = "find".to_string();
    let words = |shape: &Shape| [vec![find.clone()], shape.words()].concat();
    let wanted = |shape: &Shape| options.only.iter().all(|word| words(shape).contains(word));
    if !options.only.is_empty() && !options.only.contains(&find) {
        return Ok(Vec::new());
    }
    let mut rows = Vec::new();
    for shape in finder::shapes().into_iter().filter(wanted) {
        rows.push(FindRow::compared(files.get(shape.lists, shape.kind), shape)?);
    }
    for _ in 0..options.rounds {
        for row in &mut rows {
            row.time(files.get(row.shape.lists, row.shape.kind));
        }
    }
    Ok(rows)
}

/// Unpacking at each width.
fn time_unpacking(options: &Options) -> Result<Vec<UnpackRow>, String> {
    if !options.only.is_empty() && options.only != ["unpack"] {
        return Ok(Vec::new());
    }
    let blocks = Blocks::new();
    blocks.same_values()?;
    let mut rows = unpack::rows();
    for round in 0..8 * options.rounds as usize {
        rows.iter_mut().for_each(|row| blocks.time(row, round));
    }
    Ok(rows)
}

/// Every row that is asked for.
fn time_all(options: &Options) -> Result<Timed, String> {
    let mut files = Files::new();
    let runs = time_runs(options, &mut files)?;
    let finds = time_finds(options, &mut files)?;
    let checks = checks_of(&runs);
    let writes = time_writes(options)?;
    Ok(Timed { unpacking: time_unpacking(options)?, checks, writes, runs, finds })
}

fn print_tables(options: &Options) -> Result<(), String> {
    let earlier = options.against.as_deref().map(Saved::read).transpose()?;
    measure::same_refusals(CASES)?;
    let timed = time_all(options)?;
    if let Some(path) = &options.save {
        saved::save(path, &timed.runs)?;
    }
    let growth = time_growth(options)?;
    if growth.is_empty() && timed.is_empty() {
        return Err("no row has all of these words".to_string());
    }
    if !timed.unpacking.is_empty() {
        tables::unpacking(&timed.unpacking);
    }
    if !timed.checks.is_empty() {
        tables::checks("The check of the files below", &timed.checks);
    }
    if !growth.is_empty() {
        tables::checks("The check, by the size of the file", &growth);
    }
    if !timed.writes.is_empty() {
        tables::writes(&timed.writes);
    }
    if !timed.runs.is_empty() {
        tables::runs(&timed.runs, earlier.as_ref());
        tables::small(&timed.runs);
        tables::growth(&timed.runs);
    }
    if !timed.finds.is_empty() {
        tables::finds(&timed.finds);
    }
    tables::targets(&timed);
    Ok(())
}

fn run_again(prepared: &Prepared, wanted: &Loop) {
    let (case, mut rows) = (wanted.shape.case(), Rows::new());
    let (begun, mut runs) = (clock::now(), 0u32);
    while clock::now() - begun < Duration::from_secs(wanted.seconds) {
        if wanted.ours {
            our_run(&prepared.file, &case, &mut rows);
        } else {
            rust_run(&prepared.source, &case, &mut rows);
        }
        runs += 1;
    }
    let spent = clock::now() - begun;
    println!("{runs} runs, {:.3} ms each", spent.as_secs_f64() * 1e3 / f64::from(runs));
}

fn main() -> ExitCode {
    let words: Vec<String> = std::env::args().skip(1).collect();
    let done = match options::read(&words) {
        Some(Work::Tables(options)) => print_tables(&options),
        Some(Work::Loop(wanted)) => {
            run_again(&Corpus::new().prepare(wanted.shape.lists), &wanted);
            Ok(())
        }
        None => Err(options::USAGE.to_string()),
    };
    match done {
        Ok(()) => ExitCode::SUCCESS,
        Err(text) => {
            eprintln!("{text}");
            ExitCode::FAILURE
        }
    }
}
