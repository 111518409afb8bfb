//! The finders side by side, and a tally that shows which cases the order of notes decides.

use std::collections::BTreeMap;
use std::fmt;

use crate::case::{Row, STEPPED};
use crate::compare::{check_aim, mode_name, same};
use crate::finder::{above_start, find_over, first, Find, Found};
use crate::finds::Aimed;
use crate::plain::{self, NoteFile};

/// What a case gave, for the tally.
pub struct Compared {
    pub found: Found,
    /// By name, what this case would show if a finder had it wrong.
    shown: Vec<&'static str>,
}

impl Compared {
    pub fn shows(&self, name: &str) -> bool {
        self.shown.contains(&name)
    }
}

pub const TIE: &str = "a tie at the last note";

/// Of the matches with the last note's score some are no notes: the document decides.
fn tie_at_the_end(k: u32, notes: &[Row], matches: &[Row]) -> bool {
    let Some(last) = notes.last().filter(|_| notes.len() == k as usize) else {
        return false;
    };
    let of_last = |rows: &[Row]| rows.iter().filter(|row| row.score == last.score).count();
    of_last(matches) > of_last(notes)
}

/// Where notes were found: what their order, their number and the start decide.
fn shown_by_notes(find: &Find, file: &NoteFile, found: &Found) -> Vec<&'static str> {
    let (run, Found { notes, reports, .. }) = (&find.run, found);
    let (k, matches) = (run.k as usize, above_start(run, file));
    let at_start = || plain::matches(run, &file.lists).iter().any(|&(_, sum)| sum == run.start);
    let shown = [
        ("k matches or more", matches.len() >= k),
        ("some matches, fewer than k", !matches.is_empty() && matches.len() < k),
        (TIE, tie_at_the_end(run.k, notes, &matches)),
        ("equal scores among the notes", notes.windows(2).any(|two| two[0].score == two[1].score)),
        ("notes are not the first k reports", !reports.starts_with(notes)),
        ("more reports than notes", reports.len() > notes.len()),
        ("a match at the start", at_start()),
        ("other notes than of all matches", *notes != first(run.k, matches)),
    ];
    shown.into_iter().filter(|(_, holds)| *holds).map(|(name, _)| name).collect()
}

/// What the answer shows; stepped, the notes of all matches are also those of the reports.
fn shown(find: &Find, file: &NoteFile, found: &Found) -> Result<Vec<&'static str>, String> {
    let run = &find.run;
    match found.code {
        0 if run.scoring == STEPPED => {
            let of_reports = first(run.k, found.reports.clone());
            same("notes of all matches and of the reports", &found.notes, &of_reports)?;
            Ok(shown_by_notes(find, file, found))
        }
        0 => Ok(shown_by_notes(find, file, found)),
        14 if plain::run_over(run, file).code == 12 => Ok(vec!["14 where the run gives 12"]),
        _ => Ok(Vec::new()),
    }
}

/// Compares one find on every engine. An error is a difference that should not be.
pub fn compare(aimed: &Aimed) -> Result<Compared, String> {
    let find = &aimed.find;
    let file = plain::read_file(&find.run.file);
    let found = match &file {
        Err(code) => Found::refused(*code),
        Ok(file) => find_over(find, file).map_err(|text| format!("published: {text}"))?,
    };
    check_aim(&aimed.aim, found.code)?;
    #[cfg(feature = "archive")]
    crate::archive::compare_find(find, &found)?;
    let shown = file.map_or(Ok(Vec::new()), |file| shown(find, &file, &found))?;
    Ok(Compared { found, shown })
}

/// Finds of one mode and scoring.
#[derive(Default)]
struct Finds {
    done: u64,
    full: u64,
    reports: u64,
    notes: u64,
}

#[derive(Default)]
pub struct Tally {
    cases: u64,
    codes: BTreeMap<u32, u64>,
    finds: BTreeMap<(u32, u32), Finds>,
    /// Finds that were not refused, by k.
    ks: BTreeMap<u32, u64>,
    shown: BTreeMap<&'static str, [u64; 2]>,
    names: BTreeMap<&'static str, u64>,
    /// Cases of more than one fault.
    pairs: u64,
}

/// The values of k that are counted by themselves; all others count as 0.
const KS: [u32; 4] = [1, 2, 10, 64];

impl Tally {
    pub fn add(&mut self, aimed: &Aimed, compared: &Compared) {
        let (run, found) = (&aimed.find.run, &compared.found);
        self.cases += 1;
        *self.codes.entry(found.code).or_default() += 1;
        self.pairs += u64::from(aimed.names.len() > 1);
        for name in &aimed.names {
            *self.names.entry(name).or_default() += 1;
        }
        for name in &compared.shown {
            self.shown.entry(name).or_default()[run.scoring as usize] += 1;
        }
        if !matches!(found.code, 0 | 12) {
            return;
        }
        let k = KS.into_iter().find(|&k| k == run.k).unwrap_or(0);
        *self.ks.entry(k).or_default() += 1;
        let finds = self.finds.entry((run.mode, run.scoring)).or_default();
        finds.done += u64::from(found.code == 0);
        finds.full += u64::from(found.code == 12);
        finds.reports += found.reports.len() as u64;
        finds.notes += found.notes.len() as u64;
    }
}

impl fmt::Display for Tally {
    fn fmt(&self, f: &mut fmt::Formatter) -> fmt::Result {
        writeln!(f, "cases {}", self.cases)?;
        for (code, count) in &self.codes {
            writeln!(f, "returned {code}: {count}")?;
        }
        let titles = ["mode", "scoring", "0", "12", "reports", "notes"];
        let [mode, scoring, done, full, reports, notes] = titles;
        writeln!(f, "{mode:<13} {scoring:<10} {done:>8} {full:>8} {reports:>10} {notes:>9}")?;
        for ((mode, scoring), Finds { done, full, reports, notes }) in &self.finds {
            let (mode, scoring) = (mode_name(*mode), ["unstepped", "stepped"][*scoring as usize]);
            writeln!(f, "{mode:<13} {scoring:<10} {done:>8} {full:>8} {reports:>10} {notes:>9}")?;
        }
        for (k, count) in &self.ks {
            let k = if *k == 0 { "other".to_string() } else { k.to_string() };
            writeln!(f, "k {k}: {count}")?;
        }
        for (name, [unstepped, stepped]) in &self.shown {
            writeln!(f, "{name}: {stepped} stepped, {unstepped} unstepped")?;
        }
        writeln!(f, "cases of two faults or more: {}", self.pairs)?;
        for (name, count) in &self.names {
            writeln!(f, "aimed at {name}: {count}")?;
        }
        Ok(())
    }
}
