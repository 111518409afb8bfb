//! The engines side by side, and a tally of what was compared.

use std::collections::BTreeMap;
use std::fmt;

use crate::case::{Case, Outcome, Row, INTERSECTION, SINGLE, STEPPED, UNION};
use crate::engine::{self, Posting, Skipped, Source};
use crate::generate::{Aim, Aimed};
use crate::plain::{self, NoteFile};

/// How a skipping run stands to the plain scan.
#[derive(Clone, Copy, Debug, PartialEq, Eq)]
pub enum Relation {
    Same,
    /// The same documents, some score's bits differ.
    OtherBits,
    OtherDocuments,
}

/// What a case gave, for the tally.
pub struct Compared {
    pub plain: Outcome,
    /// None where no engine ran.
    pub relation: Option<Relation>,
    pub loads: usize,
}

fn relation(a: &Outcome, b: &Outcome) -> Relation {
    let documents = |rows: &[Row]| rows.iter().map(|row| row.document).collect::<Vec<u32>>();
    if a == b {
        Relation::Same
    } else if (a.code, documents(&a.rows)) == (b.code, documents(&b.rows)) {
        Relation::OtherBits
    } else {
        Relation::OtherDocuments
    }
}

pub(crate) fn same<T: PartialEq + fmt::Debug>(what: &str, a: &[T], b: &[T]) -> Result<(), String> {
    if a == b {
        return Ok(());
    }
    let place = a.iter().zip(b).take_while(|(a, b)| a == b).count();
    let (a_one, b_one) = (a.get(place), b.get(place));
    Err(format!(
        "{what}: {} and {} long, first apart at {place}: {a_one:?} and {b_one:?}",
        a.len(),
        b.len()
    ))
}

/// Rows, counts and codes of two outcomes.
pub fn same_outcome(what: &str, a: &Outcome, b: &Outcome) -> Result<(), String> {
    if (a.code, a.count) != (b.code, b.count) {
        let (a, b) = ((a.code, a.count), (b.code, b.count));
        return Err(format!("{what}: code and count {a:?} and {b:?}"));
    }
    same(what, &a.rows, &b.rows)
}

/// Decoded postings, scores and bounds of every list, published against plain.
pub(crate) fn same_lists(source: &Source, file: &NoteFile) -> Result<(), String> {
    for (number, list) in file.lists.iter().enumerate() {
        let plain: Vec<Posting> = (0..list.documents.len())
            .map(|i| Posting {
                document: list.documents[i],
                frequency: list.frequencies[i],
                score: list.scores[i].to_bits(),
            })
            .collect();
        same(&format!("postings of list {number}"), &engine::postings(source, number), &plain)?;
        let own = std::iter::once(&list.bound);
        let bounds: Vec<u32> = own.chain(&list.block_bounds).map(|bound| bound.to_bits()).collect();
        same(&format!("bounds of list {number}"), &engine::bounds(source, number), &bounds)?;
    }
    Ok(())
}

/// Unstepped, only sums of at most two scores ignore order; the intersection also subtracts.
fn must_be_same(case: &Case, file: &NoteFile) -> bool {
    let holds = |&&list: &&u32| !file.lists[list as usize].documents.is_empty();
    match case.mode {
        _ if case.scoring == STEPPED => true,
        SINGLE => true,
        UNION => case.query.iter().filter(holds).count() <= 2,
        _ => false,
    }
}

pub(crate) fn check_aim(aim: &Aim, code: u32) -> Result<(), String> {
    let met = match aim {
        Aim::Runs => code == 0 || code == 12,
        Aim::Refused(number) => code == *number,
        Aim::Open => true,
    };
    met.then_some(()).ok_or_else(|| format!("aimed at {aim:?}, the plain program gives {code}"))
}

/// The skipping run of the published files, held against the plain scan's outcome.
fn skipping(case: &Case, file: &NoteFile, plain: &Outcome) -> Result<(Skipped, Relation), String> {
    let source = Source::read(&case.file);
    same_lists(&source, file)?;
    let skipped = engine::run(&source, case).map_err(|text| format!("published: {text}"))?;
    let relation = relation(&skipped.outcome, plain);
    if must_be_same(case, file) {
        same_outcome("published and plain", &skipped.outcome, plain)?;
    }
    Ok((skipped, relation))
}

/// Compares one case on every engine. An error is a difference that should not be.
pub fn compare(case: &Case, aim: &Aim) -> Result<Compared, String> {
    let file = plain::read_file(&case.file);
    let plain = match &file {
        Err(code) => Outcome::refused(*code),
        Ok(file) => plain::run_over(case, file),
    };
    check_aim(aim, plain.code)?;
    let skipped = match &file {
        Ok(file) if plain.code == 0 || plain.code == 12 => Some(skipping(case, file, &plain)?),
        _ => None,
    };
    #[cfg(feature = "archive")]
    crate::archive::compare(case, &plain, skipped.as_ref().map(|(skipped, _)| &skipped.outcome))?;
    Ok(Compared {
        plain,
        relation: skipped.as_ref().map(|&(_, relation)| relation),
        loads: skipped.map_or(0, |(skipped, _)| skipped.loads.len()),
    })
}

/// Runs of one mode, scoring and rule.
#[derive(Default)]
struct Runs {
    done: u64,
    full: u64,
    rows: u64,
    loads: u64,
    other_bits: u64,
    other_documents: u64,
}

#[derive(Default)]
pub struct Tally {
    cases: u64,
    codes: BTreeMap<u32, u64>,
    names: BTreeMap<&'static str, u64>,
    runs: BTreeMap<(u32, u32, u32), Runs>,
}

impl Tally {
    pub fn add(&mut self, aimed: &Aimed, compared: &Compared) {
        let (case, plain) = (&aimed.case, &compared.plain);
        self.cases += 1;
        *self.codes.entry(plain.code).or_default() += 1;
        for name in &aimed.names {
            *self.names.entry(name).or_default() += 1;
        }
        let Some(relation) = compared.relation else {
            return;
        };
        let runs = self.runs.entry((case.mode, case.scoring, case.rule)).or_default();
        runs.done += u64::from(plain.code == 0);
        runs.full += u64::from(plain.code == 12);
        runs.rows += plain.rows.len() as u64;
        runs.loads += compared.loads as u64;
        runs.other_bits += u64::from(relation == Relation::OtherBits);
        runs.other_documents += u64::from(relation == Relation::OtherDocuments);
    }
}

pub(crate) fn mode_name(mode: u32) -> &'static str {
    match mode {
        UNION => "union",
        INTERSECTION => "intersection",
        _ => "single",
    }
}

impl fmt::Display for Tally {
    fn fmt(&self, f: &mut fmt::Formatter) -> fmt::Result {
        writeln!(f, "cases {}", self.cases)?;
        for (code, count) in &self.codes {
            writeln!(f, "returned {code}: {count}")?;
        }
        writeln!(
            f,
            "{:<13} {:<10} {:<7} {:>8} {:>8} {:>10} {:>9} {:>11} {:>10}",
            "mode", "scoring", "rule", "0", "12", "rows", "loads", "other bits", "documents"
        )?;
        for ((mode, scoring, rule), runs) in &self.runs {
            writeln!(
                f,
                "{:<13} {:<10} {:<7} {:>8} {:>8} {:>10} {:>9} {:>11} {:>10}",
                mode_name(*mode),
                ["unstepped", "stepped"][*scoring as usize % 2],
                ["script", "best k"][*rule as usize % 2],
                runs.done,
                runs.full,
                runs.rows,
                runs.loads,
                runs.other_bits,
                runs.other_documents
            )?;
        }
        for (name, count) in &self.names {
            writeln!(f, "aimed at {name}: {count}")?;
        }
        Ok(())
    }
}
