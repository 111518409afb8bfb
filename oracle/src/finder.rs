//! Order 4 of the later requests as a program: the k best notes of a query.
//!
//! Written from the order alone. The run below it is the published one.

use crate::case::{Case, Row, STEPPED};
use crate::engine::{self, Source};
use crate::plain::{self, NoteFile};

/// A find: its run by best k, whose row lengths are those of the report rows, and the lengths of the
/// note rows.
#[derive(Clone, Debug, Default)]
pub struct Find {
    pub run: Case,
    pub documents_len: usize,
    pub scores_len: usize,
}

/// What a find returns and leaves in its rows; the count is the number of notes.
#[derive(Clone, Debug, PartialEq, Eq)]
pub struct Found {
    pub code: u32,
    pub reports: Vec<Row>,
    pub notes: Vec<Row>,
}

impl Found {
    pub fn refused(code: u32) -> Found {
        Found { code, reports: Vec::new(), notes: Vec::new() }
    }
}

const NOTE_DOCUMENTS: &str = "note_documents_len";
const NOTE_SCORES: &str = "note_scores_len";

impl Find {
    /// Both buffers count as long as the shorter.
    pub fn note_rows(&self) -> usize {
        self.documents_len.min(self.scores_len)
    }

    /// The run's lines, then one for each length of the note rows.
    pub fn to_text(&self) -> String {
        let run = self.run.to_text();
        format!("{run}{NOTE_DOCUMENTS} {}\n{NOTE_SCORES} {}\n", self.documents_len, self.scores_len)
    }

    pub fn from_text(text: &str) -> Result<Find, String> {
        let of_notes = |line: &&str| line.starts_with("note_");
        let length = |name: &str| {
            let line = text.lines().find_map(|line| line.strip_prefix(name));
            let length = line.and_then(|rest| rest.trim().parse().ok());
            length.ok_or_else(|| format!("cannot read the line of {name:?}"))
        };
        let run: Vec<&str> = text.lines().filter(|line| !of_notes(line)).collect();
        Ok(Find {
            run: Case::from_text(&run.join("\n"))?,
            documents_len: length(NOTE_DOCUMENTS)?,
            scores_len: length(NOTE_SCORES)?,
        })
    }
}

/// The first k by falling score, then rising document, or all if fewer. No score is a NaN or below 0.
pub fn first(k: u32, mut notes: Vec<Row>) -> Vec<Row> {
    let score = |note: &Row| f32::from_bits(note.score);
    notes.sort_by(|a, b| score(b).total_cmp(&score(a)).then(a.document.cmp(&b.document)));
    notes.truncate(k as usize);
    notes
}

/// All matching documents above the start, upward.
pub fn above_start(run: &Case, file: &NoteFile) -> Vec<Row> {
    let matches = plain::matches(run, &file.lists).into_iter();
    let above = matches.filter(|&(_, score)| score > run.start);
    above.map(|(document, score)| Row { document, score: score.to_bits() }).collect()
}

/// A find over an accepted file: 10 and 11, then 14, then what the run gives. An error is a panic of
/// the published code.
pub fn find_over(find: &Find, file: &NoteFile) -> Result<Found, String> {
    let run = &find.run;
    let refusal = plain::run_refusal(run, file);
    if refusal != 0 {
        return Ok(Found::refused(refusal));
    }
    if find.note_rows() < run.k as usize {
        return Ok(Found::refused(14));
    }
    let outcome = engine::run(&Source::read(&run.file), run)?.outcome;
    let notes = match (outcome.code, run.scoring) {
        (12, _) => Vec::new(),
        (_, STEPPED) => first(run.k, above_start(run, file)),
        _ => first(run.k, outcome.rows.clone()),
    };
    Ok(Found { code: outcome.code, reports: outcome.rows, notes })
}

/// A whole find: the table of refusals, then the notes.
pub fn find(find: &Find) -> Result<Found, String> {
    match plain::read_file(&find.run.file) {
        Err(code) => Ok(Found::refused(code)),
        Ok(file) => find_over(find, &file),
    }
}
