//! A safe wrapper over the proved ranking of a note file, and over its proved writer.
//!
//! The archive `libnoterank.a` checks the file, runs the query and writes files; what it promises
//! is written in the repository's technical file. This package passes arguments and gathers rows:
//! it is tested, not proved.
//!
//! ```
//! use noterank::{best, Mode, NoteFile, Query, Refusal, Rule};
//!
//! let bytes = std::fs::read("../../crates/print/stdin").unwrap();
//! let file = NoteFile::check(&bytes)?;
//! let rule = Rule::Best { start: 0.0, k: 2 };
//! let query = Query { rule, ..Query::new(Mode::Union, &[0, 1]) };
//!
//! // Reports come in document order; the two best of them are the answer.
//! let hits = best(file.run(&query)?, 2);
//! assert_eq!(hits[0].document, 3);
//! assert_eq!(hits[0].score * 1024.0, 1_262_696.0);
//!
//! // What is wrong is refused, and says why.
//! let refusal = file.run(&Query::new(Mode::Union, &[7])).unwrap_err();
//! assert_eq!(refusal, Refusal::Query);
//! assert!(refusal.to_string().starts_with("The query does not fit"));
//! # Ok::<(), Refusal>(())
//! ```

#![deny(missing_docs, unsafe_code)]

#[allow(unsafe_code)]
mod archive;
mod contents;
pub mod layout;
pub mod place;
mod query;
mod refusal;
pub mod sample;
pub mod text;

pub use contents::{write, write_into, Contents, List, Norms, Posting};
pub use query::{Mode, Query, Rule, Scoring, Walk};
pub use refusal::Refusal;

/// A reported document.
#[derive(Clone, Copy, Debug, PartialEq)]
pub struct Hit {
    /// Its number, from 0.
    pub document: u32,
    /// Its score: finite and not negative.
    pub score: f32,
}

/// What a run left in the caller's rows.
#[derive(Clone, Copy, Debug, PartialEq, Eq)]
pub struct Outcome {
    /// How many rows were written, from the first on.
    pub count: usize,
    /// None if the rows are the whole list.
    pub refusal: Option<Refusal>,
}

/// A file that the archive has accepted.
#[derive(Clone, Copy, Debug)]
pub struct NoteFile<'a> {
    bytes: &'a [u8],
}

/// The archive's contract: 0, or a refusal's number.
fn refusal(number: u32) -> Option<Refusal> {
    match number {
        0 => None,
        _ => Some(Refusal::from_number(number).expect("the archive returns 0 to 13")),
    }
}

impl<'a> NoteFile<'a> {
    /// Accepts the file, or tells which of the refusals 1 to 9 it meets.
    pub fn check(bytes: &'a [u8]) -> Result<NoteFile<'a>, Refusal> {
        match refusal(archive::check(bytes)) {
            None => Ok(NoteFile { bytes }),
            Some(refusal) => Err(refusal),
        }
    }

    pub(crate) fn bytes(&self) -> &'a [u8] {
        self.bytes
    }

    /// Documents are numbered from 0 up to this.
    pub fn documents(&self) -> u32 {
        layout::Header::read(self.bytes).map_or(0, |header| header.documents)
    }

    /// Lists are numbered from 0 up to this.
    pub fn lists(&self) -> usize {
        layout::Header::read(self.bytes).map_or(0, |header| header.lists)
    }

    /// The whole list of reports, in document order. There is a row for each document, so that a
    /// run is refused with 10 or 11 or not at all.
    pub fn run(&self, query: &Query) -> Result<Vec<Hit>, Refusal> {
        let rows = self.documents() as usize;
        let (mut documents, mut scores) = (vec![0; rows], vec![0.0; rows]);
        let outcome = self.run_into(query, &mut documents, &mut scores);
        let rows = documents.into_iter().zip(scores).take(outcome.count);
        match outcome.refusal {
            None => Ok(rows.map(|(document, score)| Hit { document, score }).collect()),
            Some(refusal) => Err(refusal),
        }
    }

    /// A run into the caller's rows, as many as the shorter buffer has. If they do not suffice,
    /// they hold the first reports and the run is refused with 12.
    pub fn run_into(&self, query: &Query, documents: &mut [u32], scores: &mut [f32]) -> Outcome {
        let (number, count) = archive::run(self.bytes, query, documents, scores);
        Outcome { count: count as usize, refusal: refusal(number) }
    }
}

/// The k best of the hits, the best first; of equal scores the lower document first.
pub fn best(mut hits: Vec<Hit>, k: usize) -> Vec<Hit> {
    hits.sort_by(|a, b| b.score.total_cmp(&a.score).then(a.document.cmp(&b.document)));
    hits.truncate(k);
    hits
}
