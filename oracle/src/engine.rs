//! Skipping runs of the published files over an accepted note file.
//!
//! Nothing here checks a file or a query: callers hand over what the paper lets through.

use std::panic::{catch_unwind, resume_unwind, AssertUnwindSafe};

use crate::case::{Case, Outcome, Row, BEST_K, INTERSECTION, SINGLE, STEPPED};
use crate::directory::{FileSlice, OwnedBytes};
use crate::fieldnorm::{id_to_fieldnorm, FieldNormReader};
use crate::postings::{BlockSegmentPostings, SegmentPostings};
use crate::query::boolean_query::{block_wand, block_wand_intersection, block_wand_single_scorer};
use crate::query::term_query::TermScorer;
use crate::query::{Bm25Weight, Scorer};
use crate::schema::IndexRecordOption;
pub use crate::standins::loads::Load;
use crate::standins::{loads, step};
use crate::{DocSet, Score, VInt, TERMINATED};

/// A list's part of the file, its bytes as the published code opens them.
struct Entry {
    weight: f32,
    count: u32,
    option: IndexRecordOption,
    bytes: OwnedBytes,
}

/// A file taken apart, ready to build scorers from.
pub struct Source {
    average: f32,
    norms: FieldNormReader,
    entries: Vec<Entry>,
}

/// Big-endian bytes as one number: a header is 72 bits long, an entry 104.
fn number(bytes: &[u8]) -> u128 {
    bytes.iter().fold(0, |number, &byte| number << 8 | u128::from(byte))
}

fn low_bits(number: u128, width: u32) -> u32 {
    (number & ((1 << width) - 1)) as u32
}

fn norms(header: u128, bytes: &[u8]) -> FieldNormReader {
    let documents = low_bits(header >> 33, 21);
    let code = low_bits(header >> 54, 8) as u8;
    if low_bits(header >> 67, 1) == 1 {
        return FieldNormReader::constant(documents, id_to_fieldnorm(code));
    }
    let bytes = OwnedBytes::new(bytes[..documents as usize].to_vec());
    FieldNormReader::open(FileSlice::from(bytes)).expect("bytes in memory are read")
}

impl Source {
    pub fn read(file: &[u8]) -> Source {
        let header = number(&file[..9]);
        let lists = low_bits(header >> 62, 5) as usize;
        let mut at = 9 + 13 * lists;
        let norms = norms(header, &file[at..]);
        if low_bits(header >> 67, 1) == 0 {
            at += norms.num_docs() as usize;
        }
        let mut entries = Vec::new();
        for list in 0..lists {
            let entry = number(&file[9 + 13 * list..][..13]);
            let skips = low_bits(entry >> 26, 24) as usize;
            let postings = low_bits(entry, 26) as usize;
            let count = low_bits(entry >> 51, 21);
            entries.push(Entry {
                weight: f32::from_bits(low_bits(entry >> 72, 32)),
                count,
                option: match low_bits(entry >> 50, 1) {
                    0 => IndexRecordOption::WithFreqs,
                    _ => IndexRecordOption::WithFreqsAndPositions,
                },
                bytes: published_layout(count, skips, &file[at..][..skips + postings]),
            });
            at += skips + postings;
        }
        let average = f32::from_bits(low_bits(header, 32));
        Source { average, norms, entries }
    }

    /// A scorer at its first document, its first block loaded.
    fn scorer(&self, list: usize, position: u32) -> TermScorer {
        let entry = &self.entries[list];
        let data = FileSlice::from(entry.bytes.tagged(position));
        let open = BlockSegmentPostings::open(entry.count, data, entry.option, entry.option);
        let blocks = open.expect("an accepted list opens");
        let postings = SegmentPostings::from_block_postings(blocks, None);
        TermScorer::new(postings, self.norms.clone(), weight(entry.weight, self.average))
    }
}

/// A list's bytes with the length of its skip entries before them, if it has full blocks.
fn published_layout(count: u32, skips: usize, list: &[u8]) -> OwnedBytes {
    let mut bytes = Vec::new();
    if count >= 128 {
        VInt::serialize_u64(skips as u64, &mut bytes);
    }
    bytes.extend_from_slice(list);
    OwnedBytes::new(bytes)
}

/// The published constructors multiply an idf by 2.2. An idf that gives exactly 1, boosted by the
/// weight, gives the weight bit for bit.
fn weight(weight: f32, average: f32) -> Bm25Weight {
    const UNIT_IDF: Score = 1.0 / (1.0 + 1.2);
    Bm25Weight::new_without_explain(UNIT_IDF, average).boost_by(weight)
}

/// Thrown by the callback when a report is due and the rows are full.
struct RowsFull;

/// The rule as the callback of a skipping run.
struct Callback<'a> {
    case: &'a Case,
    rows: Vec<Row>,
    /// Under best k, the best scores reported so far, at most k.
    best: Vec<Score>,
}

impl Callback<'_> {
    fn report(&mut self, document: u32, score: Score) -> Score {
        if self.rows.len() == self.case.rows() {
            resume_unwind(Box::new(RowsFull));
        }
        self.rows.push(Row { document, score: score.to_bits() });
        match self.case.rule {
            BEST_K => self.best_k(score),
            _ => self.scripted(),
        }
    }

    fn scripted(&self) -> Score {
        let reached = self.rows.len().min(self.case.script.len());
        self.case.script[..reached].last().copied().unwrap_or(self.case.start)
    }

    fn best_k(&mut self, score: Score) -> Score {
        self.best.push(score);
        self.best.sort_by(|a, b| b.total_cmp(a));
        self.best.truncate(self.case.k as usize);
        match self.best.last() {
            Some(&kth) if self.best.len() == self.case.k as usize && kth > self.case.start => kth,
            _ => self.case.start,
        }
    }
}

/// The published run of a case: `report` takes each row and gives the next threshold. A panic leaves
/// the stepped cut as the case has it.
pub fn rank(source: &Source, case: &Case, report: &mut dyn FnMut(u32, Score) -> Score) {
    step::set(case.scoring == STEPPED);
    let numbered = case.query.iter().zip(0..);
    let mut scorers: Vec<TermScorer> =
        numbered.map(|(&list, at)| source.scorer(list as usize, at)).collect();
    match case.mode {
        INTERSECTION => block_wand_intersection(scorers, case.start, report),
        SINGLE => match scorers.pop() {
            Some(scorer) => block_wand_single_scorer(scorer, case.start, report),
            None => unreachable!("a single run has one list"),
        },
        _ => block_wand(scorers, case.start, report),
    }
    step::set(false);
}

/// A skipping run's outcome and its block loads.
pub struct Skipped {
    pub outcome: Outcome,
    pub loads: Vec<Load>,
}

/// An error is a panic of the published code.
pub fn run(source: &Source, case: &Case) -> Result<Skipped, String> {
    let mut callback = Callback { case, rows: Vec::new(), best: Vec::new() };
    loads::take();
    let ended = catch_unwind(AssertUnwindSafe(|| {
        rank(source, case, &mut |document, score| callback.report(document, score))
    }));
    step::set(false);
    let outcome = match ended {
        Ok(()) => Outcome::done(callback.rows),
        Err(thrown) if thrown.is::<RowsFull>() => Outcome::full(callback.rows),
        Err(thrown) => return Err(panic_text(thrown.as_ref())),
    };
    Ok(Skipped { outcome, loads: loads::take() })
}

fn panic_text(thrown: &(dyn std::any::Any + Send)) -> String {
    let text = thrown.downcast_ref::<String>().cloned();
    let text = text.or_else(|| thrown.downcast_ref::<&str>().map(|text| text.to_string()));
    text.unwrap_or_else(|| "a panic without a text".to_string())
}

/// A posting as the published code decodes and scores it.
#[derive(Clone, Copy, Debug, PartialEq, Eq)]
pub struct Posting {
    pub document: u32,
    pub frequency: u32,
    pub score: u32,
}

/// A list's unstepped postings, read to the end.
pub fn postings(source: &Source, list: usize) -> Vec<Posting> {
    let mut scorer = source.scorer(list, 0);
    let mut found = Vec::new();
    while scorer.doc() != TERMINATED {
        found.push(Posting {
            document: scorer.doc(),
            frequency: scorer.term_freq(),
            score: scorer.score().to_bits(),
        });
        scorer.advance();
    }
    found
}

/// A list's unstepped bounds: its own, then that of each full block. No block is loaded for them.
pub fn bounds(source: &Source, list: usize) -> Vec<u32> {
    let mut scorer = source.scorer(list, 0);
    let mut found = vec![scorer.max_score().to_bits()];
    while scorer.last_doc_in_block() != TERMINATED {
        found.push(scorer.block_max_score().to_bits());
        let next = scorer.last_doc_in_block() + 1;
        scorer.seek_block(next);
    }
    found
}
