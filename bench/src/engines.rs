//! Both engines behind the same calls: the archive's, and the Rust's.

use std::ptr;

use oracle::archive::{c, SKIPPING};
use oracle::case::{Case, BEST_K};
use oracle::contents::Contents;
use oracle::engine::{self, Source};

use crate::corpus::Prepared;
use crate::{check, writer};

/// A row for every document.
const ROWS: usize = 1 << 20;

/// The most that a find can ask for.
const MOST_NOTES: usize = 64;

pub struct Rows {
    documents: Vec<u32>,
    scores: Vec<f32>,
    count: usize,
}

impl Rows {
    pub fn new() -> Rows {
        Rows { documents: vec![0; ROWS], scores: vec![0.0; ROWS], count: 0 }
    }

    /// Rows that so many are to be written into by a call that does not tell how many it wrote.
    pub fn due(count: usize) -> Rows {
        Rows { count, ..Rows::new() }
    }

    /// Each row as its document and its score's bits.
    pub fn written(&self) -> Vec<(u32, u32)> {
        let rows = self.documents.iter().zip(&self.scores).take(self.count);
        rows.map(|(&document, score)| (document, score.to_bits())).collect()
    }

    pub fn count(&self) -> usize {
        self.count
    }

    fn push(&mut self, document: u32, score: f32) {
        self.documents[self.count] = document;
        self.scores[self.count] = score;
        self.count += 1;
    }
}

pub fn our_check(file: &[u8]) -> u32 {
    oracle::archive::check(file)
}

pub fn rust_check(file: &[u8]) -> u32 {
    check::check(file)
}

/// The archive's number and the length of the file in the output.
pub fn our_write(contents: &Contents, out: &mut [u8]) -> (u32, usize) {
    let mut length = 0;
    // Sound: every pointer comes with the length of what it points to.
    let code = unsafe {
        c::noterank_write(
            contents.documents,
            contents.kind,
            contents.code,
            contents.norms.as_ptr(),
            contents.norms.len(),
            contents.average,
            contents.weights.as_ptr(),
            contents.weights.len(),
            contents.counts.as_ptr(),
            contents.counts.len(),
            contents.docs.as_ptr(),
            contents.docs.len(),
            contents.freqs.as_ptr(),
            contents.freqs.len(),
            out.as_mut_ptr(),
            out.len(),
            &mut length,
        )
    };
    (code, length as usize)
}

/// The same of the Rust.
pub fn rust_write(contents: &Contents, out: &mut [u8]) -> (u32, usize) {
    match writer::write(contents, out) {
        Ok(length) => (0, length),
        Err(code) => (code, 0),
    }
}

/// The archive's skipping run, its file check included. Returns its code.
pub fn our_run(file: &[u8], case: &Case, rows: &mut Rows) -> u32 {
    let mut count = 0;
    // Sound: every pointer comes with the length of what it points to.
    let code = unsafe {
        c::noterank_run(
            file.as_ptr(),
            file.len(),
            case.query.as_ptr(),
            case.query.len(),
            SKIPPING,
            case.mode,
            case.scoring,
            case.rule,
            case.start,
            case.k,
            ptr::NonNull::dangling().as_ptr(),
            0,
            rows.documents.as_mut_ptr(),
            rows.documents.len(),
            rows.scores.as_mut_ptr(),
            rows.scores.len(),
            &mut count,
        )
    };
    rows.count = count as usize;
    code
}

/// The published run over opened bytes, by best k or a fixed threshold; nothing is checked.
pub fn rust_run(source: &Source, case: &Case, rows: &mut Rows) {
    rows.count = 0;
    if case.rule != BEST_K {
        return engine::rank(source, case, &mut |document, score| {
            rows.push(document, score);
            case.start
        });
    }
    let k = case.k as usize;
    // The best scores so far, the highest first.
    let mut best: Vec<f32> = Vec::with_capacity(k + 1);
    engine::rank(source, case, &mut |document, score| {
        rows.push(document, score);
        let place = best.partition_point(|&better| better >= score);
        best.insert(place, score);
        best.truncate(k);
        best.get(k - 1).map_or(case.start, |&kth| kth.max(case.start))
    });
}

/// The archive's find, with 64 note rows. Returns its code; the count of the report rows stays, for
/// a find does not tell it.
pub fn our_find(file: &[u8], case: &Case, rows: &mut Rows, notes: &mut Rows) -> u32 {
    let mut count = 0;
    // Sound: every pointer comes with the length of what it points to, or with less.
    let code = unsafe {
        c::noterank_find(
            file.as_ptr(),
            file.len(),
            case.query.as_ptr(),
            case.query.len(),
            case.mode,
            case.scoring,
            case.start,
            case.k,
            rows.documents.as_mut_ptr(),
            rows.documents.len(),
            rows.scores.as_mut_ptr(),
            rows.scores.len(),
            notes.documents.as_mut_ptr(),
            MOST_NOTES,
            notes.scores.as_mut_ptr(),
            MOST_NOTES,
            &mut count,
        )
    };
    notes.count = count as usize;
    code
}

/// The check, the published run, and its reports put in order one by one. They come by rising
/// document, so that among equal scores the later one goes behind.
pub fn rust_find(prepared: &Prepared, case: &Case, rows: &mut Rows, notes: &mut Rows) -> u32 {
    let code = rust_check(&prepared.file);
    rust_run(&prepared.source, case, rows);
    let k = case.k as usize;
    let mut best: Vec<(u32, f32)> = Vec::with_capacity(k + 1);
    for (&document, &score) in rows.documents.iter().zip(&rows.scores).take(rows.count) {
        let place = best.partition_point(|&(_, better)| better >= score);
        if place < k {
            best.insert(place, (document, score));
            best.truncate(k);
        }
    }
    notes.count = 0;
    best.into_iter().for_each(|(document, score)| notes.push(document, score));
    code
}
