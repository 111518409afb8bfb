//! The archive's functions, called safely. All unsafe code of this package is here.

use crate::contents::{norm_numbers, Rows};
use crate::{Contents, Query};

#[path = "../../../include/noterank.rs"]
mod c;

/// 0, or the number of the file's refusal.
pub fn check(file: &[u8]) -> u32 {
    // Sound: pointer and length are those of one slice, which is only read.
    unsafe { c::noterank_check(file.as_ptr(), file.len()) }
}

/// The number that a run returns, and its count of rows.
pub fn run(file: &[u8], query: &Query, documents: &mut [u32], scores: &mut [f32]) -> (u32, u32) {
    let (rule, start, k, script) = query.rule.numbers();
    let mut count = 0;
    // Sound:
    // - file, lists and script are borrowed until the call returns, and are only read. Each pointer
    //   comes with its own slice's length; that of an empty slice is not followed.
    // - documents and scores are borrowed exclusively, so they overlap with nothing that is passed,
    //   and no cell past their lengths is written.
    // - count is a variable of this function: one u32.
    let number = unsafe {
        c::noterank_run(
            file.as_ptr(),
            file.len(),
            query.lists.as_ptr(),
            query.lists.len(),
            query.walk as u32,
            query.mode as u32,
            query.scoring as u32,
            rule,
            start,
            k,
            script.as_ptr(),
            script.len(),
            documents.as_mut_ptr(),
            documents.len(),
            scores.as_mut_ptr(),
            scores.len(),
            &mut count,
        )
    };
    (number, count)
}

/// The number that a write returns, and the file's length.
pub fn write(contents: &Contents, rows: &Rows, out: &mut [u8]) -> (u32, u32) {
    let (kind, code, norms) = norm_numbers(&contents.norms);
    let mut length = 0;
    // Sound, as above: what is read is borrowed until the call returns, each pointer with its own
    // slice's length; out is borrowed exclusively; length is a variable of this function.
    let number = unsafe {
        c::noterank_write(
            contents.documents,
            kind,
            code,
            norms.as_ptr(),
            norms.len(),
            contents.average,
            rows.weights.as_ptr(),
            rows.weights.len(),
            rows.counts.as_ptr(),
            rows.counts.len(),
            rows.documents.as_ptr(),
            rows.documents.len(),
            rows.frequencies.as_ptr(),
            rows.frequencies.len(),
            out.as_mut_ptr(),
            out.len(),
            &mut length,
        )
    };
    (number, length)
}
