//! The engine behind the C interface, with canaries around everything that it writes.

use crate::case::{Case, Outcome, Row};
use crate::compare::{same, same_outcome};
use crate::contents::{Contents, Written};
use crate::finder::{Find, Found};

/// The calls as `noterank.h` declares them.
#[path = "../../include/noterank.rs"]
pub mod c;

pub const SKIPPING: u32 = 0;
pub const PLAIN: u32 = 1;

/// Words before and behind a buffer that no run may touch.
const GUARD: usize = 16;

/// A value for each place that no call would write there by chance; as a score it is a NaN. The two
/// patterns differ everywhere.
fn canary(place: usize, pattern: u32) -> u32 {
    (0xffe0_0000 | place as u32 & 0x1f_ffff) ^ pattern
}

const PATTERNS: [u32; 2] = [0, 0x1f_ffff];

/// A buffer of words between two guards, filled with canaries.
struct Guarded {
    words: Vec<u32>,
    pattern: u32,
}

impl Guarded {
    fn new(length: usize, pattern: u32) -> Guarded {
        let words = (0..length + 2 * GUARD).map(|place| canary(place, pattern)).collect();
        Guarded { words, pattern }
    }

    fn pointer(&mut self) -> *mut u32 {
        self.words[GUARD..].as_mut_ptr()
    }

    /// The first `count` words of the buffer, if everything else is as before.
    fn written(&self, count: usize) -> Option<&[u32]> {
        let outside = |place: &usize| *place < GUARD || *place >= GUARD + count;
        let kept = |place: usize| self.words[place] == canary(place, self.pattern);
        let untouched = (0..self.words.len()).filter(outside).all(kept);
        untouched.then(|| &self.words[GUARD..][..count])
    }
}

pub fn check(file: &[u8]) -> u32 {
    // Sound: the pointer and the length are those of a slice.
    unsafe { c::noterank_check(file.as_ptr(), file.len()) }
}

/// Two rows of one length or of two, and how long the shorter is.
struct Rows {
    documents: Guarded,
    scores: Guarded,
    limit: usize,
}

impl Rows {
    fn new(documents_len: usize, scores_len: usize, pattern: u32) -> Rows {
        Rows {
            documents: Guarded::new(documents_len, pattern),
            scores: Guarded::new(scores_len, pattern),
            limit: documents_len.min(scores_len),
        }
    }

    /// The first rows, or a complaint about what was written beside them.
    fn written(&self, count: usize) -> Result<Vec<Row>, String> {
        if count > self.limit {
            return Err(format!("a count of {count} with only {} rows", self.limit));
        }
        let buffers = (self.documents.written(count), self.scores.written(count));
        let (Some(documents), Some(scores)) = buffers else {
            return Err(format!("wrote beside {count} rows"));
        };
        let pairs = documents.iter().zip(scores);
        Ok(pairs.map(|(&document, &score)| Row { document, score }).collect())
    }
}

/// A count that a call has written.
fn counted(count: &Guarded) -> Result<usize, String> {
    let count = count.written(1).map(|words| words[0] as usize);
    count.ok_or_else(|| "wrote beside its count".to_string())
}

fn call_run(case: &Case, walk: u32, rows: &mut Rows, count: &mut Guarded) -> u32 {
    // Sound: every pointer comes with the length of what it points to, and an f32 is as large
    // and as aligned as a u32.
    unsafe {
        c::noterank_run(
            case.file.as_ptr(),
            case.file.len(),
            case.query.as_ptr(),
            case.query.len(),
            walk,
            case.mode,
            case.scoring,
            case.rule,
            case.start,
            case.k,
            case.script.as_ptr(),
            case.script.len(),
            rows.documents.pointer(),
            case.documents_len,
            rows.scores.pointer().cast::<f32>(),
            case.scores_len,
            count.pointer(),
        )
    }
}

/// A run through the C interface. An error tells what it wrote where it should not.
pub fn run(case: &Case, walk: u32) -> Result<Outcome, String> {
    let mut rows = Rows::new(case.documents_len, case.scores_len, PATTERNS[0]);
    let mut count = Guarded::new(1, PATTERNS[0]);
    let code = call_run(case, walk, &mut rows, &mut count);
    let written = counted(&count).and_then(|count| rows.written(count));
    let rows = written.map_err(|text| format!("archive's code {code}, {text}"))?;
    Ok(Outcome { code, count: rows.len() as u32, rows })
}

/// The check against the plain one; the plain walk against the plain scan; the skipping walk
/// against the published run, or against the refusal; a walk outside its numbers.
pub fn compare(case: &Case, plain: &Outcome, published: Option<&Outcome>) -> Result<(), String> {
    let file_refusal = if plain.code <= 9 { plain.code } else { 0 };
    let checked = check(&case.file);
    if checked != file_refusal {
        return Err(format!("archive's check {checked}, plain {file_refusal}"));
    }
    same_outcome("archive's plain walk and plain", &run(case, PLAIN)?, plain)?;
    let skipping = run(case, SKIPPING)?;
    same_outcome("archive's skipping walk and published", &skipping, published.unwrap_or(plain))?;
    let other = Outcome::refused(if file_refusal == 0 { 10 } else { file_refusal });
    same_outcome("archive's walk 2 and refusal 10", &run(case, 2)?, &other)
}

fn call_find(find: &Find, reports: &mut Rows, notes: &mut Rows, count: &mut Guarded) -> u32 {
    let run = &find.run;
    // Sound: as for a run.
    unsafe {
        c::noterank_find(
            run.file.as_ptr(),
            run.file.len(),
            run.query.as_ptr(),
            run.query.len(),
            run.mode,
            run.scoring,
            run.start,
            run.k,
            reports.documents.pointer(),
            run.documents_len,
            reports.scores.pointer().cast::<f32>(),
            run.scores_len,
            notes.documents.pointer(),
            find.documents_len,
            notes.scores.pointer().cast::<f32>(),
            find.scores_len,
            count.pointer(),
        )
    }
}

/// A find through the C interface, with so many reports: it does not tell how many it wrote. An error
/// tells what it wrote where it should not.
pub fn find(find: &Find, reported: usize, pattern: u32) -> Result<Found, String> {
    let mut reports = Rows::new(find.run.documents_len, find.run.scores_len, pattern);
    let mut notes = Rows::new(find.documents_len, find.scores_len, pattern);
    let mut count = Guarded::new(1, pattern);
    let code = call_find(find, &mut reports, &mut notes, &mut count);
    let complaint = |what: &str, text| format!("archive's code {code}, {what}: {text}");
    let notes = counted(&count).and_then(|count| notes.written(count));
    Ok(Found {
        code,
        reports: reports.written(reported).map_err(|text| complaint("reports", text))?,
        notes: notes.map_err(|text| complaint("notes", text))?,
    })
}

/// The archive's find against the plain one, over two patterns of all rows.
pub fn compare_find(expected: &Find, plain: &Found) -> Result<(), String> {
    for pattern in PATTERNS {
        let ours = find(expected, plain.reports.len(), pattern)?;
        let (a, b) = ((ours.code, ours.notes.len()), (plain.code, plain.notes.len()));
        if a != b {
            return Err(format!("archive's and plain find: code and count {a:?} and {b:?}"));
        }
        same("archive's and published reports", &ours.reports, &plain.reports)?;
        same("archive's and plain notes", &ours.notes, &plain.notes)?;
    }
    Ok(())
}

/// A byte for each place; the two patterns differ everywhere, so that none is written by chance in
/// both.
fn byte_canary(place: usize, pattern: u8) -> u8 {
    (place as u8).wrapping_mul(37) ^ pattern
}

fn call_write(contents: &Contents, out: &mut [u8], length: &mut Guarded) -> u32 {
    // Sound: every pointer comes with the length of what it points to.
    unsafe {
        c::noterank_write(
            contents.documents,
            contents.kind,
            contents.code,
            contents.norms.as_ptr(),
            contents.norms.len(),
            contents.average,
            contents.weights.as_ptr(),
            contents.weights.len(),
            contents.counts.as_ptr(),
            contents.counts.len(),
            contents.docs.as_ptr(),
            contents.docs.len(),
            contents.freqs.as_ptr(),
            contents.freqs.len(),
            out.as_mut_ptr(),
            out.len(),
            length.pointer(),
        )
    }
}

/// A write through the C interface. An error tells what it wrote where it should not.
pub fn write(contents: &Contents, pattern: u8) -> Result<Written, String> {
    let end = GUARD + contents.out_len;
    let mut bytes: Vec<u8> = (0..end + GUARD).map(|i| byte_canary(i, pattern)).collect();
    let mut length = Guarded::new(1, PATTERNS[0]);
    let code = call_write(contents, &mut bytes[GUARD..end], &mut length);
    let written = counted(&length).map_err(|text| format!("archive's code {code}, {text}"))?;
    if written > contents.out_len {
        return Err(format!("archive's code {code}, length {written} of {}", contents.out_len));
    }
    let file = GUARD..GUARD + written;
    let outside = (0..bytes.len()).filter(|place| !file.contains(place));
    if let Some(place) = { outside }.find(|&place| bytes[place] != byte_canary(place, pattern)) {
        let place = place as i64 - GUARD as i64;
        return Err(format!("archive's code {code}, length {written}: wrote at {place}"));
    }
    Ok(Written { code, length: written as u32, bytes: bytes[file].to_vec() })
}

/// The archive's write against the plain one, over two patterns of the output; its check of the
/// file.
pub fn compare_write(contents: &Contents, plain: &Written) -> Result<(), String> {
    for pattern in [0x00, 0xff] {
        let ours = write(contents, pattern)?;
        let (a, b) = ((ours.code, ours.length), (plain.code, plain.length));
        if a != b {
            return Err(format!("archive's and plain write: code and length {a:?} and {b:?}"));
        }
        same("archive's and plain file", &ours.bytes, &plain.bytes)?;
    }
    match check(&plain.bytes) {
        refusal if plain.code == 0 && refusal != 0 => {
            Err(format!("the archive's check of the file is {refusal}"))
        }
        _ => Ok(()),
    }
}
