//! The writer as straightforward Rust: each list tested, then its blocks packed as they come; the
//! whole is copied out when nothing can be refused any more.
//!
//! An error is the number of the refusal.

use oracle::contents::{Contents, List};
use oracle::fieldnorm::id_to_fieldnorm;

const BLOCK: usize = 128;
const MOST_FREQUENCY: u32 = 2_013_265_944;

/// The file's length; the file stands in the front of the output.
pub fn write(contents: &Contents, out: &mut [u8]) -> Result<usize, u32> {
    head(contents)?;
    let writer = Writer { contents, cache: norms(contents.average) };
    let lists = contents.lists();
    let mut entries = Vec::with_capacity(13 * lists.len());
    let mut parts = Vec::with_capacity(8 * contents.docs.len());
    for list in &lists {
        let (skips, postings) = writer.list(list, &mut parts)?;
        entries.extend(entry(list, skips, postings));
    }
    let pieces = [&header(contents)[..], &entries, &contents.norms, &parts];
    let length = pieces.iter().map(|piece| piece.len()).sum();
    let mut rest = out.get_mut(..length).ok_or(13u32)?;
    for piece in pieces {
        let (front, behind) = rest.split_at_mut(piece.len());
        front.copy_from_slice(piece);
        rest = behind;
    }
    Ok(length)
}

/// Refusals 1 to 4.
fn head(contents: &Contents) -> Result<(), u32> {
    let Contents { documents, kind, code, norms, average, weights, counts, docs, freqs, .. } =
        contents;
    let one_code = (*kind == 0 && *code == 0) || (*kind == 1 && *code <= 255);
    if counts.len() > 16 || *documents > 1_048_576 || !one_code {
        return Err(1);
    }
    // A NaN lies in no range.
    if !(0.0625..=2_147_483_648.0).contains(average) {
        return Err(2);
    }
    let due = if *kind == 0 { *documents as usize } else { 0 };
    let postings: usize = counts.iter().map(|&count| count as usize).sum();
    let buffers = (norms.len(), weights.len(), docs.len(), freqs.len());
    if buffers != (due, counts.len(), postings, postings) {
        return Err(3);
    }
    let fits = |weight: &f32| weight.is_sign_positive() && *weight <= 1000.0;
    let right = weights.iter().all(fits) && counts.iter().all(|count| count <= documents);
    right.then_some(()).ok_or(4)
}

/// The part of a score that depends on the norm code, for each code.
fn norms(average: f32) -> [f32; 256] {
    std::array::from_fn(|code| {
        let length = id_to_fieldnorm(code as u8) as f32;
        1.2 * ((1.0 - 0.75) + (0.75 * length) / average)
    })
}

fn header(contents: &Contents) -> [u8; 9] {
    let front = 1 << 36
        | u64::from(contents.kind) << 35
        | (contents.counts.len() as u64) << 30
        | u64::from(contents.code) << 22
        | u64::from(contents.documents) << 1;
    let mut bytes = [0; 9];
    bytes[..5].copy_from_slice(&front.to_be_bytes()[3..]);
    bytes[5..].copy_from_slice(&contents.average.to_be_bytes());
    bytes
}

fn entry(list: &List, skips: usize, postings: usize) -> [u8; 13] {
    let back = (list.docs.len() as u128) << 51 | (skips as u128) << 26 | postings as u128;
    let mut bytes = [0; 13];
    bytes[..4].copy_from_slice(&list.weight.to_be_bytes());
    bytes[4..].copy_from_slice(&back.to_be_bytes()[7..]);
    bytes
}

fn vint(mut value: u32, to: &mut Vec<u8>) {
    while value > 127 {
        to.push((value & 127) as u8);
        value >>= 7;
    }
    to.push(value as u8 | 128);
}

fn width(values: &[u32; BLOCK]) -> u32 {
    32 - values.iter().fold(0, |all, value| all | value).leading_zeros()
}

/// A row of four lanes at a time, each lane with its bits that are not written yet.
fn pack(values: &[u32; BLOCK], width: u32, to: &mut Vec<u8>) {
    let (mut lanes, mut held) = ([0u64; 4], 0);
    for row in values.chunks_exact(4) {
        for (lane, &value) in lanes.iter_mut().zip(row) {
            *lane |= u64::from(value) << held;
        }
        held += width;
        if held >= 32 {
            for lane in &mut lanes {
                to.extend((*lane as u32).to_le_bytes());
                *lane >>= 32;
            }
            held -= 32;
        }
    }
}

struct Writer<'a> {
    contents: &'a Contents,
    cache: [f32; 256],
}

impl Writer<'_> {
    /// Appends the list's skip entries and its postings, and tells their lengths.
    fn list(&self, list: &List, to: &mut Vec<u8>) -> Result<(usize, usize), u32> {
        let rises = list.docs.windows(2).all(|pair| pair[0] < pair[1]);
        let below = list.docs.last().is_none_or(|&last| last < self.contents.documents);
        if !rises || !below {
            return Err(7);
        }
        if list.freqs.iter().any(|&frequency| frequency == 0 || frequency > MOST_FREQUENCY) {
            return Err(8);
        }
        let (start, skips) = (to.len(), list.docs.len() / BLOCK * 8);
        to.resize(start + skips, 0);
        let bound = self.score(list.weight, 255, MOST_FREQUENCY);
        let mut before = None;
        let blocks = list.docs.chunks_exact(BLOCK).zip(list.freqs.chunks_exact(BLOCK));
        for (number, (docs, freqs)) in blocks.enumerate() {
            let skip = self.block(list.weight, bound, before, docs, freqs, to)?;
            to[start + 8 * number..][..8].copy_from_slice(&skip);
            before = Some(docs[BLOCK - 1]);
        }
        self.tail(list, bound, before, to)?;
        Ok((skips, to.len() - start - skips))
    }

    fn score(&self, weight: f32, code: u8, frequency: u32) -> f32 {
        let frequency = frequency as f32;
        weight * (frequency / (frequency + self.cache[usize::from(code)]))
    }

    fn code(&self, document: u32) -> u8 {
        match self.contents.kind {
            0 => self.contents.norms[document as usize],
            _ => self.contents.code as u8,
        }
    }

    /// Appends the packed block, and gives its skip entry.
    fn block(
        &self,
        weight: f32,
        bound: f32,
        before: Option<u32>,
        docs: &[u32],
        freqs: &[u32],
        to: &mut Vec<u8>,
    ) -> Result<[u8; 8], u32> {
        let score = |i: usize| self.score(weight, self.code(docs[i]), freqs[i]);
        let (mut best, mut top) = (0, score(0));
        for i in 1..BLOCK {
            let score = score(i);
            if score > top {
                (best, top) = (i, score);
            }
        }
        if top > bound {
            return Err(9);
        }
        let mut next = before.map_or(0, |before| before + 1);
        let documents: [u32; BLOCK] = std::array::from_fn(|i| {
            let value = docs[i] - next;
            next = docs[i] + 1;
            value
        });
        let frequencies: [u32; BLOCK] = std::array::from_fn(|i| freqs[i] - 1);
        let widths = (width(&documents), width(&frequencies));
        pack(&documents, widths.0, to);
        pack(&frequencies, widths.1, to);
        let [a, b, c, d] = docs[BLOCK - 1].to_le_bytes();
        let pair = (self.code(docs[best]), freqs[best].min(255) as u8);
        Ok([a, b, c, d, widths.0 as u8 | 64, widths.1 as u8, pair.0, pair.1])
    }

    fn tail(
        &self,
        list: &List,
        bound: f32,
        before: Option<u32>,
        to: &mut Vec<u8>,
    ) -> Result<(), u32> {
        let from = list.docs.len() / BLOCK * BLOCK;
        let (docs, freqs) = (&list.docs[from..], &list.freqs[from..]);
        let mut last = before.unwrap_or(0);
        for (&document, &frequency) in docs.iter().zip(freqs) {
            if self.score(list.weight, self.code(document), frequency) > bound {
                return Err(9);
            }
            vint(document - last, to);
            last = document;
        }
        freqs.iter().for_each(|&frequency| vint(frequency, to));
        Ok(())
    }
}
