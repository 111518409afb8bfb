//! Note files to play with, good and bad ones, and contents.
//!
//! Those that are sound are written from their contents. Other-form.note alone is not: its blocks
//! are not strict and one of its lists counts its frequencies in skip entries of 12 bytes, so that
//! both are seen by whoever reads files.

use crate::layout::{Entry, Header, BLOCK};
use crate::{text, write, Contents, NoteFile};

/// Two lists of two documents, weights 1,000 and 500.
const SMALL: &str = include_str!("../samples/small.txt");

/// One document in two lists, a large score and a small one, whose sum rounds up.
const ROUNDING: &str = include_str!("../samples/rounding.txt");

/// A sample's file name, what it shows, and its bytes.
pub struct Sample {
    /// To be written under this name.
    pub name: &'static str,
    /// In a few words.
    pub about: &'static str,
    /// The file.
    pub bytes: Vec<u8>,
}

/// All samples.
pub fn all() -> Vec<Sample> {
    let sample = |name, about, bytes| Sample { name, about, bytes };
    vec![
        sample("small.txt", "contents: two lists of two documents", SMALL.into()),
        sample("small.note", "the file of small.txt", written_from(SMALL)),
        sample("dryer.note", "five lists over 1,000 documents, with full blocks", dryer()),
        sample("other-form.note", "the same in another form: blocks not strict", other_form()),
        sample("rounding.txt", "contents: one document in two lists", ROUNDING.into()),
        sample("rounding.note", "an unstepped hit that skipping loses", written_from(ROUNDING)),
        sample("old-version.note", "refused: small.note, its version 0", old_version()),
        sample("truncated.note", "refused: dryer.note, its last third missing", truncated()),
        sample("low-bound.note", "refused: small.note, a score above its bound", low_bound()),
    ]
}

fn written_from(contents: &str) -> Vec<u8> {
    let text = text::parse(contents.as_bytes()).expect("a sample has no wrong line");
    write(&text.contents).expect("a sample's contents are right")
}

fn old_version() -> Vec<u8> {
    let mut file = written_from(SMALL);
    file[0] &= 0x0f;
    file
}

fn truncated() -> Vec<u8> {
    let mut file = dryer();
    file.truncate(file.len() / 3 * 2);
    file
}

/// A frequency of 4 where 3 is the most that the list's bound covers.
fn low_bound() -> Vec<u8> {
    let mut file = written_from(SMALL);
    file[38] = 0x84;
    file
}

#[derive(Clone, Copy)]
struct Posting {
    document: u32,
    frequency: u32,
}

/// A number that looks random and is the same every time.
fn scatter(seed: u32, place: u32) -> u32 {
    let mixed = (seed << 16 ^ place).wrapping_mul(0x9e37_79b1);
    (mixed ^ mixed >> 15).wrapping_mul(0x85eb_ca77) >> 8
}

/// Every document has a place in the list with a chance of `share` in 1,000.
fn postings(seed: u32, share: u32, documents: u32) -> Vec<Posting> {
    let frequency = |document| 1 + scatter(seed + 100, document) % 4;
    (0..documents)
        .filter(|&document| scatter(seed, document) % 1000 < share)
        .map(|document| Posting { document, frequency: frequency(document) })
        .collect()
}

/// Each value's bits go to lane i mod 4, low bit first.
fn packed(values: &[u32], width: usize) -> Vec<u8> {
    let mut bytes = vec![0; 16 * width];
    for (i, value) in values.iter().enumerate() {
        for bit in 0..width {
            let place = i / 4 * width + bit;
            let byte = place / 32 * 16 + i % 4 * 4 + place % 32 / 8;
            bytes[byte] |= ((value >> bit & 1) as u8) << (place % 8);
        }
    }
    bytes
}

fn vint(mut value: u32) -> Vec<u8> {
    let mut bytes = Vec::new();
    while value > 127 {
        bytes.push((value & 127) as u8);
        value >>= 7;
    }
    bytes.push(value as u8 | 128);
    bytes
}

/// Bits of the largest value.
fn width(values: &[u32]) -> usize {
    values.iter().map(|value| 32 - value.leading_zeros()).max().unwrap_or(0) as usize
}

/// A list as it is written.
struct Draft {
    weight: f32,
    positions: bool,
    postings: Vec<Posting>,
}

impl Draft {
    /// Each document's distance from the one before; the first counts from 0.
    fn distances(&self) -> Vec<u32> {
        let before = self.postings.iter().map(|posting| posting.document);
        let before = std::iter::once(0).chain(before);
        self.postings.iter().zip(before).map(|(posting, last)| posting.document - last).collect()
    }

    /// The skip entry of a full block; the bound's pair is its shortest field and its most frequent
    /// posting, which no score of the block exceeds.
    fn skip_entry(&self, block: &[Posting], norms: &[u8], widths: (usize, usize)) -> Vec<u8> {
        let mut entry = block[BLOCK - 1].document.to_le_bytes().to_vec();
        entry.extend([widths.0 as u8, widths.1 as u8]);
        if self.positions {
            entry.extend(block.iter().map(|posting| posting.frequency).sum::<u32>().to_le_bytes());
        }
        let code = block.iter().map(|posting| norms[posting.document as usize]).min();
        let frequency = block.iter().map(|posting| posting.frequency).max();
        entry.extend([code.unwrap_or(0), frequency.unwrap_or(0) as u8]);
        entry
    }

    /// The skip entries and the postings.
    fn parts(&self, norms: &[u8]) -> (Vec<u8>, Vec<u8>) {
        let (mut skips, mut bytes) = (Vec::new(), Vec::new());
        let distances = self.distances();
        for (block, distances) in self.postings.chunks(BLOCK).zip(distances.chunks(BLOCK)) {
            let frequencies: Vec<u32> = block.iter().map(|posting| posting.frequency).collect();
            if block.len() < BLOCK {
                bytes.extend(distances.iter().chain(&frequencies).flat_map(|&value| vint(value)));
            } else {
                let widths = (width(distances), width(&frequencies));
                skips.extend(self.skip_entry(block, norms, widths));
                bytes.extend(packed(distances, widths.0));
                bytes.extend(packed(&frequencies, widths.1));
            }
        }
        (skips, bytes)
    }
}

fn written(header: Header, norms: &[u8], drafts: &[Draft]) -> Vec<u8> {
    let mut file = header.bytes();
    let mut parts = norms.to_vec();
    for draft in drafts {
        let (skips, postings) = draft.parts(norms);
        let entry = Entry {
            weight: draft.weight,
            count: draft.postings.len(),
            positions: draft.positions,
            skip_length: skips.len(),
            postings_length: postings.len(),
        };
        file.extend(entry.bytes());
        parts.extend(skips.into_iter().chain(postings));
    }
    file.extend(parts);
    file
}

/// The file of the contents of [`other_form`].
pub fn dryer() -> Vec<u8> {
    let other = other_form();
    let file = NoteFile::check(&other).expect("a sample is sound");
    write(&Contents::read(&file)).expect("a sample's contents are right")
}

/// A thousand notes of 4 to 27 words, and five words: one in nearly all of them, others rarer and
/// weighing more, the last in none. Not in house form.
pub fn other_form() -> Vec<u8> {
    const DOCUMENTS: u32 = 1_000;
    let norms: Vec<u8> = (0..DOCUMENTS).map(|note| 4 + (scatter(0, note) % 24) as u8).collect();
    let list = |(seed, share, weight, positions)| Draft {
        weight,
        positions,
        postings: postings(seed, share, DOCUMENTS),
    };
    let lists = [
        (1, 920, 0.25, false),
        (2, 450, 1.5, true),
        (3, 300, 2.25, false),
        (4, 60, 5.5, false),
        (5, 0, 9.0, false),
    ];
    let drafts: Vec<Draft> = lists.into_iter().map(list).collect();
    let header = Header {
        version: 1,
        constant_norm: false,
        lists: drafts.len(),
        norm_code: 0,
        documents: DOCUMENTS,
        spare: false,
        average: 16.0,
    };
    written(header, &norms, &drafts)
}
