//! What a note file holds, before it is written and after it is read.

use crate::layout::{Layout, List as Place, BLOCK, ENTRY_BYTES, HEADER_BYTES};
use crate::{archive, refusal, NoteFile, Refusal};

/// The norm codes of the documents; a code stands for a length.
#[derive(Clone, Debug, PartialEq, Eq)]
pub enum Norms {
    /// A code for each document, in their order.
    Each(Vec<u8>),
    /// One code for all documents.
    All(u8),
}

/// A document of a list.
#[derive(Clone, Copy, Debug, PartialEq, Eq)]
pub struct Posting {
    /// Its number, from 0.
    pub document: u32,
    /// How often it has the list's word.
    pub frequency: u32,
}

/// A list: a search word.
#[derive(Clone, Debug, PartialEq)]
pub struct List {
    /// What each of the list's scores is multiplied with.
    pub weight: f32,
    /// The documents that have the word, rising.
    pub postings: Vec<Posting>,
}

/// All that a note file holds. Anything may stand in it: what is wrong is refused by the writer.
#[derive(Clone, Debug, PartialEq)]
pub struct Contents {
    /// Documents are numbered from 0 up to this.
    pub documents: u32,
    /// Their norm codes.
    pub norms: Norms,
    /// The average field length.
    pub average: f32,
    /// At most 16.
    pub lists: Vec<List>,
}

/// The C interface's kind, code and norms.
pub(crate) fn norm_numbers(norms: &Norms) -> (u32, u32, &[u8]) {
    match norms {
        Norms::Each(codes) => (0, 0, codes),
        Norms::All(code) => (1, u32::from(*code), &[]),
    }
}

/// The C interface's rows: a weight and a count for each list, then every list's postings.
pub(crate) struct Rows {
    pub weights: Vec<f32>,
    pub counts: Vec<u32>,
    pub documents: Vec<u32>,
    pub frequencies: Vec<u32>,
}

impl Rows {
    fn new(lists: &[List]) -> Rows {
        let postings = || lists.iter().flat_map(|list| &list.postings);
        // No file has so long a list: with the count cut, it is refused all the same.
        let count = |list: &List| u32::try_from(list.postings.len()).unwrap_or(u32::MAX);
        Rows {
            weights: lists.iter().map(|list| list.weight).collect(),
            counts: lists.iter().map(count).collect(),
            documents: postings().map(|posting| posting.document).collect(),
            frequencies: postings().map(|posting| posting.frequency).collect(),
        }
    }
}

/// No file of these contents is longer. A tail's document takes at most 3 bytes and its frequency
/// 5; a full block takes 8 and 16 for each of at most 51 bits, which is less than 8 a posting.
fn most_bytes(contents: &Contents) -> usize {
    let norms = norm_numbers(&contents.norms).2.len();
    let postings: usize = contents.lists.iter().map(|list| list.postings.len()).sum();
    HEADER_BYTES + ENTRY_BYTES * contents.lists.len() + norms + 8 * postings
}

/// The note file of these contents. It has room for every file, so that it is never refused with
/// 13; the words of [`Refusal::of_contents`] are for the other numbers.
///
/// ```
/// use noterank::{write, Contents, List, NoteFile, Norms, Posting, Refusal};
///
/// let posting = |document, frequency| Posting { document, frequency };
/// let mut contents = Contents {
///     documents: 4,
///     norms: Norms::All(1),
///     average: 8.0,
///     lists: vec![List { weight: 1000.0, postings: vec![posting(1, 1), posting(3, 3)] }],
/// };
/// let file = write(&contents)?;
/// assert_eq!(Contents::read(&NoteFile::check(&file)?), contents);
///
/// contents.lists[0].postings.swap(0, 1);
/// assert_eq!(write(&contents), Err(Refusal::Documents));
/// # Ok::<(), Refusal>(())
/// ```
pub fn write(contents: &Contents) -> Result<Vec<u8>, Refusal> {
    let mut file = vec![0; most_bytes(contents)];
    let length = write_into(contents, &mut file)?;
    file.truncate(length);
    file.shrink_to_fit();
    Ok(file)
}

/// Writes the note file of these contents into the front of the buffer, and tells its length. If
/// it is refused, with 13 too, every byte is as before.
pub fn write_into(contents: &Contents, out: &mut [u8]) -> Result<usize, Refusal> {
    let (number, length) = archive::write(contents, &Rows::new(&contents.lists), out);
    refusal(number).map_or(Ok(length as usize), Err)
}

impl Contents {
    /// What the file holds. Read by this package, which is tested and not proved.
    pub fn read(file: &NoteFile) -> Contents {
        let bytes = file.bytes();
        let layout = Layout::read(bytes).expect("an accepted file has all of its entries");
        let norms = match layout.header.constant_norm {
            true => Norms::All(layout.header.norm_code),
            false => Norms::Each(bytes[layout.norms.clone()].to_vec()),
        };
        let list =
            |place: &Place| List { weight: place.entry.weight, postings: postings(bytes, place) };
        Contents {
            documents: layout.header.documents,
            norms,
            average: layout.header.average,
            lists: layout.lists.iter().map(list).collect(),
        }
    }
}

/// Documents as they are read: each counts from the one before it.
struct Reader {
    strict: bool,
    before: Option<u32>,
}

impl Reader {
    fn document(&mut self, value: u32) -> u32 {
        let document = match self.before {
            None => value,
            Some(before) => before + value + u32::from(self.strict),
        };
        self.before = Some(document);
        document
    }
}

/// The postings of an accepted list.
fn postings(file: &[u8], place: &Place) -> Vec<Posting> {
    let skips = &file[place.skips.clone()];
    let mut rest = &file[place.postings.clone()];
    let mut found = Vec::with_capacity(place.entry.count);
    let mut reader = Reader { strict: false, before: None };
    let mut add = |strict, documents: Vec<u32>, frequencies: Vec<u32>| {
        reader.strict = strict;
        found.extend(documents.into_iter().zip(frequencies).map(|(value, frequency)| Posting {
            document: reader.document(value),
            frequency: frequency + u32::from(strict),
        }));
    };
    for skip in skips.chunks_exact(place.entry.skip_entry_bytes()) {
        let documents = unpacked(&mut rest, usize::from(skip[4] & 31));
        let frequencies = unpacked(&mut rest, usize::from(skip[5]));
        add(skip[4] & 64 != 0, documents, frequencies);
    }
    let tail = place.entry.tail();
    let documents = (0..tail).map(|_| vint(&mut rest)).collect();
    let frequencies = (0..tail).map(|_| vint(&mut rest)).collect();
    add(false, documents, frequencies);
    found
}

/// The next packed block: value i stands in lane i mod 4, low bit first.
fn unpacked(rest: &mut &[u8], width: usize) -> Vec<u32> {
    let (packed, after) = rest.split_at(16 * width);
    *rest = after;
    let word = |place: usize| {
        let bytes = packed.get(place..place + 4).unwrap_or(&[0; 4]);
        u64::from(u32::from_le_bytes([bytes[0], bytes[1], bytes[2], bytes[3]]))
    };
    let value = |i: usize| {
        let (place, lane) = (i / 4 * width, 4 * (i % 4));
        let at = 16 * (place / 32) + lane;
        let bits = (word(at + 16) << 32 | word(at)) >> (place % 32);
        (bits & ((1 << width) - 1)) as u32
    };
    (0..BLOCK).map(value).collect()
}

fn vint(rest: &mut &[u8]) -> u32 {
    let mut number = 0;
    for place in 0..5 {
        let (byte, after) = rest.split_first().expect("an accepted tail has all of its numbers");
        *rest = after;
        number |= u32::from(byte & 127) << (7 * place);
        if byte & 128 != 0 {
            break;
        }
    }
    number
}
