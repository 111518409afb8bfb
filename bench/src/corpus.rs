//! The generated documents and lists, and the files made of them.

use std::cell::LazyCell;
use std::collections::HashMap;

use oracle::contents::Contents;
use oracle::engine::Source;
use oracle::fieldnorm::id_to_fieldnorm;
use oracle::random::Random;
use oracle::writer;

use crate::data::{Collection, List};
use crate::file::{weight, write, Packed};

const SEED: u64 = 7;
pub const MOST_LISTS: usize = 16;
const MOST_DOCUMENTS: usize = 1_048_576;
const SHORTEST: f64 = 50_000.0;
const LONGEST: f64 = 800_000.0;

/// Documents, and postings of each list.
fn sizes(lists: usize, postings: usize) -> (usize, usize) {
    let length = postings / lists;
    ((length * 5 / 3).min(MOST_DOCUMENTS), length)
}

/// Contents of that shape, for the writers.
pub fn contents(lists: usize, postings: usize) -> Contents {
    let (documents, length) = sizes(lists, postings);
    let mut random = Random::new(SEED);
    let collection = Collection::new(&mut random, documents);
    let list = |number| collection.list(&mut random, length, number % 2 == 1);
    let made: Vec<List> = (0..lists).map(list).collect();
    Contents {
        documents: documents as u32,
        average: collection.average,
        weights: vec![weight(length, documents); lists],
        counts: vec![length as u32; lists],
        docs: made.iter().flat_map(|list| &list.documents).copied().collect(),
        freqs: made.iter().flat_map(|list| &list.frequencies).copied().collect(),
        norms: collection.codes,
        ..Contents::default()
    }
}

/// A list of all documents whose scores rise with the document. All have the largest norm code, and
/// frequencies by which each score is nearly its place among the documents. Stepped scores rise too
/// with up to some 300,000 documents: more have not a step each.
fn rising(documents: usize) -> Contents {
    const AVERAGE: f32 = 2_000.0;
    let norm = 1.2 * (0.25 + 0.75 * f64::from(id_to_fieldnorm(255)) / f64::from(AVERAGE));
    let frequency = |document: usize| {
        let part = 0.9 * (document + 1) as f64 / documents as f64;
        (norm * part / (1.0 - part)).ceil() as u32
    };
    Contents {
        documents: documents as u32,
        kind: 1,
        code: 255,
        average: AVERAGE,
        weights: vec![1000.0],
        counts: vec![documents as u32],
        docs: (0..documents as u32).collect(),
        freqs: (0..documents).map(frequency).collect(),
        ..Contents::default()
    }
}

/// What a file is made of.
#[derive(Clone, Copy, PartialEq, Eq, Hash)]
pub enum Kind {
    /// Lists of the corpus.
    Large,
    /// About so many postings, in lists that hold 60 in 100 documents each.
    Small(usize),
    /// So many documents, with scores that rise with the document.
    Rising(usize),
}

/// Files by their number of lists and their kind, each made once.
pub struct Files {
    corpus: LazyCell<Corpus>,
    made: HashMap<(usize, Kind), Prepared>,
}

impl Files {
    pub fn new() -> Files {
        Files { corpus: LazyCell::new(Corpus::new), made: HashMap::new() }
    }

    pub fn get(&mut self, lists: usize, kind: Kind) -> &Prepared {
        self.made.entry((lists, kind)).or_insert_with(|| match kind {
            Kind::Large => self.corpus.prepare(lists),
            Kind::Small(postings) => Corpus::of_postings(lists, postings),
            Kind::Rising(documents) => {
                Prepared::new(lists, documents, writer::file(&rising(documents)))
            }
        })
    }
}

pub struct Corpus {
    collection: Collection,
    /// From the shortest to the longest.
    lists: Vec<Packed>,
}

/// A file, and the same file opened for the published run.
pub struct Prepared {
    pub lists: usize,
    pub postings: usize,
    pub file: Vec<u8>,
    pub source: Source,
}

impl Prepared {
    fn new(lists: usize, postings: usize, file: Vec<u8>) -> Prepared {
        Prepared { lists, postings, source: Source::read(&file), file }
    }
}

impl Corpus {
    /// Lists of these lengths, every second one clustered.
    fn of_lengths(documents: usize, lengths: impl Iterator<Item = usize>) -> Corpus {
        let mut random = Random::new(SEED);
        let collection = Collection::new(&mut random, documents);
        let lists = lengths.enumerate().map(|(number, length)| {
            let list = collection.list(&mut random, length, number % 2 == 1);
            Packed::new(&mut random, &collection, &list)
        });
        Corpus { lists: lists.collect(), collection }
    }

    /// Sixteen lists, each longer than the one before by the same factor.
    pub fn new() -> Corpus {
        let factor = (LONGEST / SHORTEST).powf(1.0 / (MOST_LISTS - 1) as f64);
        let length = |number| (SHORTEST * factor.powi(number)).round() as usize;
        Corpus::of_lengths(MOST_DOCUMENTS, (0..MOST_LISTS as i32).map(length))
    }

    /// A file of about so many postings, in lists that hold 60 in 100 documents each.
    pub fn of_postings(lists: usize, postings: usize) -> Prepared {
        let (documents, length) = sizes(lists, postings);
        let corpus = Corpus::of_lengths(documents, (0..lists).map(|_| length));
        corpus.file_of(&corpus.lists.iter().collect::<Vec<_>>())
    }

    /// A file with these many of the lists and no others, from the shortest to the longest in even
    /// steps, so that the check of unused lists does not bury the run.
    pub fn prepare(&self, lists: usize) -> Prepared {
        let place = |i| match lists {
            1 => MOST_LISTS / 2,
            _ => i * (MOST_LISTS - 1) / (lists - 1),
        };
        self.file_of(&(0..lists).map(|i| &self.lists[place(i)]).collect::<Vec<_>>())
    }

    fn file_of(&self, chosen: &[&Packed]) -> Prepared {
        let postings = chosen.iter().map(|list| list.count).sum();
        Prepared::new(chosen.len(), postings, write(&self.collection, chosen))
    }
}
