//! Names from the rest of the index that the published files mention and never reach here.
//!
//! Types without values: a call to one of their methods cannot happen.

use std::sync::Arc;

use crate::{DocId, Score};

pub mod directory {
    pub use super::CompositeFile;
    pub use crate::standins::bytes::{FileSlice, OwnedBytes};
}

pub mod fastfield {
    pub use super::AliveBitSet;
}

pub mod positions {
    pub use super::PositionReader;
}

pub mod schema {
    pub use super::{Field, IndexRecordOption, Schema};
}

pub mod space_usage {
    pub use super::PerFieldSpaceUsage;
}

#[derive(Clone, Copy, Debug, PartialEq, Eq)]
pub struct Field;
pub enum Schema {}
pub enum Term {}
pub enum Searcher {}
pub enum SegmentReader {}
pub enum InvertedIndexReader {}
pub enum CompositeFile {}
pub enum PerFieldSpaceUsage {}
pub enum AliveBitSet {}
pub enum TinySet {}

#[derive(Clone)]
pub enum PositionReader {}

/// How much a list records. Both kinds of the note file record frequencies.
#[derive(Clone, Copy, Debug, PartialEq, Eq)]
pub enum IndexRecordOption {
    Basic,
    WithFreqs,
    WithFreqsAndPositions,
}

impl Term {
    pub fn field(&self) -> Field {
        match *self {}
    }
}

impl Searcher {
    pub fn segment_readers(&self) -> &[SegmentReader] {
        match *self {}
    }

    pub fn doc_freq(&self, _term: &Term) -> crate::Result<u64> {
        match *self {}
    }
}

impl SegmentReader {
    pub fn inverted_index(&self, _field: Field) -> crate::Result<Arc<InvertedIndexReader>> {
        match *self {}
    }

    pub fn max_doc(&self) -> DocId {
        match *self {}
    }
}

impl InvertedIndexReader {
    pub fn total_num_tokens(&self) -> u64 {
        match *self {}
    }
}

impl CompositeFile {
    pub fn open(_file: &directory::FileSlice) -> crate::Result<CompositeFile> {
        Err(std::io::Error::from(std::io::ErrorKind::Unsupported))
    }

    pub fn open_read(&self, _field: Field) -> Option<directory::FileSlice> {
        match *self {}
    }

    pub fn space_usage(&self, _schema: &Schema) -> PerFieldSpaceUsage {
        match *self {}
    }
}

impl AliveBitSet {
    pub fn is_alive(&self, _document: DocId) -> bool {
        match *self {}
    }
}

impl TinySet {
    pub fn insert_mut(&mut self, _bit: u32) -> bool {
        match *self {}
    }
}

impl PositionReader {
    pub fn read(&mut self, _offset: u64, _output: &mut [u32]) {
        match *self {}
    }
}

/// Only the value of an explanation matters to a weight.
#[derive(Clone)]
pub struct Explanation {
    value: Score,
}

impl Explanation {
    pub fn new(_description: &'static str, value: Score) -> Explanation {
        Explanation { value }
    }

    pub fn value(&self) -> Score {
        self.value
    }

    pub fn add_detail(&mut self, _detail: Explanation) {}

    pub fn add_const(&mut self, _description: &'static str, _value: Score) {}
}
