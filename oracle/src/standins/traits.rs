//! Traits and options that the published files share.

use crate::{DocSet, Score};

pub trait Scorer: DocSet + 'static {
    fn score(&mut self) -> Score;
}

pub trait Postings: DocSet + 'static {
    fn term_freq(&self) -> u32;
    #[allow(dead_code)] // Positions are left out; the published files still write it.
    fn append_positions_with_offset(&mut self, offset: u32, output: &mut Vec<u32>);
}

/// Whether frequencies are there and wanted. Here they always are.
#[derive(Clone, Copy, Debug, PartialEq, Eq)]
#[allow(clippy::enum_variant_names)] // The published files use these names.
pub enum FreqReadingOption {
    NoFreq,
    SkipFreq,
    ReadFreq,
}
