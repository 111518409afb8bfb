//! The published Rust as an oracle for the note file's ranking.
//!
//! Three engines answer the same cases: [`plain`] is the paper as a program, [`engine`] runs the
//! published files over stand-ins, and `archive` (a feature) calls the proved code through its C
//! interface.

// The published files name these two crates; the stand-ins take their place.
extern crate self as bitpacking;
extern crate self as common;

include!(concat!(env!("OUT_DIR"), "/published.rs"));

mod standins;

// Names that the published files expect at the root of their crate.
pub(crate) use docset::{DocSet, TERMINATED};
pub(crate) use standins::bit_packer::{BitPacker, BitPacker4x};
pub(crate) use standins::bytes::{HasLen, VInt};
pub(crate) use standins::index::{directory, fastfield, positions, schema, space_usage};
pub(crate) use standins::index::{Searcher, Term, TinySet};

/// A document's number.
pub type DocId = u32;
/// A score, as in the published files.
pub type Score = f32;
pub(crate) type Result<T> = std::io::Result<T>;

#[cfg(feature = "archive")]
pub mod archive;
pub mod case;
pub mod command;
pub mod compare;
pub mod contents;
pub mod damage;
pub mod draft;
pub mod engine;
pub mod faults;
pub mod find_compare;
pub mod finder;
pub mod finds;
pub mod generate;
pub mod pieces;
pub mod plain;
pub mod random;
pub mod runs;
pub mod shapes;
pub mod small;
pub mod write_compare;
pub mod writer;
pub mod writes;
