//! The writers side by side, what they wrote read back, and a tally of what was compared.
//!
//! The published files have only the pieces of a writer; they are compared list by list.

use std::collections::{BTreeMap, BTreeSet};
use std::fmt;

use crate::compare::{check_aim, same, same_lists};
use crate::contents::{Contents, Written};
use crate::engine::Source;
use crate::plain::{self, NoteFile};
use crate::writes::Aimed;
use crate::{pieces, writer};

fn equal<T: PartialEq + fmt::Debug>(what: &str, a: T, b: T) -> Result<(), String> {
    (a == b).then_some(()).ok_or_else(|| format!("{what}: {a:?} and {b:?}"))
}

/// What the plain reader finds in the file is what went in.
fn same_contents(contents: &Contents, file: &NoteFile) -> Result<(), String> {
    let code = (contents.kind == 1).then_some(contents.code as u8);
    equal("documents", file.documents, contents.documents)?;
    equal("norm code", file.norm_code, code)?;
    same("norms", &file.norms, &contents.norms)?;
    equal("average", file.average.to_bits(), contents.average.to_bits())?;
    let lists = contents.lists();
    equal("lists", file.lists.len(), lists.len())?;
    for (number, (read, list)) in file.lists.iter().zip(lists).enumerate() {
        equal(&format!("weight of list {number}"), read.weight.to_bits(), list.weight.to_bits())?;
        same(&format!("documents of list {number}"), &read.documents, list.docs)?;
        same(&format!("frequencies of list {number}"), &read.frequencies, list.freqs)?;
    }
    Ok(())
}

/// The published encoders make the same skip entries, blocks and VInts.
fn same_pieces(contents: &Contents) -> Result<(), String> {
    for (number, list) in contents.lists().iter().enumerate() {
        let (plain, published) = (writer::parts(contents, list), pieces::parts(contents, list));
        same(&format!("skip bytes of list {number} and published"), &plain.0, &published.0)?;
        same(&format!("postings of list {number} and published"), &plain.1, &published.1)?;
    }
    Ok(())
}

/// The file is accepted, and the plain reader and the published one read what went in.
fn read_back(contents: &Contents, file: &[u8]) -> Result<(), String> {
    let read = plain::read_file(file).map_err(|code| format!("the file is refused with {code}"))?;
    same_contents(contents, &read)?;
    same_lists(&Source::read(file), &read)
}

/// A score lies above the list's bound, and above no pair's.
fn through_the_list_bound(contents: &Contents) -> Result<(), String> {
    match writer::refusal(contents) {
        Some((9, list)) if writer::pairs_cover(contents, &contents.lists()[list]) => Ok(()),
        other => Err(format!("refused with 9, and not by the list's bound alone: {other:?}")),
    }
}

/// Compares one write on every engine. An error is a difference that should not be.
pub fn compare(aimed: &Aimed) -> Result<Written, String> {
    let contents = &aimed.contents;
    let plain = writer::write(contents);
    check_aim(&aimed.aim, plain.code)?;
    match plain.code {
        0 => {
            read_back(contents, &plain.bytes)?;
            same_pieces(contents)?;
        }
        9 => through_the_list_bound(contents)?,
        _ => (),
    }
    #[cfg(feature = "archive")]
    crate::archive::compare_write(contents, &plain)?;
    Ok(plain)
}

#[derive(Default)]
pub struct Tally {
    cases: u64,
    codes: BTreeMap<u32, u64>,
    names: BTreeMap<&'static str, u64>,
    /// Pairs of faults, by their number.
    pairs: u64,
    kinds: [u64; 2],
    counts: BTreeMap<u32, u64>,
    blocks: u64,
    widths: BTreeSet<u8>,
    frequency_widths: BTreeSet<u8>,
    /// Blocks whose pair has the code 254, and 255.
    high_codes: [u64; 2],
    bytes: u64,
}

/// Lengths of lists that are counted by themselves.
const COUNTS: [u32; 6] = [0, 1, 127, 128, 129, 256];

impl Tally {
    pub fn add(&mut self, aimed: &Aimed, written: &Written) {
        self.cases += 1;
        *self.codes.entry(written.code).or_default() += 1;
        self.pairs += u64::from(aimed.names.len() > 1);
        for name in &aimed.names {
            *self.names.entry(name).or_default() += 1;
        }
        if written.code == 0 {
            self.add_file(&aimed.contents, &written.bytes);
        }
    }

    fn add_file(&mut self, contents: &Contents, file: &[u8]) {
        self.kinds[contents.kind as usize] += 1;
        self.bytes += file.len() as u64;
        for count in contents.counts.iter().filter(|count| COUNTS.contains(count)) {
            *self.counts.entry(*count).or_default() += 1;
        }
        for entry in plain::skip_bytes(file).chunks_exact(8) {
            self.blocks += 1;
            self.widths.insert(entry[4] & 31);
            self.frequency_widths.insert(entry[5]);
            self.high_codes[0] += u64::from(entry[7] == 254);
            self.high_codes[1] += u64::from(entry[7] == 255);
        }
    }
}

fn span(widths: &BTreeSet<u8>) -> String {
    match (widths.first(), widths.last()) {
        (Some(first), Some(last)) => format!("{} from {first} to {last}", widths.len()),
        _ => "none".to_string(),
    }
}

impl fmt::Display for Tally {
    fn fmt(&self, f: &mut fmt::Formatter) -> fmt::Result {
        writeln!(f, "cases {}", self.cases)?;
        for (code, count) in &self.codes {
            writeln!(f, "returned {code}: {count}")?;
        }
        writeln!(
            f,
            "files with a code for each document {}, with one {}",
            self.kinds[0], self.kinds[1]
        )?;
        writeln!(f, "bytes {}, full blocks {}", self.bytes, self.blocks)?;
        writeln!(f, "widths of documents: {}", span(&self.widths))?;
        writeln!(f, "widths of frequencies: {}", span(&self.frequency_widths))?;
        writeln!(
            f,
            "pairs of frequency code 254: {}, of 255: {}",
            self.high_codes[0], self.high_codes[1]
        )?;
        for (count, lists) in &self.counts {
            writeln!(f, "lists of {count}: {lists}")?;
        }
        writeln!(f, "cases of two faults: {}", self.pairs)?;
        for (name, count) in &self.names {
            writeln!(f, "aimed at {name}: {count}")?;
        }
        Ok(())
    }
}
