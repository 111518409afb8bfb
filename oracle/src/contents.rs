//! Contents to be written, with their text form; and what a write gives.

use std::fmt::Write;

use crate::case::{bytes, each, float, from_bits, hex};

/// The arguments of the C interface, so that numbers outside it can be tried too.
#[derive(Clone, Debug, Default)]
pub struct Contents {
    pub documents: u32,
    pub kind: u32,
    pub code: u32,
    pub norms: Vec<u8>,
    pub average: f32,
    pub weights: Vec<f32>,
    pub counts: Vec<u32>,
    pub docs: Vec<u32>,
    pub freqs: Vec<u32>,
    pub out_len: usize,
}

/// A refused write has length 0 and no bytes.
#[derive(Clone, Debug, PartialEq, Eq)]
pub struct Written {
    pub code: u32,
    pub length: u32,
    pub bytes: Vec<u8>,
}

impl Written {
    pub fn refused(code: u32) -> Written {
        Written { code, length: 0, bytes: Vec::new() }
    }

    pub fn done(bytes: Vec<u8>) -> Written {
        Written { code: 0, length: bytes.len() as u32, bytes }
    }
}

/// One list's part of contents whose buffers match.
#[derive(Clone, Copy)]
pub struct List<'a> {
    pub weight: f32,
    pub docs: &'a [u32],
    pub freqs: &'a [u32],
}

impl Contents {
    /// Where each list's postings stand, as far as docs and freqs reach.
    pub fn places(&self) -> Vec<std::ops::Range<usize>> {
        let end = self.docs.len().min(self.freqs.len());
        let mut at = 0;
        let mut place = |&count: &u32| {
            let from = at;
            at = end.min(at + count as usize);
            from..at
        };
        self.counts.iter().map(&mut place).collect()
    }

    pub fn lists(&self) -> Vec<List<'_>> {
        let list = |(place, &weight): (std::ops::Range<usize>, &f32)| List {
            weight,
            docs: &self.docs[place.clone()],
            freqs: &self.freqs[place],
        };
        self.places().into_iter().zip(&self.weights).map(list).collect()
    }

    /// The norm code of a document that there is.
    pub fn norm(&self, document: u32) -> u8 {
        match self.kind {
            0 => self.norms[document as usize],
            _ => self.code as u8,
        }
    }

    /// One line a field: a name, then its values. Floats stand as their bits.
    pub fn to_text(&self) -> String {
        let mut text = String::new();
        let mut line = |name: &str, values: &[String]| {
            let _ = writeln!(text, "{name} {}", values.join(" "));
        };
        let words = |values: &[u32]| values.iter().map(u32::to_string).collect::<Vec<_>>();
        line("documents", &[self.documents.to_string()]);
        line("kind", &[self.kind.to_string()]);
        line("code", &[self.code.to_string()]);
        line("norms", &[hex(&self.norms)]);
        line("average", &[float(self.average)]);
        line("weights", &self.weights.iter().map(|&weight| float(weight)).collect::<Vec<_>>());
        line("counts", &words(&self.counts));
        line("docs", &words(&self.docs));
        line("freqs", &words(&self.freqs));
        line("out_len", &[self.out_len.to_string()]);
        text
    }

    /// Reads the text form, without lines that start with `#`; any other line is an error.
    pub fn from_text(text: &str) -> Result<Contents, String> {
        let mut contents = Contents::default();
        let fields = text.lines().filter(|line| !line.trim().is_empty() && !line.starts_with('#'));
        for line in fields {
            let mut words = line.split_whitespace();
            let name = words.next().unwrap_or_default();
            let values: Vec<&str> = words.collect();
            let set = contents.set(name, &values);
            set.ok_or_else(|| format!("cannot read the line of {name:?}"))?;
        }
        Ok(contents)
    }

    fn set(&mut self, name: &str, values: &[&str]) -> Option<()> {
        let one = || values.first().copied().filter(|_| values.len() == 1);
        let words = || each(values, |word| word.parse().ok());
        match name {
            "documents" => self.documents = one()?.parse().ok()?,
            "kind" => self.kind = one()?.parse().ok()?,
            "code" => self.code = one()?.parse().ok()?,
            "norms" => self.norms = bytes(&values.concat())?,
            "average" => self.average = from_bits(one()?)?,
            "weights" => self.weights = each(values, from_bits)?,
            "counts" => self.counts = words()?,
            "docs" => self.docs = words()?,
            "freqs" => self.freqs = words()?,
            "out_len" => self.out_len = one()?.parse().ok()?,
            _ => return None,
        }
        Some(())
    }
}
