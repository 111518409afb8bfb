//! Documents and lists with the skew of real notes, the same for the same seed.

use oracle::fieldnorm::{fieldnorm_to_id, id_to_fieldnorm};
use oracle::random::Random;

/// Documents side by side that a topic takes as a whole.
const RANGE: usize = 2048;
/// How much likelier a clustered term is inside its topic.
const TOPIC: f64 = 8.0;
/// A frequency of at least f has the chance 1 / f^1.6: two in three are 1, one in 1,600 is over 100.
const TAIL: f64 = 1.6;

pub struct Collection {
    /// A norm code for each document.
    pub codes: Vec<u8>,
    pub average: f32,
    /// For each range of documents, whether it is on the topic.
    topic: Vec<bool>,
}

pub struct List {
    pub documents: Vec<u32>,
    pub frequencies: Vec<u32>,
}

/// From 0 to 1, both left out.
fn unit(random: &mut Random) -> f64 {
    ((random.word() >> 11) as f64 + 0.5) / (1u64 << 53) as f64
}

/// Nearly normal: the sum of twelve even ones.
fn normal(random: &mut Random) -> f64 {
    (0..12).map(|_| unit(random)).sum::<f64>() - 6.0
}

impl Collection {
    /// Lengths are lognormal, half of them over 55, and cut at 10,000.
    pub fn new(random: &mut Random, documents: usize) -> Collection {
        let lengths: Vec<u32> = (0..documents)
            .map(|_| (4.0 + 0.8 * normal(random)).exp().clamp(1.0, 10_000.0) as u32)
            .collect();
        let tokens: u64 = lengths.iter().map(|&length| u64::from(length)).sum();
        Collection {
            average: tokens as f32 / documents as f32,
            codes: lengths.into_iter().map(fieldnorm_to_id).collect(),
            topic: (0..documents.div_ceil(RANGE)).map(|_| random.one_in(8)).collect(),
        }
    }

    fn length(&self, document: usize) -> u32 {
        id_to_fieldnorm(self.codes[document])
    }

    fn rate(&self, document: usize, clustered: bool) -> f64 {
        let topic = if clustered && self.topic[document / RANGE] { TOPIC } else { 1.0 };
        topic * f64::from(self.length(document))
    }

    /// A term in `count` documents, the long ones first to have it: each document waits for the
    /// term, at its rate, and those that waited least have it.
    pub fn list(&self, random: &mut Random, count: usize, clustered: bool) -> List {
        let mut waits: Vec<(f64, u32)> = (0..self.codes.len())
            .map(|document| (-unit(random).ln() / self.rate(document, clustered), document as u32))
            .collect();
        if count < waits.len() {
            waits.select_nth_unstable_by(count, |a, b| a.0.total_cmp(&b.0));
        }
        let mut documents: Vec<u32> =
            waits[..count].iter().map(|&(_, document)| document).collect();
        documents.sort_unstable();
        let frequencies = documents.iter().map(|&document| self.frequency(random, document));
        List { frequencies: frequencies.collect(), documents }
    }

    /// No term stands in a document more often than the document has words.
    fn frequency(&self, random: &mut Random, document: u32) -> u32 {
        let frequency = unit(random).powf(-1.0 / TAIL).min(10_000.0) as u32;
        frequency.min(self.length(document as usize)).max(1)
    }
}
