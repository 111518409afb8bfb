//! Lists and files in the note file's layout, their blocks packed by the published encoder.

use oracle::draft::vint;
use oracle::fieldnorm::id_to_fieldnorm;
use oracle::postings::compression::BlockEncoder;
use oracle::random::Random;

use crate::data::{Collection, List};

const BLOCK: usize = 128;

/// A list as the file holds it.
pub struct Packed {
    pub count: usize,
    weight: f32,
    with_positions: bool,
    skips: Vec<u8>,
    postings: Vec<u8>,
}

/// Fields, most significant first, in the lowest bytes of one number.
fn fields(parts: &[(u64, u32)]) -> Vec<u8> {
    let number = parts.iter().fold(0u128, |all, &(value, bits)| all << bits | u128::from(value));
    let bits: u32 = parts.iter().map(|&(_, bits)| bits).sum();
    number.to_be_bytes()[16 - bits as usize / 8..].to_vec()
}

/// The weight of a term by the number of its documents, as the published weights are made.
pub fn weight(count: usize, documents: usize) -> f32 {
    let (count, documents) = (count as f32, documents as f32);
    (1.0 + (documents - count + 0.5) / (count + 0.5)).ln() * (1.0 + 1.2)
}

/// The pair of norm code and frequency with the best score, as the published writer picks it.
fn best_pair(collection: &Collection, documents: &[u32], frequencies: &[u32]) -> [u8; 2] {
    let mut best = (0.0, [0, 0]);
    for (&document, &frequency) in documents.iter().zip(frequencies) {
        let code = collection.codes[document as usize];
        let norm = 1.2 * (0.25 + 0.75 * id_to_fieldnorm(code) as f32 / collection.average);
        let factor = frequency as f32 / (frequency as f32 + norm);
        if factor >= best.0 {
            best = (factor, [code, frequency.min(255) as u8]);
        }
    }
    best.1
}

fn differences(before: u32, documents: &[u32]) -> Vec<u32> {
    let previous = std::iter::once(&before).chain(documents);
    documents.iter().zip(previous).map(|(document, previous)| document - previous).collect()
}

impl Packed {
    /// Most blocks are strict, as new ones are; one in four is of the older kind.
    pub fn new(random: &mut Random, collection: &Collection, list: &List) -> Packed {
        let mut packed = Packed {
            count: list.documents.len(),
            weight: weight(list.documents.len(), collection.codes.len()),
            with_positions: random.one_in(2),
            skips: Vec::new(),
            postings: Vec::new(),
        };
        let mut before = 0;
        for (documents, frequencies) in
            list.documents.chunks(BLOCK).zip(list.frequencies.chunks(BLOCK))
        {
            if documents.len() == BLOCK {
                let strict = !random.one_in(4);
                packed.block(before, documents, frequencies, strict);
                packed.skips.extend(best_pair(collection, documents, frequencies));
            } else {
                packed.tail(before, documents, frequencies);
            }
            before = documents[documents.len() - 1];
        }
        packed
    }

    /// A full block and all of its skip entry but the pair.
    fn block(&mut self, before: u32, documents: &[u32], frequencies: &[u32], strict: bool) {
        let mut encoder = BlockEncoder::new();
        let (width, bytes) = match strict {
            true => encoder.compress_block_sorted(documents, before),
            false => encoder.compress_block_unsorted(&differences(before, documents), false),
        };
        self.postings.extend_from_slice(bytes);
        self.skips.extend(documents[BLOCK - 1].to_le_bytes());
        self.skips.push(width | u8::from(strict) << 6);
        let (width, bytes) = encoder.compress_block_unsorted(frequencies, strict);
        self.postings.extend_from_slice(bytes);
        self.skips.push(width);
        if self.with_positions {
            self.skips.extend(frequencies.iter().sum::<u32>().to_le_bytes());
        }
    }

    fn tail(&mut self, before: u32, documents: &[u32], frequencies: &[u32]) {
        let documents = differences(before, documents);
        for &number in documents.iter().chain(frequencies) {
            self.postings.extend(vint(u64::from(number), 1));
        }
    }

    fn entry(&self) -> Vec<u8> {
        fields(&[
            (u64::from(self.weight.to_bits()), 32),
            (self.count as u64, 21),
            (u64::from(self.with_positions), 1),
            (self.skips.len() as u64, 24),
            (self.postings.len() as u64, 26),
        ])
    }
}

/// A file of these lists, with a norm byte for each document.
pub fn write(collection: &Collection, lists: &[&Packed]) -> Vec<u8> {
    let mut file = fields(&[
        (1, 4),
        (0, 1),
        (lists.len() as u64, 5),
        (0, 8),
        (collection.codes.len() as u64, 21),
        (0, 1),
        (u64::from(collection.average.to_bits()), 32),
    ]);
    file.extend(lists.iter().flat_map(|list| list.entry()));
    file.extend(&collection.codes);
    for list in lists {
        file.extend(&list.skips);
        file.extend(&list.postings);
    }
    file
}
