//! A note file as it is about to be written: every field open to damage.

pub const BLOCK: usize = 128;

/// A full block: its skip entry and its numbers as they will be packed.
#[derive(Clone, Default)]
pub struct Block {
    pub last: u32,
    pub strict: bool,
    pub width: u8,
    pub frequency_width: u8,
    /// Bits laid over the width byte, and a frequency width that only the entry claims.
    pub width_flips: u8,
    pub claimed_frequency_width: Option<u8>,
    pub sum: u32,
    pub norm_code: u8,
    pub frequency_code: u8,
    pub documents: Vec<u64>,
    pub frequencies: Vec<u64>,
}

#[derive(Clone, Copy, Debug)]
pub struct Posting {
    pub document: u32,
    pub frequency: u32,
}

#[derive(Clone, Default)]
pub struct List {
    pub weight: f32,
    pub count: u64,
    pub kind: u64,
    /// What the list means before any damage.
    pub postings: Vec<Posting>,
    pub blocks: Vec<Block>,
    /// The tail's VInts, each as its bytes.
    pub tail_documents: Vec<Vec<u8>>,
    pub tail_frequencies: Vec<Vec<u8>>,
    pub more_skip: Vec<u8>,
    pub more_postings: Vec<u8>,
    pub cut_postings: usize,
    /// Bytes that the entry counts to the skip entries and takes from the postings.
    pub skip_shift: i64,
    /// What the entry adds to a length without any bytes for it.
    pub skip_lie: i64,
    pub postings_lie: i64,
}

#[derive(Clone, Default)]
pub struct Draft {
    pub version: u64,
    pub norm_kind: u64,
    pub claimed_lists: Option<u64>,
    pub norm_code: u8,
    pub documents: u64,
    pub spare: u64,
    pub average: f32,
    pub norms: Vec<u8>,
    pub lists: Vec<List>,
    pub cut_to: Option<usize>,
    pub more: Vec<u8>,
}

/// Writes fields, most significant bit first.
#[derive(Default)]
pub(crate) struct Fields {
    bits: Vec<u8>,
}

impl Fields {
    pub(crate) fn put(&mut self, value: u64, width: u32) {
        self.bits.extend((0..width).rev().map(|bit| (value >> bit & 1) as u8));
    }

    pub(crate) fn into_bytes(self) -> Vec<u8> {
        self.bits.chunks(8).map(|bits| bits.iter().fold(0, |byte, bit| byte << 1 | bit)).collect()
    }
}

pub fn bits_of(value: u64) -> u8 {
    (64 - value.leading_zeros()) as u8
}

/// Lays each value's bits into its lane.
pub fn pack(values: &[u64], width: u8) -> Vec<u8> {
    let mut packed = vec![0u8; 16 * usize::from(width)];
    for (i, value) in values.iter().enumerate() {
        for bit in 0..usize::from(width) {
            let place = i / 4 * usize::from(width) + bit;
            let byte = 16 * (place / 32) + 4 * (i % 4) + place % 32 / 8;
            packed[byte] |= ((value >> bit & 1) as u8) << (place % 8);
        }
    }
    packed
}

/// A VInt of at least `bytes` bytes.
pub fn vint(mut value: u64, bytes: usize) -> Vec<u8> {
    let mut out = vec![(value & 127) as u8];
    value >>= 7;
    while value != 0 || out.len() < bytes {
        out.push((value & 127) as u8);
        value >>= 7;
    }
    if let Some(last) = out.last_mut() {
        *last |= 128;
    }
    out
}

impl Block {
    fn skip_entry(&self, kind: u64) -> Vec<u8> {
        let mut bytes = self.last.to_le_bytes().to_vec();
        let width_byte = self.width | u8::from(self.strict) << 6;
        bytes.push(width_byte ^ self.width_flips);
        bytes.push(self.claimed_frequency_width.unwrap_or(self.frequency_width));
        if kind == 1 {
            bytes.extend(self.sum.to_le_bytes());
        }
        bytes.extend([self.norm_code, self.frequency_code]);
        bytes
    }

    /// Widens the packing until every number fits.
    pub fn fit(&mut self) {
        let widest = |values: &[u64]| values.iter().map(|&value| bits_of(value)).max();
        self.width = self.width.max(widest(&self.documents).unwrap_or(0));
        self.frequency_width = self.frequency_width.max(widest(&self.frequencies).unwrap_or(0));
    }

    /// Turns a strict block into one that is not, with the same meaning.
    pub fn loosen(&mut self, first: bool) {
        if !self.strict {
            return;
        }
        self.strict = false;
        for (i, value) in self.documents.iter_mut().enumerate() {
            *value += u64::from(!(first && i == 0));
        }
        for value in &mut self.frequencies {
            // No frequency may need more than 32 bits.
            *value = (*value + 1).min(u64::from(u32::MAX));
        }
        self.fit();
    }
}

impl List {
    /// The skip bytes take the shape of `packed_kind`, whatever the entry claims.
    fn skips(&self, packed_kind: u64) -> Vec<u8> {
        let mut bytes: Vec<u8> =
            self.blocks.iter().flat_map(|block| block.skip_entry(packed_kind)).collect();
        bytes.extend(&self.more_skip);
        bytes
    }

    fn postings(&self) -> Vec<u8> {
        let mut bytes = Vec::new();
        for block in &self.blocks {
            bytes.extend(pack(&block.documents, block.width));
            bytes.extend(pack(&block.frequencies, block.frequency_width));
        }
        let tail = self.tail_documents.iter().chain(&self.tail_frequencies);
        bytes.extend(tail.flatten());
        bytes.extend(&self.more_postings);
        bytes.truncate(bytes.len() - self.cut_postings.min(bytes.len()));
        bytes
    }

    pub fn postings_length(&self) -> usize {
        let packed = |block: &Block| 16 * usize::from(block.width + block.frequency_width);
        let tail = self.tail_documents.iter().chain(&self.tail_frequencies);
        let whole = self.blocks.iter().map(packed).sum::<usize>()
            + tail.map(Vec::len).sum::<usize>()
            + self.more_postings.len();
        whole - self.cut_postings.min(whole)
    }

    fn entry(&self, skips: usize, postings: usize) -> Vec<u8> {
        let mut fields = Fields::default();
        fields.put(u64::from(self.weight.to_bits()), 32);
        fields.put(self.count, 21);
        fields.put(self.kind & 1, 1);
        fields.put((skips as i64 + self.skip_shift + self.skip_lie) as u64, 24);
        fields.put((postings as i64 - self.skip_shift + self.postings_lie) as u64, 26);
        fields.into_bytes()
    }
}

/// A kind whose bit 1 is set claims the one shape and has the other.
pub const KIND_LIES: u64 = 2;

impl Draft {
    pub fn code(&self, document: u32) -> u8 {
        match self.norm_kind {
            0 => self.norms[document as usize],
            _ => self.norm_code,
        }
    }

    fn header(&self) -> Vec<u8> {
        let mut fields = Fields::default();
        fields.put(self.version, 4);
        fields.put(self.norm_kind, 1);
        fields.put(self.claimed_lists.unwrap_or(self.lists.len() as u64), 5);
        fields.put(u64::from(self.norm_code), 8);
        fields.put(self.documents, 21);
        fields.put(self.spare, 1);
        fields.put(u64::from(self.average.to_bits()), 32);
        fields.into_bytes()
    }

    pub fn bytes(&self) -> Vec<u8> {
        let mut file = self.header();
        let mut parts = Vec::new();
        for list in &self.lists {
            let packed_kind = (list.kind & 1) ^ (list.kind / KIND_LIES);
            let (skips, postings) = (list.skips(packed_kind), list.postings());
            file.extend(list.entry(skips.len(), postings.len()));
            parts.extend(skips);
            parts.extend(postings);
        }
        if self.norm_kind == 0 {
            file.extend(&self.norms);
        }
        file.extend(parts);
        file.extend(&self.more);
        file.truncate(self.cut_to.unwrap_or(file.len()));
        file
    }
}
