//! The file check as straightforward Rust: each list's sizes first, then one pass over its blocks.
//!
//! An error is the number of the refusal.

use oracle::fieldnorm::id_to_fieldnorm;
use oracle::postings::compression::BlockDecoder;

const BLOCK: usize = 128;
const MOST_FREQUENCY: u32 = 2_013_265_944;

/// 0, or the number of the refusal.
pub fn check(file: &[u8]) -> u32 {
    accept(file).err().unwrap_or(0)
}

fn accept(file: &[u8]) -> Result<(), u32> {
    let header = Header::read(file)?;
    let entries = header.entries(file)?;
    if entries.iter().any(|entry| entry.wrong(header.documents)) {
        return Err(4);
    }
    let cache = header.norms();
    let mut at = 9 + 13 * header.lists;
    let codes = &file[at..at + header.norm_bytes()];
    at += codes.len();
    for entry in &entries {
        let (skips, rest) = file[at..].split_at(entry.skips);
        let postings = &rest[..entry.postings];
        at += entry.skips + entry.postings;
        List { header: &header, cache: &cache, codes, entry, skips, postings }.accept()?;
    }
    Ok(())
}

/// Big-endian bytes as one number: a header is 72 bits long, an entry 104.
fn number(bytes: &[u8]) -> u128 {
    bytes.iter().fold(0, |number, &byte| number << 8 | u128::from(byte))
}

/// The field of `width` bits above the lowest `place`.
fn field(number: u128, place: u32, width: u32) -> u32 {
    (number >> place & ((1 << width) - 1)) as u32
}

struct Header {
    /// A code for all documents; None if each has its own.
    code: Option<u8>,
    lists: usize,
    documents: u32,
    average: f32,
}

impl Header {
    fn read(file: &[u8]) -> Result<Header, u32> {
        let bits = number(file.get(..9).ok_or(1u32)?);
        let code = field(bits, 54, 8) as u8;
        let constant = field(bits, 67, 1) == 1;
        let header = Header {
            code: constant.then_some(code),
            lists: field(bits, 62, 5) as usize,
            documents: field(bits, 33, 21),
            average: f32::from_bits(field(bits, 0, 32)),
        };
        let version_and_spare = (field(bits, 68, 4), field(bits, 32, 1));
        let too_large = header.lists > 16 || header.documents > 1_048_576;
        if version_and_spare != (1, 0) || too_large || (!constant && code != 0) {
            return Err(1);
        }
        // A NaN lies in no range.
        let average_fits = (0.0625..=2_147_483_648.0).contains(&header.average);
        average_fits.then_some(header).ok_or(2)
    }

    fn norm_bytes(&self) -> usize {
        match self.code {
            Some(_) => 0,
            None => self.documents as usize,
        }
    }

    fn entries(&self, file: &[u8]) -> Result<Vec<Entry>, u32> {
        let bytes = file.get(9..9 + 13 * self.lists).ok_or(3u32)?;
        let entries: Vec<Entry> = bytes.chunks_exact(13).map(Entry::read).collect();
        let lists: usize = entries.iter().map(|entry| entry.skips + entry.postings).sum();
        let whole = 9 + bytes.len() + self.norm_bytes() + lists;
        (whole == file.len()).then_some(entries).ok_or(3)
    }

    /// The part of a score that depends on the norm code, for each code.
    fn norms(&self) -> [f32; 256] {
        std::array::from_fn(|code| {
            let length = id_to_fieldnorm(code as u8) as f32;
            1.2 * ((1.0 - 0.75) + (0.75 * length) / self.average)
        })
    }
}

struct Entry {
    weight: f32,
    count: usize,
    skip_size: usize,
    skips: usize,
    postings: usize,
}

impl Entry {
    fn read(bytes: &[u8]) -> Entry {
        let entry = number(bytes);
        Entry {
            weight: f32::from_bits(field(entry, 72, 32)),
            count: field(entry, 51, 21) as usize,
            skip_size: if field(entry, 50, 1) == 0 { 8 } else { 12 },
            skips: field(entry, 26, 24) as usize,
            postings: field(entry, 0, 26) as usize,
        }
    }

    fn wrong(&self, documents: u32) -> bool {
        let weight_fits = self.weight.is_sign_positive() && self.weight <= 1000.0;
        !weight_fits || self.count > documents as usize
    }
}

/// What a skip entry says of its block.
struct Skip {
    last: u32,
    strict: bool,
    width: u8,
    frequency_width: u8,
    norm_code: u8,
    most_frequency: u32,
}

impl Skip {
    fn read(bytes: &[u8]) -> Skip {
        let [norm_code, frequency_code] = [bytes[bytes.len() - 2], bytes[bytes.len() - 1]];
        Skip {
            last: u32::from_le_bytes([bytes[0], bytes[1], bytes[2], bytes[3]]),
            strict: bytes[4] & 64 != 0,
            width: bytes[4] & 31,
            frequency_width: bytes[5],
            norm_code,
            most_frequency: match frequency_code {
                255 => u32::MAX,
                code => u32::from(code),
            },
        }
    }
}

fn vint(rest: &mut &[u8]) -> Result<u32, u32> {
    let mut number = 0u64;
    for place in 0..5 {
        let (&byte, after) = rest.split_first().ok_or(6u32)?;
        *rest = after;
        number |= u64::from(byte & 127) << (7 * place);
        if byte & 128 != 0 {
            return u32::try_from(number).map_err(|_| 6);
        }
    }
    Err(6)
}

/// The documents of a list so far: the next may not lie below `least`.
struct Documents {
    least: u64,
    found: [u32; BLOCK],
}

impl Documents {
    /// Sums are 64 bits wide and cannot wrap. As documents rise, only the last can be the first
    /// that is too high.
    fn sum(&mut self, values: &[u32], strict: bool, below: u32) -> Result<(), u32> {
        let step = u64::from(strict);
        let mut base = if strict { self.least } else { self.least.saturating_sub(1) };
        let mut rises = true;
        for (&value, found) in values.iter().zip(&mut self.found) {
            let document = base + u64::from(value);
            rises &= document >= self.least;
            *found = document as u32;
            self.least = document + 1;
            base = document + step;
        }
        let fits = rises && self.least <= u64::from(below);
        fits.then_some(()).ok_or(7)
    }
}

struct List<'a> {
    header: &'a Header,
    cache: &'a [f32; 256],
    codes: &'a [u8],
    entry: &'a Entry,
    skips: &'a [u8],
    postings: &'a [u8],
}

impl List<'_> {
    fn accept(&self) -> Result<(), u32> {
        let packed = self.packed_bytes()?;
        let mut rest = self.postings.get(packed..).ok_or(6u32)?;
        let tail = self.entry.count % BLOCK;
        let numbers: Vec<u32> = (0..2 * tail).map(|_| vint(&mut rest)).collect::<Result<_, _>>()?;
        if !rest.is_empty() {
            return Err(6);
        }
        let mut documents = Documents { least: 0, found: [0; BLOCK] };
        let blocks = self.blocks(&mut documents)?;
        documents.sum(&numbers[..tail], false, self.header.documents)?;
        let last = self.pairs(&documents.found[..tail], &numbers[tail..], 0, self.bound());
        // Anything wrong with a frequency comes before anything wrong with a bound.
        match blocks.min(last) {
            u32::MAX => Ok(()),
            refusal => Err(refusal),
        }
    }

    /// The bytes of the full blocks, once every skip entry is right.
    fn packed_bytes(&self) -> Result<usize, u32> {
        if self.skips.len() != self.entry.count / BLOCK * self.entry.skip_size {
            return Err(5);
        }
        let mut bytes = 0;
        for skip in self.skips.chunks_exact(self.entry.skip_size) {
            if skip[4] & 0b1010_0000 != 0 || skip[5] > 32 {
                return Err(5);
            }
            bytes += 16 * usize::from((skip[4] & 31) + skip[5]);
        }
        Ok(bytes)
    }

    /// The lowest of refusals 8 and 9 over the full blocks; `u32::MAX` if there is none.
    fn blocks(&self, documents: &mut Documents) -> Result<u32, u32> {
        let mut decoder = BlockDecoder::default();
        let mut rest = self.postings;
        let mut lowest = u32::MAX;
        for skip in self.skips.chunks_exact(self.entry.skip_size).map(Skip::read) {
            let read = decoder.uncompress_block_unsorted(rest, skip.width, false);
            rest = &rest[read..];
            documents.sum(decoder.output_array(), skip.strict, self.header.documents)?;
            if documents.found[BLOCK - 1] != skip.last {
                return Err(7);
            }
            let read = decoder.uncompress_block_unsorted(rest, skip.frequency_width, false);
            rest = &rest[read..];
            let bound = self.score(skip.norm_code, skip.most_frequency).min(self.bound());
            let add = u32::from(skip.strict);
            let refusal = self.pairs(&documents.found, decoder.output_array(), add, bound);
            lowest = lowest.min(refusal);
        }
        Ok(lowest)
    }

    /// 8 or 9 for these postings, or `u32::MAX`. Frequencies are the values with `add` added.
    fn pairs(&self, documents: &[u32], values: &[u32], add: u32, bound: f32) -> u32 {
        let wrong = |&value: &u32| {
            let frequency = value.wrapping_add(add);
            frequency == 0 || frequency > MOST_FREQUENCY
        };
        if values.iter().fold(false, |any, value| any | wrong(value)) {
            return 8;
        }
        let mut over = false;
        for (&document, &value) in documents.iter().zip(values) {
            over |= self.score(self.code(document), value + add) > bound;
        }
        if over {
            return 9;
        }
        u32::MAX
    }

    fn code(&self, document: u32) -> u8 {
        self.header.code.unwrap_or_else(|| self.codes[document as usize])
    }

    fn score(&self, code: u8, frequency: u32) -> f32 {
        let frequency = frequency as f32;
        self.entry.weight * (frequency / (frequency + self.cache[usize::from(code)]))
    }

    fn bound(&self) -> f32 {
        self.score(255, MOST_FREQUENCY)
    }
}
