//! The paper as a program: the note file, the table of refusals and the plain scan.
//!
//! Written from the paper alone. Sizes and sums are 64 bits wide and cannot wrap.

use crate::case::{Case, Outcome, Row};

const HEADER_BYTES: u64 = 9;
const ENTRY_BYTES: u64 = 13;
const BLOCK: u64 = 128;
const MOST_LISTS: u64 = 16;
const MOST_DOCUMENTS: u64 = 1_048_576;
const MOST_FREQUENCY: u64 = 2_013_265_944;
const LIST_BOUND_CODE: u8 = 255;

/// Reads fields bit by bit, most significant first.
struct Fields<'a> {
    bytes: &'a [u8],
    at: usize,
}

impl<'a> Fields<'a> {
    fn new(bytes: &'a [u8]) -> Self {
        Fields { bytes, at: 0 }
    }

    fn bit(&mut self) -> u64 {
        let byte = self.bytes[self.at / 8];
        let bit = byte >> (7 - self.at % 8) & 1;
        self.at += 1;
        u64::from(bit)
    }

    fn take(&mut self, width: u32) -> u64 {
        (0..width).fold(0, |field, _| field << 1 | self.bit())
    }

    fn take_f32(&mut self) -> f32 {
        f32::from_bits(self.take(32) as u32)
    }
}

struct Header {
    version: u64,
    norm_kind: u64,
    lists: u64,
    norm_code: u8,
    documents: u64,
    spare: u64,
    average: f32,
}

impl Header {
    fn read(file: &[u8]) -> Option<Header> {
        let mut fields = Fields::new(file.get(..HEADER_BYTES as usize)?);
        Some(Header {
            version: fields.take(4),
            norm_kind: fields.take(1),
            lists: fields.take(5),
            norm_code: fields.take(8) as u8,
            documents: fields.take(21),
            spare: fields.take(1),
            average: fields.take_f32(),
        })
    }

    fn meets_condition_1(&self) -> bool {
        self.version != 1
            || self.spare != 0
            || self.lists > MOST_LISTS
            || self.documents > MOST_DOCUMENTS
            || (self.norm_kind == 0 && self.norm_code != 0)
    }

    /// Written as a negation so that a NaN is refused.
    fn meets_condition_2(&self) -> bool {
        !(self.average >= 0.0625 && self.average <= 2_147_483_648.0)
    }

    fn norm_bytes(&self) -> u64 {
        if self.norm_kind == 0 {
            self.documents
        } else {
            0
        }
    }
}

struct Entry {
    weight: f32,
    count: u64,
    skip_kind: u64,
    skip_length: u64,
    postings_length: u64,
}

impl Entry {
    fn read(bytes: &[u8]) -> Entry {
        let mut fields = Fields::new(bytes);
        Entry {
            weight: fields.take_f32(),
            count: fields.take(21),
            skip_kind: fields.take(1),
            skip_length: fields.take(24),
            postings_length: fields.take(26),
        }
    }

    fn meets_condition_4(&self, documents: u64) -> bool {
        self.weight.is_sign_negative()
            || self.weight.is_nan()
            || self.weight > 1000.0
            || self.count > documents
    }

    fn skip_entry_bytes(&self) -> u64 {
        if self.skip_kind == 0 {
            8
        } else {
            12
        }
    }
}

/// A file's parts, each as the bytes it holds.
struct Parts<'a> {
    entries: Vec<Entry>,
    norms: &'a [u8],
    lists: Vec<(&'a [u8], &'a [u8])>,
}

/// Takes the next `length` bytes off `rest`.
fn cut<'a>(rest: &mut &'a [u8], length: u64) -> Option<&'a [u8]> {
    let length = usize::try_from(length).ok()?;
    if length > rest.len() {
        return None;
    }
    let (part, after) = rest.split_at(length);
    *rest = after;
    Some(part)
}

impl<'a> Parts<'a> {
    /// None is condition 3: a part is cut short, or bytes are left over.
    fn read(file: &'a [u8], header: &Header) -> Option<Parts<'a>> {
        let mut rest = file;
        cut(&mut rest, HEADER_BYTES)?;
        let entries = (0..header.lists)
            .map(|_| cut(&mut rest, ENTRY_BYTES).map(Entry::read))
            .collect::<Option<Vec<Entry>>>()?;
        let norms = cut(&mut rest, header.norm_bytes())?;
        let mut lists = Vec::new();
        for entry in &entries {
            let skips = cut(&mut rest, entry.skip_length)?;
            let postings = cut(&mut rest, entry.postings_length)?;
            lists.push((skips, postings));
        }
        rest.is_empty().then_some(Parts { entries, norms, lists })
    }
}

struct SkipEntry {
    last_document: u64,
    width: u64,
    strict: bool,
    frequency_width: u64,
    norm_code: u8,
    most_frequency: u32,
}

fn skip_entry(bytes: &[u8]) -> Option<SkipEntry> {
    let last = [bytes[0], bytes[1], bytes[2], bytes[3]];
    let width_byte = bytes[4];
    let end = bytes.len();
    if width_byte & 0b1010_0000 != 0 || bytes[5] > 32 {
        return None;
    }
    Some(SkipEntry {
        last_document: u64::from(u32::from_le_bytes(last)),
        width: u64::from(width_byte & 31),
        strict: width_byte & 64 != 0,
        frequency_width: u64::from(bytes[5]),
        norm_code: bytes[end - 2],
        most_frequency: most_frequency(bytes[end - 1]),
    })
}

/// The frequency that a maximum-frequency code stands for.
pub fn most_frequency(code: u8) -> u32 {
    if code == 255 {
        4_294_967_295
    } else {
        u32::from(code)
    }
}

/// None is condition 5.
fn skip_entries(entry: &Entry, skips: &[u8]) -> Option<Vec<SkipEntry>> {
    let size = entry.skip_entry_bytes();
    if entry.skip_length != entry.count / BLOCK * size {
        return None;
    }
    skips.chunks_exact(size as usize).map(skip_entry).collect()
}

/// Value `i` of a packed block, one bit after the other.
fn packed_value(packed: &[u8], width: u64, i: u64) -> u64 {
    let lane = i % 4;
    let first = i / 4 * width;
    (0..width).fold(0, |value, bit| {
        let place = first + bit;
        let (word, in_word) = (place / 32, place % 32);
        let byte = packed[(16 * word + 4 * lane + in_word / 8) as usize];
        value | u64::from(byte >> (in_word % 8) & 1) << bit
    })
}

fn packed_block(rest: &mut &[u8], width: u64) -> Option<Vec<u64>> {
    let packed = cut(rest, 16 * width)?;
    Some((0..BLOCK).map(|i| packed_value(packed, width, i)).collect())
}

/// None if the number has no last byte, over five bytes, or over 32 bits.
pub fn vint(rest: &mut &[u8]) -> Option<u64> {
    let mut number = 0;
    for place in 0..5 {
        let byte = cut(rest, 1)?[0];
        number |= u64::from(byte & 127) << (7 * place);
        if byte & 128 != 0 {
            return (number <= 4_294_967_295).then_some(number);
        }
    }
    None
}

/// The numbers of one block or tail as they stand in the file.
struct Raw {
    strict: bool,
    documents: Vec<u64>,
    frequencies: Vec<u64>,
}

/// None is condition 6.
fn raw_blocks(entry: &Entry, skips: &[SkipEntry], postings: &[u8]) -> Option<Vec<Raw>> {
    let mut rest = postings;
    let mut blocks = Vec::new();
    for skip in skips {
        blocks.push(Raw {
            strict: skip.strict,
            documents: packed_block(&mut rest, skip.width)?,
            frequencies: packed_block(&mut rest, skip.frequency_width)?,
        });
    }
    let tail = entry.count % BLOCK;
    blocks.push(Raw {
        strict: false,
        documents: (0..tail).map(|_| vint(&mut rest)).collect::<Option<_>>()?,
        frequencies: (0..tail).map(|_| vint(&mut rest)).collect::<Option<_>>()?,
    });
    rest.is_empty().then_some(blocks)
}

/// None is condition 7.
fn documents(blocks: &[Raw], skips: &[SkipEntry], below: u64) -> Option<Vec<u32>> {
    let mut found: Vec<u32> = Vec::new();
    for (number, block) in blocks.iter().enumerate() {
        for value in &block.documents {
            let last = found.last().map(|&document| i64::from(document));
            let start = if block.strict { -1 } else { 0 };
            let step = *value as i64 + i64::from(block.strict);
            let document = last.unwrap_or(start) + step;
            let rises = last.is_none_or(|last| document > last);
            if !rises || document >= below as i64 {
                return None;
            }
            found.push(document as u32);
        }
        if let Some(skip) = skips.get(number) {
            if found.last().map(|&last| u64::from(last)) != Some(skip.last_document) {
                return None;
            }
        }
    }
    Some(found)
}

/// None is condition 8.
fn frequencies(blocks: &[Raw]) -> Option<Vec<u32>> {
    let mut found = Vec::new();
    for block in blocks {
        for value in &block.frequencies {
            let frequency = value + u64::from(block.strict);
            if frequency == 0 || frequency > MOST_FREQUENCY {
                return None;
            }
            found.push(frequency as u32);
        }
    }
    Some(found)
}

/// The length that a norm code stands for: three bits of precision after 24 exact codes.
pub fn length_of(code: u8) -> u32 {
    if code < 24 {
        return u32::from(code);
    }
    let rest = u32::from(code) - 24;
    let (exponent, mantissa) = (rest / 8, rest % 8);
    24 + match exponent {
        0 => mantissa,
        _ => (8 + mantissa) << (exponent - 1),
    }
}

/// A whole number as the nearest f32, of two equally near the even one.
pub fn whole(number: u32) -> f32 {
    let bits = 32 - number.leading_zeros();
    if bits <= 24 {
        return number as f32;
    }
    let dropped = bits - 24;
    let (kept, left) = (number >> dropped, number & ((1 << dropped) - 1));
    let half = 1 << (dropped - 1);
    let up = left > half || (left == half && kept % 2 == 1);
    // 2^24 is a power of two, so a carry stays exact.
    (kept + u32::from(up)) as f32 * (1u32 << dropped) as f32
}

pub fn score_of(weight: f32, average: f32, code: u8, frequency: u32) -> f32 {
    const K1: f32 = 1.2;
    const B: f32 = 0.75;
    let norm = K1 * ((1.0 - B) + (B * whole(length_of(code))) / average);
    let f = whole(frequency);
    weight * (f / (f + norm))
}

/// Cuts down to a multiple of 1/1024; all three operations are exact below 2^24.
pub fn step_down(score: f32) -> f32 {
    (score * 1024.0).floor() / 1024.0
}

/// A decoded list with its unstepped scores and bounds.
pub struct List {
    pub weight: f32,
    pub documents: Vec<u32>,
    pub frequencies: Vec<u32>,
    pub scores: Vec<f32>,
    pub bound: f32,
    /// Those of the full blocks.
    pub block_bounds: Vec<f32>,
}

/// An accepted file.
pub struct NoteFile {
    pub documents: u32,
    pub average: f32,
    /// The code of all documents, or None and the bytes.
    pub norm_code: Option<u8>,
    pub norms: Vec<u8>,
    pub lists: Vec<List>,
}

struct Norms<'a> {
    header: &'a Header,
    bytes: &'a [u8],
}

impl Norms<'_> {
    fn code(&self, document: u32) -> u8 {
        match self.header.norm_kind {
            0 => self.bytes[document as usize],
            _ => self.header.norm_code,
        }
    }
}

/// A list's bound.
pub fn list_bound(weight: f32, average: f32) -> f32 {
    score_of(weight, average, LIST_BOUND_CODE, MOST_FREQUENCY as u32)
}

fn covers(bound: f32, scores: &[f32]) -> bool {
    scores.iter().all(|&score| score <= bound)
}

impl List {
    /// Written as a negation: no NaN passes for a bound.
    fn meets_condition_9(&self) -> bool {
        let blocks = self.scores.chunks(BLOCK as usize);
        let blocks_covered =
            self.block_bounds.iter().zip(blocks).all(|(&bound, scores)| covers(bound, scores));
        !(blocks_covered && covers(self.bound, &self.scores))
    }
}

/// One list's conditions 5 to 9, the lowest first over the whole list.
fn read_list(
    header: &Header,
    norms: &Norms,
    entry: &Entry,
    skips: &[u8],
    postings: &[u8],
) -> Result<List, u32> {
    let skips = skip_entries(entry, skips).ok_or(5u32)?;
    let raw = raw_blocks(entry, &skips, postings).ok_or(6u32)?;
    let documents = documents(&raw, &skips, header.documents).ok_or(7u32)?;
    let frequencies = frequencies(&raw).ok_or(8u32)?;
    let score = |code, frequency| score_of(entry.weight, header.average, code, frequency);
    let postings = documents.iter().zip(&frequencies);
    let list = List {
        weight: entry.weight,
        scores: postings.map(|(&doc, &frequency)| score(norms.code(doc), frequency)).collect(),
        bound: list_bound(entry.weight, header.average),
        block_bounds: skips.iter().map(|skip| score(skip.norm_code, skip.most_frequency)).collect(),
        documents,
        frequencies,
    };
    if list.meets_condition_9() {
        return Err(9);
    }
    Ok(list)
}

/// The decoded file, or the refusal's number.
pub fn read_file(file: &[u8]) -> Result<NoteFile, u32> {
    let header = Header::read(file).ok_or(1u32)?;
    if header.meets_condition_1() {
        return Err(1);
    }
    if header.meets_condition_2() {
        return Err(2);
    }
    let parts = Parts::read(file, &header).ok_or(3u32)?;
    if parts.entries.iter().any(|entry| entry.meets_condition_4(header.documents)) {
        return Err(4);
    }
    let norms = Norms { header: &header, bytes: parts.norms };
    let mut lists = Vec::new();
    for (entry, (skips, postings)) in parts.entries.iter().zip(&parts.lists) {
        lists.push(read_list(&header, &norms, entry, skips, postings)?);
    }
    Ok(NoteFile {
        documents: header.documents as u32,
        average: header.average,
        norm_code: (header.norm_kind == 1).then_some(header.norm_code),
        norms: parts.norms.to_vec(),
        lists,
    })
}

/// The skip bytes of every list of an accepted file, one after another.
pub fn skip_bytes(file: &[u8]) -> Vec<u8> {
    let header = Header::read(file);
    let parts = header.and_then(|header| Parts::read(file, &header));
    parts.map_or(Vec::new(), |parts| parts.lists.iter().flat_map(|list| list.0).copied().collect())
}

/// 0, or the refusal's number.
pub fn check(file: &[u8]) -> u32 {
    read_file(file).err().unwrap_or(0)
}

fn meets_condition_10(case: &Case, lists: usize) -> bool {
    case.mode > 2
        || case.query.len() > 16
        || case.query.iter().any(|&list| list as u64 >= lists as u64)
        || (case.mode == 2 && case.query.len() != 1)
        || (case.mode == 1 && case.query.len() < 2)
}

/// The range first: inside it 1024 times the threshold is exact.
fn threshold_allowed(stepped: bool, threshold: f32) -> bool {
    if !stepped {
        return threshold.is_finite();
    }
    let in_range = (-1.0..=16_000.0).contains(&threshold);
    in_range && (threshold * 1024.0).fract() == 0.0
}

fn meets_condition_11(case: &Case) -> bool {
    if case.scoring > 1 || case.rule > 1 {
        return true;
    }
    let allowed = |&threshold: &f32| threshold_allowed(case.scoring == 1, threshold);
    if !allowed(&case.start) {
        return true;
    }
    if case.rule == 1 {
        return case.k < 1 || case.k > 64;
    }
    let mut before = case.start;
    for entry in &case.script {
        if !allowed(entry) || *entry < before {
            return true;
        }
        before = *entry;
    }
    false
}

/// The threshold as a function of the scores reported so far.
struct Threshold<'a> {
    case: &'a Case,
    reports: usize,
    /// Every score reported so far, the best first.
    ranked: Vec<f32>,
}

impl Threshold<'_> {
    fn now(&self) -> f32 {
        if self.case.rule == 1 {
            let kth = self.ranked.get(self.case.k as usize - 1);
            return kth.map_or(self.case.start, |&kth| kth.max(self.case.start));
        }
        let last = self.reports.min(self.case.script.len());
        match last {
            0 => self.case.start,
            _ => self.case.script[last - 1],
        }
    }

    fn report(&mut self, score: f32) {
        self.reports += 1;
        let place = self.ranked.partition_point(|&better| better >= score);
        self.ranked.insert(place, score);
    }
}

/// The matching documents upward, each with the sum of its scores in query order.
pub fn matches(case: &Case, lists: &[List]) -> Vec<(u32, f32)> {
    let mut next = vec![0; case.query.len()];
    let mut found = Vec::new();
    loop {
        let heads = case.query.iter().zip(&next);
        let head =
            |(&list, &place): (&u32, &usize)| lists[list as usize].documents.get(place).copied();
        let Some(document) = heads.filter_map(head).min() else {
            return found;
        };
        let (mut sum, mut holders) = (0.0, 0);
        for (&number, place) in case.query.iter().zip(&mut next) {
            let list = &lists[number as usize];
            if list.documents.get(*place) == Some(&document) {
                let score = list.scores[*place];
                sum += if case.scoring == 1 { step_down(score) } else { score };
                holders += 1;
                *place += 1;
            }
        }
        if case.mode != 1 || holders == case.query.len() {
            found.push((document, sum));
        }
    }
}

/// The plain scan: what every run is measured by.
fn scan(case: &Case, lists: &[List]) -> Outcome {
    let limit = case.rows();
    let mut threshold = Threshold { case, reports: 0, ranked: Vec::new() };
    let mut rows = Vec::new();
    for (document, score) in matches(case, lists) {
        if score > threshold.now() {
            if rows.len() == limit {
                return Outcome::full(rows);
            }
            rows.push(Row { document, score: score.to_bits() });
            threshold.report(score);
        }
    }
    Outcome::done(rows)
}

/// Refusals 10 and 11 of a run over an accepted file, or 0.
pub fn run_refusal(case: &Case, file: &NoteFile) -> u32 {
    if meets_condition_10(case, file.lists.len()) {
        return 10;
    }
    if meets_condition_11(case) {
        return 11;
    }
    0
}

/// A run over an accepted file: refusals 10 and 11, then the scan.
pub fn run_over(case: &Case, file: &NoteFile) -> Outcome {
    match run_refusal(case, file) {
        0 => scan(case, &file.lists),
        code => Outcome::refused(code),
    }
}

/// A whole plain run: the table of refusals, then the scan.
pub fn run(case: &Case) -> Outcome {
    match read_file(&case.file) {
        Err(code) => Outcome::refused(code),
        Ok(file) => run_over(case, &file),
    }
}
