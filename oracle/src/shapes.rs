//! Accepted files of many shapes.

use crate::draft::{bits_of, vint, Block, Draft, List, Posting, BLOCK};
use crate::plain::{length_of, list_bound, most_frequency, score_of};
use crate::random::Random;

const MOST_FREQUENCY: u32 = 2_013_265_944;

/// How large a file gets.
struct Size {
    documents: u64,
    lists: u64,
    /// Lists of a long file hold thousands; of others, whatever lies around block ends.
    long: bool,
}

fn size(random: &mut Random) -> Size {
    let (documents, lists, long) = match random.below(100) {
        0..=34 => (random.range(0, 12), random.range(0, 16), false),
        35..=64 => (random.range(120, 700), random.range(1, 6), false),
        65..=79 => (random.range(300, 3_000), random.range(1, 5), true),
        80..=86 => (random.range(128, 400), 16, false),
        87..=92 => (random.range(4_000, 20_000), random.range(1, 4), true),
        93..=98 => (random.range(20_000, 1_048_576), random.range(1, 5), false),
        _ => (random.pick(&[1_048_575, 1_048_576]), random.range(1, 3), true),
    };
    Size { documents, lists, long }
}

fn average(random: &mut Random) -> f32 {
    match random.below(8) {
        0 => random.pick(&[0.0625, 2_147_483_648.0, 1.0, 91.80822, 3.0]),
        1 => f32::from_bits(random.range(0x3d80_0000, 0x4f00_0000) as u32),
        2 => 2_147_483_648.0,
        3 => random.range(1, 40) as f32,
        _ => random.range(1, 2_000) as f32 / 4.0,
    }
}

fn any_code(random: &mut Random, style: u64) -> u8 {
    let code = match style {
        0 => random.range(1, 8),
        1 => random.range(0, 255),
        2 => random.range(253, 255),
        3 => random.range(30, 60),
        _ => random.pick(&[1, 20, 40]),
    };
    code as u8
}

/// The list bound must cover a frequency of 1 in a list of weight 1.
fn fits(average: f32, code: u8) -> bool {
    score_of(1.0, average, code, 1) <= list_bound(1.0, average)
}

fn code(random: &mut Random, style: u64, average: f32) -> u8 {
    let code = any_code(random, style);
    if fits(average, code) {
        return code;
    }
    // A length of 1 always fits.
    1
}

fn weight(random: &mut Random) -> f32 {
    match random.below(12) {
        0 => 0.0,
        1 => f32::from_bits(random.pick(&[1, 0x007f_ffff, 0x0080_0000, 0x0000_1234])),
        2 | 3 => 1000.0,
        4 => 1.0,
        5 => random.range(1, 64) as f32 / 1024.0,
        6 => f32::from_bits(random.below(0x447a_0001) as u32),
        7 => random.range(1, 5) as f32,
        _ => random.range(1, 1_000_000) as f32 / 1000.0,
    }
}

/// What the lists of one file have in common.
enum Flavour {
    Any,
    /// One weight and one frequency style: ties.
    Tied(f32, u64),
    /// Scores of a few large and small weights, bit for bit: sums that round either way.
    Rounding,
    /// One weight, one norm code and few frequencies: the same scores again and again.
    Repeating(f32),
}

impl Flavour {
    fn new(random: &mut Random) -> Flavour {
        match random.below(10) {
            0 | 1 => Flavour::Tied(weight(random), random.below(9)),
            2 => Flavour::Rounding,
            _ => Flavour::Any,
        }
    }

    fn weight_and_style(&self, random: &mut Random) -> (f32, u64) {
        // Scores near 512 lie this far apart.
        const UNIT: f32 = 1.0 / 16_384.0;
        match *self {
            Flavour::Any => (weight(random), random.below(9)),
            Flavour::Tied(weight, style) => (weight, style),
            Flavour::Rounding => {
                let units = random.pick(&[8_388_616.0, 8_388_617.0, 0.5, 1.0, 1.5, 1.5, 2.5]);
                (units * UNIT, 5)
            }
            Flavour::Repeating(weight) => (weight, random.pick(&[0, 1, 7])),
        }
    }
}

/// A number of documents, often at the end of a block.
fn count(random: &mut Random, size: &Size) -> u64 {
    const EDGES: [u64; 14] = [0, 1, 2, 126, 127, 128, 129, 130, 255, 256, 257, 383, 384, 385];
    let count = match random.below(4) {
        0 | 1 => random.pick(&EDGES),
        2 if size.long => random.range(1_000, 6_000),
        2 => random.range(1, 300),
        _ => random.below(size.documents.min(if size.long { 4_000 } else { 600 }) + 1),
    };
    count.min(size.documents)
}

fn sparse(random: &mut Random, count: u64, end: u64) -> Vec<u32> {
    let mut found = std::collections::BTreeSet::new();
    while (found.len() as u64) < count {
        found.insert(random.below(end) as u32);
    }
    found.into_iter().collect()
}

/// Takes each document with the chance that leaves just enough for the rest.
fn dense(random: &mut Random, count: u64, end: u64) -> Vec<u32> {
    let mut missing = count;
    let take = |document: &u64| {
        let taken = random.below(end - document) < missing;
        missing -= u64::from(taken);
        taken
    };
    (0..end).filter(take).map(|document| document as u32).collect()
}

fn spread(random: &mut Random, count: u64, end: u64) -> Vec<u32> {
    if count * 2 < end {
        sparse(random, count, end)
    } else {
        dense(random, count, end)
    }
}

/// Runs of neighbours with gaps between them.
fn clustered(random: &mut Random, count: u64, end: u64) -> Vec<u32> {
    let mut found = Vec::new();
    let mut next = 0;
    while (found.len() as u64) < count {
        let spare = end - next - (count - found.len() as u64);
        if random.one_in(9) {
            next += random.below(spare.min(400) + 1);
        }
        found.push(next as u32);
        next += 1;
    }
    found
}

fn documents(random: &mut Random, count: u64, end: u64, shared: &[u32]) -> Vec<u32> {
    match random.below(6) {
        0 => (0..count).map(|document| document as u32).collect(),
        1 => (end - count..end).map(|document| document as u32).collect(),
        2 => clustered(random, count, end),
        3 if shared.len() as u64 >= count => {
            let places = spread(random, count, shared.len() as u64);
            places.iter().map(|&place| shared[place as usize]).collect()
        }
        _ => spread(random, count, end),
    }
}

/// The largest frequency whose score the list bound covers, found by halving.
fn largest_fitting(average: f32, weight: f32, code: u8) -> u32 {
    let fits =
        |frequency| score_of(weight, average, code, frequency) <= list_bound(weight, average);
    let (mut low, mut high) = (1, MOST_FREQUENCY);
    if fits(high) {
        return high;
    }
    while high - low > 1 {
        let middle = low + (high - low) / 2;
        if fits(middle) {
            low = middle;
        } else {
            high = middle;
        }
    }
    low
}

fn any_frequency(random: &mut Random, style: u64, length: u32) -> u32 {
    let power = 1 << random.range(1, 30);
    let frequency = match style {
        0 => 1,
        1 => random.range(1, 3),
        2 => random.range(1, 20),
        3 => random.range(250, 260),
        4 => random.range(1, power),
        5 => u64::from(MOST_FREQUENCY) - random.below(3),
        6 => random.range(1, u64::from(length).max(1)),
        _ => 1 << random.below(8),
    };
    frequency as u32
}

fn frequency(random: &mut Random, style: u64, average: f32, weight: f32, code: u8) -> u32 {
    let bound = list_bound(weight, average);
    if style == 8 {
        return largest_fitting(average, weight, code);
    }
    let mut frequency = any_frequency(random, style, length_of(code)).clamp(1, MOST_FREQUENCY);
    while frequency > 1 && score_of(weight, average, code, frequency) > bound {
        frequency /= 2;
    }
    frequency
}

/// Frequencies in stretches of one style each, so that some blocks are weak and some strong.
struct Stretches {
    style: u64,
    other: u64,
    uneven: bool,
    left: u64,
}

impl Stretches {
    fn new(random: &mut Random, style: u64) -> Stretches {
        let (other, uneven) = (random.below(9), random.one_in(2));
        Stretches { style, other, uneven, left: 0 }
    }

    fn style(&mut self, random: &mut Random) -> u64 {
        if self.uneven && self.left == 0 {
            self.left = random.range(1, 300);
            std::mem::swap(&mut self.style, &mut self.other);
        }
        self.left = self.left.saturating_sub(1);
        self.style
    }
}

/// How a list is written down.
struct Writing {
    strict: u64,
    width: u64,
    bounds: u64,
    vints: u64,
}

impl Writing {
    fn new(random: &mut Random) -> Writing {
        Writing {
            strict: random.below(3),
            width: random.below(4),
            bounds: random.below(4),
            vints: random.below(4),
        }
    }

    fn strict(&self, random: &mut Random) -> bool {
        match self.strict {
            0 => true,
            1 => false,
            _ => random.one_in(2),
        }
    }

    /// The least width, or more.
    fn width(&self, random: &mut Random, least: u8, most: u8) -> u8 {
        match self.width {
            0 => random.range(u64::from(least), u64::from(most)) as u8,
            1 if random.one_in(4) => most,
            _ => least,
        }
    }

    fn vint(&self, random: &mut Random, value: u32) -> Vec<u8> {
        let bytes = if self.vints == 0 { random.range(1, 5) } else { 1 };
        vint(u64::from(value), bytes as usize)
    }
}

struct Scores<'a> {
    draft: &'a Draft,
    weight: f32,
}

impl Scores<'_> {
    fn of(&self, posting: &Posting) -> f32 {
        let code = self.draft.code(posting.document);
        score_of(self.weight, self.draft.average, code, posting.frequency)
    }

    fn covers(&self, code: u8, frequency_code: u8, postings: &[Posting]) -> bool {
        let frequency = most_frequency(frequency_code);
        let bound = score_of(self.weight, self.draft.average, code, frequency);
        postings.iter().all(|posting| self.of(posting) <= bound)
    }

    fn best<'b>(&self, postings: &'b [Posting]) -> &'b Posting {
        let better = |a: &&Posting, b: &&Posting| self.of(a).total_cmp(&self.of(b));
        postings.iter().max_by(better).expect("a block is never empty")
    }

    /// A pair whose score covers the block: tight if it may be, else the loosest there is.
    fn bound(&self, random: &mut Random, style: u64, postings: &[Posting]) -> (u8, u8) {
        let best = self.best(postings);
        let (code, frequency) = (self.draft.code(best.document), best.frequency.min(255) as u8);
        let (code, frequency) = match style {
            0 => (random.range(0, u64::from(code)) as u8, frequency),
            1 => (code, random.range(u64::from(frequency), 255) as u8),
            _ => (code, frequency),
        };
        match self.covers(code, frequency, postings) {
            true => (code, frequency),
            false => (0, 255),
        }
    }
}

/// Distances from each document to the one before it, less one if strict.
fn raw_documents(postings: &[Posting], before: Option<u32>, strict: bool) -> Vec<u64> {
    let mut last = before.map_or(if strict { -1 } else { 0 }, i64::from);
    let raw = |posting: &Posting| {
        let value = i64::from(posting.document) - last - i64::from(strict);
        last = i64::from(posting.document);
        value as u64
    };
    postings.iter().map(raw).collect()
}

fn block(
    random: &mut Random,
    writing: &Writing,
    scores: &Scores,
    postings: &[Posting],
    before: Option<u32>,
) -> Block {
    let strict = writing.strict(random);
    let documents = raw_documents(postings, before, strict);
    let raw = |posting: &Posting| u64::from(posting.frequency) - u64::from(strict);
    let frequencies: Vec<u64> = postings.iter().map(raw).collect();
    let least = |values: &[u64]| values.iter().map(|&value| bits_of(value)).max().unwrap_or(0);
    let (norm_code, frequency_code) = scores.bound(random, writing.bounds, postings);
    Block {
        last: postings[postings.len() - 1].document,
        strict,
        width: writing.width(random, least(&documents), 31),
        frequency_width: writing.width(random, least(&frequencies), 32),
        width_flips: 0,
        claimed_frequency_width: None,
        sum: random.word() as u32,
        norm_code,
        frequency_code,
        documents,
        frequencies,
    }
}

fn written(random: &mut Random, draft: &Draft, weight: f32, postings: Vec<Posting>) -> List {
    let writing = Writing::new(random);
    let scores = Scores { draft, weight };
    let (mut blocks, mut before) = (Vec::new(), None);
    let full = postings.chunks_exact(BLOCK);
    let tail = full.remainder().to_vec();
    for chunk in full {
        blocks.push(block(random, &writing, &scores, chunk, before));
        before = chunk.last().map(|posting| posting.document);
    }
    let raw = raw_documents(&tail, before, false);
    let tail_documents = raw.iter().map(|&value| writing.vint(random, value as u32)).collect();
    let tail_frequencies =
        tail.iter().map(|posting| writing.vint(random, posting.frequency)).collect();
    List {
        weight,
        count: postings.len() as u64,
        kind: random.below(2),
        postings,
        blocks,
        tail_documents,
        tail_frequencies,
        ..List::default()
    }
}

/// Norm codes for a header: one for all documents, or a byte for each where that keeps the file
/// small.
fn set_norms(draft: &mut Draft, random: &mut Random) {
    let style = random.below(5);
    let per_document = random.one_in(2) && (draft.documents < 30_000 || random.one_in(8));
    if per_document {
        let codes = (0..draft.documents).map(|_| code(random, style, draft.average));
        (draft.norm_kind, draft.norms) = (0, codes.collect());
    } else {
        (draft.norm_kind, draft.norm_code) = (1, code(random, style, draft.average));
    }
}

fn frame(random: &mut Random, size: &Size, flavour: &Flavour) -> Draft {
    let draft = Draft { version: 1, documents: size.documents, ..Draft::default() };
    if let Flavour::Rounding = flavour {
        return Draft { average: 2_147_483_648.0, norm_kind: 1, ..draft };
    }
    let mut draft = Draft { average: average(random), ..draft };
    if let Flavour::Repeating(_) = flavour {
        return Draft { norm_kind: 1, norm_code: code(random, 4, draft.average), ..draft };
    }
    set_norms(&mut draft, random);
    draft
}

fn postings(
    random: &mut Random,
    draft: &Draft,
    weight: f32,
    style: u64,
    documents: Vec<u32>,
) -> Vec<Posting> {
    let mut stretches = Stretches::new(random, style);
    let posting = |document| {
        let style = stretches.style(random);
        let frequency = frequency(random, style, draft.average, weight, draft.code(document));
        Posting { document, frequency }
    };
    documents.into_iter().map(posting).collect()
}

/// A file that meets none of the conditions 1 to 9.
pub fn accepted(random: &mut Random) -> Draft {
    let size = size(random);
    let flavour = Flavour::new(random);
    drafted(random, &size, &flavour)
}

/// Such a file with many equal scores.
pub fn repeating(random: &mut Random) -> Draft {
    let size = size(random);
    let flavour = Flavour::Repeating(weight(random));
    drafted(random, &size, &flavour)
}

fn drafted(random: &mut Random, size: &Size, flavour: &Flavour) -> Draft {
    let mut draft = frame(random, size, flavour);
    let shared = random.range(1, 500).min(size.documents);
    let shared = spread(random, shared, size.documents);
    for _ in 0..size.lists {
        let (weight, style) = flavour.weight_and_style(random);
        let count = count(random, size);
        let documents = documents(random, count, size.documents, &shared);
        let postings = postings(random, &draft, weight, style, documents);
        let list = written(random, &draft, weight, postings);
        draft.lists.push(list);
    }
    draft
}
