//! One case of a write for each seed and number, with what must come of it.

use crate::contents::Contents;
use crate::draft::Draft;
use crate::generate::Aim;
use crate::plain::{list_bound, score_of};
use crate::random::Random;
use crate::{faults, shapes, writer};

const BLOCK: u64 = 128;
const MOST_DOCUMENTS: u64 = 1_048_576;
const MOST_FREQUENCY: u64 = 2_013_265_944;

pub struct Aimed {
    pub contents: Contents,
    pub aim: Aim,
    /// The faults, by name.
    pub names: Vec<&'static str>,
}

/// What an accepted file holds.
fn of_draft(draft: &Draft) -> Contents {
    let postings = || draft.lists.iter().flat_map(|list| &list.postings);
    Contents {
        documents: draft.documents as u32,
        kind: draft.norm_kind as u32,
        code: u32::from(draft.norm_code),
        norms: draft.norms.clone(),
        average: draft.average,
        weights: draft.lists.iter().map(|list| list.weight).collect(),
        counts: draft.lists.iter().map(|list| list.postings.len() as u32).collect(),
        docs: postings().map(|posting| posting.document).collect(),
        freqs: postings().map(|posting| posting.frequency).collect(),
        out_len: 0,
    }
}

/// A number of exactly so many bits.
fn of_width(random: &mut Random, width: u64) -> u64 {
    match width {
        0 => 0,
        _ => random.range(1 << (width - 1), (1 << width) - 1),
    }
}

/// 128 numbers, one of exactly so many bits and none of more; mostly small where `small`.
fn block_values(random: &mut Random, width: u64, small: bool) -> Vec<u64> {
    let most = if small { width.min(3) } else { width };
    let mut values: Vec<u64> = (0..BLOCK).map(|_| random.below(1 << most)).collect();
    values[random.index(BLOCK as usize)] = of_width(random, width);
    values
}

/// Documents of blocks of chosen widths and a tail, as far as there are documents.
fn documents(random: &mut Random, blocks: u64, tail: u64) -> Vec<u32> {
    let mut found: Vec<u32> = Vec::new();
    let mut next = 0;
    for block in 0..blocks {
        let width = random.below(21);
        let after = (blocks - block - 1) * BLOCK + tail;
        for (place, gap) in block_values(random, width, width > 12).into_iter().enumerate() {
            let spare = MOST_DOCUMENTS - next - (BLOCK - place as u64) - after;
            next += gap.min(spare);
            found.push(next as u32);
            next += 1;
        }
    }
    for place in 0..tail {
        let bits = random.below(21);
        let spare = MOST_DOCUMENTS - next - (tail - place);
        next += of_width(random, bits).min(spare);
        found.push(next as u32);
        next += 1;
    }
    found
}

/// Frequencies of blocks of chosen widths and a tail of any; 254, 255 and 256 among them.
fn frequencies(random: &mut Random, blocks: u64, tail: u64) -> Vec<u32> {
    let mut found: Vec<u64> = Vec::new();
    for _ in 0..blocks {
        let (width, small) = (random.below(32), random.one_in(2));
        found.extend(block_values(random, width, small).iter().map(|value| value + 1));
    }
    for _ in 0..tail {
        let width = random.below(32);
        found.push(of_width(random, width) + 1);
    }
    if random.one_in(4) {
        for _ in 0..random.below(4) * found.len().min(1) as u64 {
            let place = random.index(found.len());
            found[place] = random.pick(&[254, 255, 256, MOST_FREQUENCY]);
        }
    }
    found.into_iter().map(|frequency| frequency.min(MOST_FREQUENCY) as u32).collect()
}

/// Lists of chosen widths over all documents. With this average the bound is the weight itself.
fn of_widths(random: &mut Random) -> Contents {
    let each = random.one_in(8);
    let norms = if each { MOST_DOCUMENTS } else { 0 };
    let mut contents = Contents {
        documents: MOST_DOCUMENTS as u32,
        kind: u32::from(!each),
        code: if each { 0 } else { random.below(256) as u32 },
        norms: (0..norms).map(|_| random.word() as u8).collect(),
        average: 2_147_483_648.0,
        ..Contents::default()
    };
    for _ in 0..random.range(1, 3) {
        let blocks = random.below(4);
        let tail = random.pick(&[0, 1, 2, 127]).max(random.below(3) * random.below(64));
        contents.weights.push(random.below(1_000_001) as f32 / 1000.0);
        contents.counts.push((BLOCK * blocks + tail) as u32);
        contents.docs.extend(documents(random, blocks, tail));
        contents.freqs.extend(frequencies(random, blocks, tail));
    }
    contents
}

/// Neighbours of a code that differ little, where rounding decides which score is highest and
/// whether the list's bound covers it.
fn of_ties(random: &mut Random) -> Contents {
    let documents = random.range(1, 400);
    let (least, most) = random.pick(&[(250, 255), (0, 3), (254, 255), (1, 1), (100, 104)]);
    let average = random.pick(&[0.0625, 1.0, 91.80822, 1e6, 2_147_483_648.0]);
    let weight = random.pick(&[0.0, f32::from_bits(1), f32::from_bits(3), 1.0, 333.3, 1000.0]);
    let base = random.pick(&[1, 2, 100, 254, 255, 1 << 20, MOST_FREQUENCY - 9]);
    let norms: Vec<u8> = (0..documents).map(|_| random.range(least, most) as u8).collect();
    let frequency = |&code: &u8| {
        let wanted = (base + random.below(9)) as u32;
        let bound = list_bound(weight, average);
        let fits = score_of(weight, average, code, wanted) <= bound;
        if fits {
            wanted
        } else {
            1
        }
    };
    let freqs: Vec<u32> = norms.iter().map(frequency).collect();
    Contents {
        documents: documents as u32,
        norms,
        average,
        weights: vec![weight],
        counts: vec![documents as u32],
        docs: (0..documents as u32).collect(),
        freqs,
        ..Contents::default()
    }
}

/// Contents that a file can hold, but for a frequency of 1 that a list's bound does not cover; their
/// output is as long as their file.
fn contents(random: &mut Random) -> Contents {
    let mut contents = match random.below(10) {
        0..=5 => of_draft(&shapes::accepted(random)),
        6 | 7 => of_widths(random),
        _ => of_ties(random),
    };
    contents.out_len = writer::file(&contents).len();
    contents
}

fn running(random: &mut Random) -> Aimed {
    let mut contents = contents(random);
    contents.out_len += random.pick(&[0, 0, 1, 2, 16, 1000]);
    let aim = match writer::refusal(&contents) {
        Some((9, _)) => Aim::Open,
        _ => Aim::Runs,
    };
    Aimed { contents, aim, names: Vec::new() }
}

fn broken(random: &mut Random) -> Aimed {
    let mut contents = contents(random);
    if writer::refusal(&contents).is_some() {
        return Aimed { contents, aim: Aim::Open, names: Vec::new() };
    }
    match faults::break_contents(&mut contents, random) {
        None => running(random),
        Some((names, number)) => Aimed { contents, aim: Aim::Refused(number), names },
    }
}

/// Contents of random numbers: nearly always refused, with whatever comes first.
fn noise(random: &mut Random) -> Aimed {
    let mut contents = contents(random);
    for _ in 0..random.range(1, 3) {
        let bit = 1 << random.below(32);
        match random.below(6) {
            0 => contents.documents ^= bit,
            1 => contents.code ^= bit,
            2 => contents.average = f32::from_bits(contents.average.to_bits() ^ bit),
            _ => noise_in_lists(&mut contents, random, bit),
        }
    }
    Aimed { contents, aim: Aim::Open, names: vec!["noise"] }
}

fn noise_in_lists(contents: &mut Contents, random: &mut Random, bit: u32) {
    let place = random.word() as usize;
    let words = match random.below(3) {
        0 => &mut contents.docs,
        1 => &mut contents.freqs,
        _ => &mut contents.counts,
    };
    if !words.is_empty() {
        let place = place % words.len();
        words[place] ^= bit;
    }
}

pub fn case(seed: u64, number: u64) -> Aimed {
    let mut random = Random::for_case(seed, number);
    match random.below(100) {
        0..=49 => running(&mut random),
        50..=94 => broken(&mut random),
        _ => noise(&mut random),
    }
}
