//! Order 1 of the later requests as a program: the table's conditions tried on contents, and the
//! only file of the house form.
//!
//! Written from the words alone. Sums are 64 bits wide and cannot wrap.

use crate::contents::{Contents, List, Written};
use crate::draft::{bits_of, pack, vint, Fields};
use crate::plain::{list_bound, most_frequency, score_of};

const BLOCK: usize = 128;
const MOST_LISTS: usize = 16;
const MOST_DOCUMENTS: u32 = 1_048_576;
const MOST_FREQUENCY: u32 = 2_013_265_944;

fn meets_condition_1(contents: &Contents) -> bool {
    contents.counts.len() > MOST_LISTS
        || contents.documents > MOST_DOCUMENTS
        || contents.kind > 1
        || (contents.kind == 0 && contents.code != 0)
        || contents.code > 255
}

/// Written as a negation so that a NaN is refused.
fn meets_condition_2(contents: &Contents) -> bool {
    !(contents.average >= 0.0625 && contents.average <= 2_147_483_648.0)
}

/// Buffers that do not match the stated counts.
fn meets_condition_3(contents: &Contents) -> bool {
    let norms = if contents.kind == 0 { contents.documents as usize } else { 0 };
    let postings: u64 = contents.counts.iter().map(|&count| u64::from(count)).sum();
    contents.norms.len() != norms
        || contents.weights.len() != contents.counts.len()
        || contents.docs.len() as u64 != postings
        || contents.freqs.len() as u64 != postings
}

fn meets_condition_4(contents: &Contents) -> bool {
    let wrong_weight =
        |weight: &f32| weight.is_sign_negative() || weight.is_nan() || *weight > 1000.0;
    contents.weights.iter().any(wrong_weight)
        || contents.counts.iter().any(|&count| count > contents.documents)
}

fn meets_condition_7(contents: &Contents, list: &List) -> bool {
    list.docs.windows(2).any(|pair| pair[0] >= pair[1])
        || list.docs.iter().any(|&document| document >= contents.documents)
}

fn meets_condition_8(list: &List) -> bool {
    list.freqs.iter().any(|&frequency| frequency == 0 || frequency > MOST_FREQUENCY)
}

fn scores(contents: &Contents, list: &List) -> Vec<f32> {
    let postings = list.docs.iter().zip(list.freqs);
    let score = |(&document, &frequency): (&u32, &u32)| {
        score_of(list.weight, contents.average, contents.norm(document), frequency)
    };
    postings.map(score).collect()
}

/// Written as a negation: no NaN passes for a bound.
fn meets_condition_9(contents: &Contents, list: &List) -> bool {
    let bound = list_bound(list.weight, contents.average);
    !scores(contents, list).iter().all(|&score| score <= bound)
}

/// The refusal of contents and, from 7 on, its list; the output is not looked at.
pub fn refusal(contents: &Contents) -> Option<(u32, usize)> {
    let tests = [meets_condition_1, meets_condition_2, meets_condition_3, meets_condition_4];
    if let Some(place) = tests.iter().position(|test| test(contents)) {
        return Some((place as u32 + 1, 0));
    }
    for (number, list) in contents.lists().iter().enumerate() {
        if meets_condition_7(contents, list) {
            return Some((7, number));
        }
        if meets_condition_8(list) {
            return Some((8, number));
        }
        if meets_condition_9(contents, list) {
            return Some((9, number));
        }
    }
    None
}

/// The place of a block's highest unstepped score, the lowest document among equals.
pub(crate) fn best(contents: &Contents, block: &List) -> usize {
    let scores = scores(contents, block);
    let mut best = 0;
    for place in 1..scores.len() {
        if scores[place] > scores[best] {
            best = place;
        }
    }
    best
}

fn pair(contents: &Contents, block: &List) -> [u8; 2] {
    let best = best(contents, block);
    let frequency = block.freqs[best];
    let frequency_code = if frequency > 254 { 255 } else { frequency as u8 };
    [contents.norm(block.docs[best]), frequency_code]
}

/// Each document less the one before it, and less 1 more if strict.
fn differences(docs: &[u32], before: Option<u32>, strict: bool) -> Vec<u64> {
    let mut last = before.map_or(if strict { -1 } else { 0 }, i64::from);
    let mut values = Vec::new();
    for &document in docs {
        values.push((i64::from(document) - last - i64::from(strict)) as u64);
        last = i64::from(document);
    }
    values
}

fn least_width(values: &[u64]) -> u8 {
    values.iter().map(|&value| bits_of(value)).max().unwrap_or(0)
}

/// The list cut into blocks of 128 and a tail that is shorter, each with the document before it.
pub(crate) fn blocks<'a>(list: &List<'a>) -> Vec<(List<'a>, Option<u32>)> {
    let mut found = Vec::new();
    let mut before = None;
    for (docs, freqs) in list.docs.chunks(BLOCK).zip(list.freqs.chunks(BLOCK)) {
        found.push((List { weight: list.weight, docs, freqs }, before));
        before = docs.last().copied();
    }
    found
}

/// A list's skip bytes and its postings.
pub(crate) fn parts(contents: &Contents, list: &List) -> (Vec<u8>, Vec<u8>) {
    let (mut skips, mut postings) = (Vec::new(), Vec::new());
    for (block, before) in blocks(list) {
        if block.docs.len() < BLOCK {
            let documents = differences(block.docs, before, false);
            let frequencies = block.freqs.iter().map(|&frequency| u64::from(frequency));
            postings.extend(documents.into_iter().chain(frequencies).flat_map(|n| vint(n, 1)));
            continue;
        }
        let documents = differences(block.docs, before, true);
        let frequencies: Vec<u64> = block.freqs.iter().map(|&f| u64::from(f) - 1).collect();
        let (width, frequency_width) = (least_width(&documents), least_width(&frequencies));
        skips.extend(block.docs[BLOCK - 1].to_le_bytes());
        skips.extend([width + 64, frequency_width]);
        skips.extend(pair(contents, &block));
        postings.extend(pack(&documents, width));
        postings.extend(pack(&frequencies, frequency_width));
    }
    (skips, postings)
}

fn header(contents: &Contents) -> Vec<u8> {
    let mut fields = Fields::default();
    fields.put(1, 4);
    fields.put(u64::from(contents.kind), 1);
    fields.put(contents.counts.len() as u64, 5);
    fields.put(u64::from(contents.code), 8);
    fields.put(u64::from(contents.documents), 21);
    fields.put(0, 1);
    fields.put(u64::from(contents.average.to_bits()), 32);
    fields.into_bytes()
}

fn entry(list: &List, skips: &[u8], postings: &[u8]) -> Vec<u8> {
    let mut fields = Fields::default();
    fields.put(u64::from(list.weight.to_bits()), 32);
    fields.put(list.docs.len() as u64, 21);
    fields.put(0, 1);
    fields.put(skips.len() as u64, 24);
    fields.put(postings.len() as u64, 26);
    fields.into_bytes()
}

/// The file of contents that are not refused.
pub fn file(contents: &Contents) -> Vec<u8> {
    let lists = contents.lists();
    let parts: Vec<_> = lists.iter().map(|list| parts(contents, list)).collect();
    let mut file = header(contents);
    for (list, (skips, postings)) in lists.iter().zip(&parts) {
        file.extend(entry(list, skips, postings));
    }
    file.extend(&contents.norms);
    for (skips, postings) in parts {
        file.extend(skips);
        file.extend(postings);
    }
    file
}

/// A whole write: the table's conditions, then the output's length.
pub fn write(contents: &Contents) -> Written {
    if let Some((number, _)) = refusal(contents) {
        return Written::refused(number);
    }
    let file = file(contents);
    if contents.out_len < file.len() {
        return Written::refused(13);
    }
    Written::done(file)
}

/// Whether the pair of every full block covers its scores. Documents and frequencies are right.
pub fn pairs_cover(contents: &Contents, list: &List) -> bool {
    let covers = |block: &List| {
        let [code, frequency] = pair(contents, block);
        let bound = score_of(list.weight, contents.average, code, most_frequency(frequency));
        scores(contents, block).iter().all(|&score| score <= bound)
    };
    blocks(list)
        .iter()
        .filter(|(block, _)| block.docs.len() == BLOCK)
        .all(|(block, _)| covers(block))
}
