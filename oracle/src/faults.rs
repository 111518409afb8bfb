//! Faults of contents, aimed at each sub-condition of a write's refusals.

use crate::contents::Contents;
use crate::plain::{list_bound, score_of};
use crate::random::Random;

const MOST_DOCUMENTS: u32 = 1_048_576;
const MOST_FREQUENCY: u32 = 2_013_265_944;

/// One way to break contents. It tells the list that it broke, or None if there is no place for it.
struct Fault {
    name: &'static str,
    number: u32,
    apply: fn(&mut Contents, &mut Random) -> Option<usize>,
}

const fn fault(
    number: u32,
    name: &'static str,
    apply: fn(&mut Contents, &mut Random) -> Option<usize>,
) -> Fault {
    Fault { name, number, apply }
}

const FAULTS: &[Fault] = &[
    fault(1, "over 16 lists", lists_over),
    fault(1, "over 1,048,576 documents", documents_over),
    fault(1, "kind over 1", kind_over),
    fault(1, "kind 0 with a code", code_with_kind_0),
    fault(1, "code over 255", code_over),
    fault(2, "average out of range", average_range),
    fault(2, "average not finite", average_not_finite),
    fault(3, "norms one more or fewer", norms_off),
    fault(3, "weights one more or fewer", weights_off),
    fault(3, "counts one more or fewer", counts_off),
    fault(3, "a count off", count_off),
    fault(3, "counts whose sum wraps", counts_wrap),
    fault(3, "documents one more or fewer", docs_off),
    fault(3, "frequencies one more or fewer", freqs_off),
    fault(4, "weight's sign bit", weight_sign),
    fault(4, "weight not a number", weight_nan),
    fault(4, "weight over 1,000", weight_over),
    fault(4, "count over documents", count_over),
    fault(7, "equal documents", equal),
    fault(7, "falling documents", falling),
    fault(7, "document too high", too_high),
    fault(8, "frequency 0", frequency_zero),
    fault(8, "frequency too high", frequency_high),
    fault(9, "score above the list's bound", above_bound),
    fault(13, "output too short", short_output),
];

fn one_off<T: Copy>(values: &mut Vec<T>, random: &mut Random, other: T) -> Option<usize> {
    if random.one_in(2) || values.pop().is_none() {
        values.push(other);
    }
    Some(0)
}

// 1

fn lists_over(contents: &mut Contents, random: &mut Random) -> Option<usize> {
    let lists = random.range(17, 40) as usize;
    contents.counts.resize(lists, 0);
    contents.weights.resize(lists, 1.0);
    Some(0)
}

fn documents_over(contents: &mut Contents, random: &mut Random) -> Option<usize> {
    let any = random.range(u64::from(MOST_DOCUMENTS) + 1, u64::from(u32::MAX)) as u32;
    contents.documents = random.pick(&[MOST_DOCUMENTS + 1, 1 << 21, u32::MAX, any]);
    Some(0)
}

fn kind_over(contents: &mut Contents, random: &mut Random) -> Option<usize> {
    contents.kind = random.pick(&[2, 3, 256, u32::MAX]);
    Some(0)
}

fn code_with_kind_0(contents: &mut Contents, random: &mut Random) -> Option<usize> {
    (contents.kind == 0).then(|| {
        contents.code = random.pick(&[1, 255, 256, u32::MAX]);
        0
    })
}

fn code_over(contents: &mut Contents, random: &mut Random) -> Option<usize> {
    (contents.kind == 1).then(|| {
        contents.code = random.pick(&[256, 257, 1 << 16, u32::MAX]);
        0
    })
}

// 2

fn average_range(contents: &mut Contents, random: &mut Random) -> Option<usize> {
    let below = f32::from_bits(0.0625f32.to_bits() - 1);
    let above = f32::from_bits(2_147_483_648f32.to_bits() + 1);
    contents.average = random.pick(&[below, above, 0.0, -0.0, -8.0, 1e-40, f32::MAX]);
    Some(0)
}

fn average_not_finite(contents: &mut Contents, random: &mut Random) -> Option<usize> {
    contents.average = random.pick(&[f32::NAN, -f32::NAN, f32::INFINITY, f32::NEG_INFINITY]);
    Some(0)
}

// 3

fn norms_off(contents: &mut Contents, random: &mut Random) -> Option<usize> {
    one_off(&mut contents.norms, random, 1)
}

fn weights_off(contents: &mut Contents, random: &mut Random) -> Option<usize> {
    one_off(&mut contents.weights, random, 1.0)
}

/// Sixteen lists are not made seventeen.
fn counts_off(contents: &mut Contents, random: &mut Random) -> Option<usize> {
    if contents.counts.len() == 16 {
        contents.counts.pop();
        return Some(0);
    }
    one_off(&mut contents.counts, random, 0)
}

fn count_off(contents: &mut Contents, random: &mut Random) -> Option<usize> {
    let list = some_list(contents, random, 0)?;
    let count = contents.counts[list];
    let other = [count + 1, count.wrapping_sub(1), count + (1 << 21), u32::MAX];
    contents.counts[list] = random.pick(&other);
    Some(list)
}

/// Two counts that are 2^31 too large: 32 bits hold the right sum.
fn counts_wrap(contents: &mut Contents, _: &mut Random) -> Option<usize> {
    let lists = contents.counts.len();
    (lists > 1).then(|| {
        contents.counts[0] += 1 << 31;
        contents.counts[lists - 1] += 1 << 31;
        0
    })
}

fn docs_off(contents: &mut Contents, random: &mut Random) -> Option<usize> {
    one_off(&mut contents.docs, random, 0)
}

fn freqs_off(contents: &mut Contents, random: &mut Random) -> Option<usize> {
    one_off(&mut contents.freqs, random, 1)
}

// 4

/// A list with so many postings or more, at random.
fn some_list(contents: &Contents, random: &mut Random, least: usize) -> Option<usize> {
    let places = contents.places();
    let lists: Vec<usize> = (0..places.len()).filter(|&l| places[l].len() >= least).collect();
    (!lists.is_empty()).then(|| random.pick(&lists))
}

fn set_weight(contents: &mut Contents, random: &mut Random, weights: &[f32]) -> Option<usize> {
    let list = some_list(contents, random, 0)?;
    *contents.weights.get_mut(list)? = random.pick(weights);
    Some(list)
}

fn weight_sign(contents: &mut Contents, random: &mut Random) -> Option<usize> {
    set_weight(contents, random, &[-0.0, -1.0, -1e-40, f32::NEG_INFINITY, -f32::NAN])
}

fn weight_nan(contents: &mut Contents, random: &mut Random) -> Option<usize> {
    set_weight(contents, random, &[f32::NAN, f32::from_bits(0x7f80_0001)])
}

fn weight_over(contents: &mut Contents, random: &mut Random) -> Option<usize> {
    let above = f32::from_bits(1000f32.to_bits() + 1);
    set_weight(contents, random, &[above, 1001.0, f32::MAX, f32::INFINITY])
}

/// One document fewer than the list has postings.
fn count_over(contents: &mut Contents, random: &mut Random) -> Option<usize> {
    let list = some_list(contents, random, 1)?;
    contents.documents = contents.places()[list].len() as u32 - 1;
    if contents.kind == 0 {
        contents.norms.truncate(contents.documents as usize);
    }
    Some(list)
}

// 7

/// The place of two neighbours in a list, often where a block ends or the list does.
fn neighbours(contents: &Contents, random: &mut Random) -> Option<(usize, usize)> {
    let list = some_list(contents, random, 2)?;
    let place = contents.places()[list].clone();
    let length = place.len();
    let ends: Vec<usize> =
        [126, 127, 128, 255, length - 2].into_iter().filter(|&i| i + 1 < length).collect();
    let first = if random.one_in(2) { random.pick(&ends) } else { random.index(length - 1) };
    Some((list, place.start + first))
}

fn equal(contents: &mut Contents, random: &mut Random) -> Option<usize> {
    let (list, place) = neighbours(contents, random)?;
    contents.docs[place + 1] = contents.docs[place];
    Some(list)
}

fn falling(contents: &mut Contents, random: &mut Random) -> Option<usize> {
    let (list, place) = neighbours(contents, random)?;
    contents.docs.swap(place, place + 1);
    Some(list)
}

/// The last document, or any, so that the next one falls.
fn too_high(contents: &mut Contents, random: &mut Random) -> Option<usize> {
    let list = some_list(contents, random, 1)?;
    let place = contents.places()[list].clone();
    let posting = if random.one_in(2) { place.len() - 1 } else { random.index(place.len()) };
    let high = [contents.documents, contents.documents + 1, MOST_DOCUMENTS, u32::MAX];
    contents.docs[place.start + posting] = random.pick(&high).max(contents.documents);
    Some(list)
}

// 8

fn set_frequency(contents: &mut Contents, random: &mut Random, values: &[u32]) -> Option<usize> {
    let list = some_list(contents, random, 1)?;
    let place = contents.places()[list].clone();
    contents.freqs[place.start + random.index(place.len())] = random.pick(values);
    Some(list)
}

fn frequency_zero(contents: &mut Contents, random: &mut Random) -> Option<usize> {
    set_frequency(contents, random, &[0])
}

fn frequency_high(contents: &mut Contents, random: &mut Random) -> Option<usize> {
    set_frequency(contents, random, &[MOST_FREQUENCY + 1, 1 << 31, u32::MAX])
}

// 9

fn above_bound(contents: &mut Contents, random: &mut Random) -> Option<usize> {
    let list = some_list(contents, random, 1)?;
    let place = contents.places()[list].clone();
    let posting = place.start + random.index(place.len());
    let (weight, average) = (contents.weights[list], contents.average);
    let (code, bound) = (contents.norm(contents.docs[posting]), list_bound(weight, average));
    let mut frequency = u64::from(contents.freqs[posting]);
    while score_of(weight, average, code, frequency as u32) <= bound {
        frequency = frequency + 1 + random.below(frequency);
        if frequency > u64::from(MOST_FREQUENCY) {
            return None;
        }
    }
    contents.freqs[posting] = frequency as u32;
    Some(list)
}

// 13

fn short_output(contents: &mut Contents, random: &mut Random) -> Option<usize> {
    let length = contents.out_len;
    contents.out_len = random.pick(&[length - 1, 0, 8, length / 2]).min(length - 1);
    Some(0)
}

/// Up to 4 the lowest number, then the first list and its lowest number, and 13 last.
fn first_met(done: &[(u32, usize)]) -> u32 {
    let rank = |&(number, list): &(u32, usize)| match number {
        0..=4 => (0, 0, number),
        13 => (2, 0, number),
        _ => (1, list, number),
    };
    done.iter().copied().min_by_key(rank).map_or(0, |(number, _)| number)
}

/// Breaks contents, whose output is as long as their file, in one or two ways of different numbers.
/// Returns the names and the refusal that must follow, or None if nothing could be broken. The
/// higher number comes first, and the lower one stays whole.
pub fn break_contents(
    contents: &mut Contents,
    random: &mut Random,
) -> Option<(Vec<&'static str>, u32)> {
    let mut numbers = [1, 2, 3, 4, 7, 8, 9, 13];
    random.shuffle(&mut numbers);
    let wanted = &mut numbers[..1 + usize::from(random.one_in(2))];
    wanted.sort_by_key(|&number| std::cmp::Reverse(number));
    let (mut names, mut done) = (Vec::new(), Vec::new());
    for &number in wanted.iter() {
        let faults: Vec<&Fault> = FAULTS.iter().filter(|fault| fault.number == number).collect();
        let fault = random.pick(&faults);
        if let Some(list) = (fault.apply)(contents, random) {
            names.push(fault.name);
            done.push((fault.number, list));
        }
    }
    (!done.is_empty()).then(|| (names, first_met(&done)))
}
