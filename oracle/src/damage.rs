//! Damage aimed at each sub-condition of refusals 1 to 9.

use crate::draft::{vint, Block, Draft, List, KIND_LIES};
use crate::plain::{list_bound, most_frequency, score_of};
use crate::random::Random;

const MOST_FREQUENCY: u64 = 2_013_265_944;
const MOST_WORD: u64 = 4_294_967_295;

/// One way to break a draft. It tells the list that it broke, or None if the draft has no place
/// for it.
pub struct Damage {
    pub name: &'static str,
    pub number: u32,
    pub apply: fn(&mut Draft, &mut Random) -> Option<usize>,
}

const fn damage(
    number: u32,
    name: &'static str,
    apply: fn(&mut Draft, &mut Random) -> Option<usize>,
) -> Damage {
    Damage { name, number, apply }
}

/// In falling order of their numbers: of two damages the lower is applied last and stays whole.
pub const DAMAGES: &[Damage] = &[
    damage(9, "list bound too low", list_bound_too_low),
    damage(9, "block bound of frequency 0", block_bound_zero),
    damage(9, "block bound's frequency just too low", block_bound_frequency),
    damage(9, "block bound's norm code just too high", block_bound_norm),
    damage(8, "frequency 0 in a block", zero_in_block),
    damage(8, "frequency 0 in the tail", zero_in_tail),
    damage(8, "frequency too high in a block", high_in_block),
    damage(8, "frequency too high in the tail", high_in_tail),
    damage(8, "strict frequency 4,294,967,296", strict_wrap),
    damage(7, "equal documents in a block", equal_in_block),
    damage(7, "equal documents in the tail", equal_in_tail),
    damage(7, "documents wrap in a block", wrap_in_block),
    damage(7, "documents wrap in the tail", wrap_in_tail),
    damage(7, "document too high in a block", beyond_in_block),
    damage(7, "document too high in the tail", beyond_in_tail),
    damage(7, "skip entry's last document wrong", last_wrong),
    damage(6, "postings too long", postings_long),
    damage(6, "postings too short", postings_short),
    damage(6, "width does not fill the postings", width_wrong),
    damage(6, "VInt of six bytes", vint_six_bytes),
    damage(6, "VInt over 32 bits", vint_over),
    damage(6, "VInt without an end", vint_endless),
    damage(5, "skip length wrong", skip_length_wrong),
    damage(5, "skip kind wrong", skip_kind_wrong),
    damage(5, "width byte's bit 5", |draft, random| width_flag(draft, random, 1 << 5)),
    damage(5, "width byte's bit 7", |draft, random| width_flag(draft, random, 1 << 7)),
    damage(5, "frequency width over 32", frequency_width_over),
    damage(4, "weight's sign bit", weight_sign),
    damage(4, "weight not a number", weight_nan),
    damage(4, "weight over 1,000", weight_over),
    damage(4, "count over documents", count_over),
    damage(3, "file ends inside the entries", ends_in_entries),
    damage(3, "file cut short", cut_short),
    damage(3, "bytes left over", left_over),
    damage(3, "skip length off", skip_lie),
    damage(3, "postings length off", postings_lie),
    damage(3, "norm bytes missing or left over", norms_off),
    damage(2, "average out of range", average_range),
    damage(2, "average not finite", average_not_finite),
    damage(1, "under 9 bytes", under_nine),
    damage(1, "version not 1", version),
    damage(1, "spare set", spare),
    damage(1, "over 16 lists", lists_over),
    damage(1, "over 1,048,576 documents", documents_over),
    damage(1, "kind 0 with a code", code_with_kind_0),
];

/// A list that passes, at random.
fn some_list(draft: &Draft, random: &mut Random, passes: impl Fn(&List) -> bool) -> Option<usize> {
    let places: Vec<usize> =
        (0..draft.lists.len()).filter(|&list| passes(&draft.lists[list])).collect();
    (!places.is_empty()).then(|| random.pick(&places))
}

fn with_block(draft: &Draft, random: &mut Random) -> Option<(usize, usize)> {
    let list = some_list(draft, random, |list| !list.blocks.is_empty())?;
    Some((list, random.index(draft.lists[list].blocks.len())))
}

fn with_tail(draft: &Draft, random: &mut Random, least: usize) -> Option<usize> {
    some_list(draft, random, |list| list.tail_documents.len() >= least)
}

fn block_at(draft: &mut Draft, (list, block): (usize, usize)) -> &mut Block {
    &mut draft.lists[list].blocks[block]
}

fn value_of(bytes: &[u8]) -> u64 {
    bytes.iter().rev().fold(0, |value, byte| value << 7 | u64::from(byte & 127))
}

// 9

fn list_bound_too_low(draft: &mut Draft, random: &mut Random) -> Option<usize> {
    let list = some_list(draft, random, |list| !list.postings.is_empty())?;
    let place = random.index(draft.lists[list].postings.len());
    let (weight, average) = (draft.lists[list].weight, draft.average);
    let code = draft.code(draft.lists[list].postings[place].document);
    let bound = list_bound(weight, average);
    let mut frequency = u64::from(draft.lists[list].postings[place].frequency);
    while score_of(weight, average, code, frequency as u32) <= bound {
        frequency = frequency + 1 + random.below(frequency);
        if frequency > MOST_FREQUENCY {
            return None;
        }
    }
    set_frequency(&mut draft.lists[list], place, frequency);
    Some(list)
}

/// The block's own bound is loosened, so that only the list's can be too low.
fn set_frequency(list: &mut List, place: usize, frequency: u64) {
    match list.blocks.get_mut(place / 128) {
        Some(block) => {
            block.frequencies[place % 128] = frequency - u64::from(block.strict);
            (block.norm_code, block.frequency_code) = (0, 255);
            block.fit();
        }
        None => list.tail_frequencies[place % 128] = vint(frequency, 1),
    }
}

fn best_in_block(draft: &Draft, (list, block): (usize, usize)) -> f32 {
    let postings = draft.lists[list].postings.chunks(128).nth(block).unwrap_or_default();
    let score = |posting: &crate::draft::Posting| {
        let code = draft.code(posting.document);
        score_of(draft.lists[list].weight, draft.average, code, posting.frequency)
    };
    postings.iter().map(score).fold(0.0, f32::max)
}

/// Sets the first pair of codes whose bound lies below the block's best score.
fn lower_bound(
    draft: &mut Draft,
    at: (usize, usize),
    pairs: impl Iterator<Item = (u8, u8)>,
) -> Option<usize> {
    let best = best_in_block(draft, at);
    let (weight, average) = (draft.lists[at.0].weight, draft.average);
    let bound = |code, frequency| score_of(weight, average, code, most_frequency(frequency));
    let (code, frequency) = { pairs }.find(|&(code, frequency)| bound(code, frequency) < best)?;
    let block = block_at(draft, at);
    (block.norm_code, block.frequency_code) = (code, frequency);
    Some(at.0)
}

fn block_bound_zero(draft: &mut Draft, random: &mut Random) -> Option<usize> {
    let at = with_block(draft, random)?;
    lower_bound(draft, at, [(random.word() as u8, 0)].into_iter())
}

fn block_bound_frequency(draft: &mut Draft, random: &mut Random) -> Option<usize> {
    let at = with_block(draft, random)?;
    let (code, frequency) = (block_at(draft, at).norm_code, block_at(draft, at).frequency_code);
    lower_bound(draft, at, (0..=frequency).rev().map(|frequency| (code, frequency)))
}

fn block_bound_norm(draft: &mut Draft, random: &mut Random) -> Option<usize> {
    let at = with_block(draft, random)?;
    let (code, frequency) = (block_at(draft, at).norm_code, block_at(draft, at).frequency_code);
    lower_bound(draft, at, (code..=255).map(|code| (code, frequency)))
}

// 8

fn zero_in_block(draft: &mut Draft, random: &mut Random) -> Option<usize> {
    let at = with_block(draft, random)?;
    let block = block_at(draft, at);
    block.loosen(at.1 == 0);
    block.frequencies[random.index(128)] = 0;
    Some(at.0)
}

fn zero_in_tail(draft: &mut Draft, random: &mut Random) -> Option<usize> {
    let list = with_tail(draft, random, 1)?;
    let tail = &mut draft.lists[list].tail_frequencies;
    let place = random.index(tail.len());
    tail[place] = vint(0, random.range(1, 5) as usize);
    Some(list)
}

fn too_high(random: &mut Random) -> u64 {
    let high = random.range(MOST_FREQUENCY + 1, MOST_WORD);
    random.pick(&[MOST_FREQUENCY + 1, high, MOST_WORD])
}

fn high_in_block(draft: &mut Draft, random: &mut Random) -> Option<usize> {
    let at = with_block(draft, random)?;
    let frequency = too_high(random);
    let block = block_at(draft, at);
    block.frequencies[random.index(128)] = frequency - u64::from(block.strict);
    block.fit();
    Some(at.0)
}

fn high_in_tail(draft: &mut Draft, random: &mut Random) -> Option<usize> {
    let list = with_tail(draft, random, 1)?;
    let frequency = too_high(random);
    let tail = &mut draft.lists[list].tail_frequencies;
    let place = random.index(tail.len());
    tail[place] = vint(frequency, 1);
    Some(list)
}

fn strict_wrap(draft: &mut Draft, random: &mut Random) -> Option<usize> {
    let at = with_block(draft, random).filter(|&at| block_at(draft, at).strict)?;
    let block = block_at(draft, at);
    block.frequencies[random.index(128)] = MOST_WORD;
    block.fit();
    Some(at.0)
}

// 7

/// The next document makes up for it, so that the last one stays right.
fn equal_in_block(draft: &mut Draft, random: &mut Random) -> Option<usize> {
    let at = with_block(draft, random)?;
    let block = block_at(draft, at);
    block.loosen(at.1 == 0);
    let place = random.range(u64::from(at.1 == 0), 126) as usize;
    let distance = std::mem::take(&mut block.documents[place]);
    block.documents[place + 1] += distance;
    block.fit();
    Some(at.0)
}

fn equal_in_tail(draft: &mut Draft, random: &mut Random) -> Option<usize> {
    let list = some_list(draft, random, |list| {
        list.tail_documents.len() + list.blocks.len() > 1 && !list.tail_documents.is_empty()
    })?;
    let first = usize::from(draft.lists[list].blocks.is_empty());
    let tail = &mut draft.lists[list].tail_documents;
    let place = first + random.index(tail.len() - first);
    tail[place] = vint(0, random.range(1, 5) as usize);
    Some(list)
}

/// Three distances whose sum is 2^32 too high: in 32 bits the last document is right again.
fn wrap_in_block(draft: &mut Draft, random: &mut Random) -> Option<usize> {
    const MOST: u64 = (1 << 31) - 1;
    let at = with_block(draft, random)?;
    let block = block_at(draft, at);
    let place = random.index(126);
    let sum: u64 = block.documents[place..place + 3].iter().sum();
    block.documents[place..place + 3].copy_from_slice(&[MOST, MOST, sum + 2]);
    block.fit();
    Some(at.0)
}

fn wrap_in_tail(draft: &mut Draft, random: &mut Random) -> Option<usize> {
    let list = with_tail(draft, random, 2)?;
    let tail = &mut draft.lists[list].tail_documents;
    let place = random.index(tail.len() - 1);
    let sum = value_of(&tail[place]) + value_of(&tail[place + 1]);
    tail[place] = vint(MOST_WORD, 1);
    tail[place + 1] = vint(sum + 1, 1);
    Some(list)
}

/// How far a list's last document must go to reach the header's number or more.
fn beyond(draft: &Draft, list: usize, random: &mut Random) -> Option<u64> {
    let last = draft.lists[list].postings.last()?.document;
    let least = draft.documents.saturating_sub(u64::from(last));
    Some(least + random.pick(&[0, 0, 1, 1 << 20]))
}

fn beyond_in_block(draft: &mut Draft, random: &mut Random) -> Option<usize> {
    let list =
        some_list(draft, random, |list| !list.blocks.is_empty() && list.tail_documents.is_empty())?;
    let distance = beyond(draft, list, random)?;
    let block = draft.lists[list].blocks.last_mut()?;
    block.documents[127] += distance;
    block.last += distance as u32;
    block.fit();
    Some(list)
}

fn beyond_in_tail(draft: &mut Draft, random: &mut Random) -> Option<usize> {
    let list = with_tail(draft, random, 1)?;
    let distance = beyond(draft, list, random)?;
    let last = draft.lists[list].tail_documents.last_mut()?;
    *last = vint(value_of(last) + distance, 1);
    Some(list)
}

fn last_wrong(draft: &mut Draft, random: &mut Random) -> Option<usize> {
    let at = with_block(draft, random)?;
    let bit = 1 << random.below(32);
    let block = block_at(draft, at);
    block.last = match random.below(3) {
        0 => block.last + 1,
        1 => block.last - 1,
        _ => block.last ^ bit,
    };
    Some(at.0)
}

// 6

fn postings_long(draft: &mut Draft, random: &mut Random) -> Option<usize> {
    let list = some_list(draft, random, |_| true)?;
    let more = (0..random.range(1, 3)).map(|_| random.word() as u8 | 128).collect();
    draft.lists[list].more_postings = more;
    Some(list)
}

fn postings_short(draft: &mut Draft, random: &mut Random) -> Option<usize> {
    let list = some_list(draft, random, |list| list.postings_length() > 0)?;
    let most = draft.lists[list].postings_length().min(20) as u64;
    draft.lists[list].cut_postings = random.range(1, most) as usize;
    Some(list)
}

/// Without a tail no other width can fill the postings.
fn width_wrong(draft: &mut Draft, random: &mut Random) -> Option<usize> {
    let list =
        some_list(draft, random, |list| !list.blocks.is_empty() && list.tail_documents.is_empty())?;
    let block = random.index(draft.lists[list].blocks.len());
    draft.lists[list].blocks[block].width_flips ^= random.range(1, 31) as u8;
    Some(list)
}

fn set_some_vint(draft: &mut Draft, random: &mut Random, bytes: Vec<u8>) -> Option<usize> {
    let list = with_tail(draft, random, 1)?;
    let place = random.index(draft.lists[list].tail_documents.len());
    let tail = match random.below(2) {
        0 => &mut draft.lists[list].tail_documents,
        _ => &mut draft.lists[list].tail_frequencies,
    };
    tail[place] = bytes;
    Some(list)
}

fn vint_six_bytes(draft: &mut Draft, random: &mut Random) -> Option<usize> {
    let value = random.range(1, 127);
    set_some_vint(draft, random, vint(value, 6))
}

fn vint_over(draft: &mut Draft, random: &mut Random) -> Option<usize> {
    let value = random.range(MOST_WORD + 1, (1 << 35) - 1);
    let value = random.pick(&[MOST_WORD + 1, MOST_WORD + 2, value]);
    set_some_vint(draft, random, vint(value, 5))
}

fn vint_endless(draft: &mut Draft, random: &mut Random) -> Option<usize> {
    let list = with_tail(draft, random, 1)?;
    let last = draft.lists[list].tail_frequencies.last_mut()?.last_mut()?;
    *last &= 127;
    Some(list)
}

// 5

/// The file's length stays the sum of its parts.
fn skip_length_wrong(draft: &mut Draft, random: &mut Random) -> Option<usize> {
    let list = some_list(draft, random, |_| true)?;
    let list_draft = &mut draft.lists[list];
    let (skips, postings) = (list_draft.blocks.len() * 8, list_draft.postings_length());
    match random.below(3) {
        0 if postings > 0 => {
            list_draft.skip_shift = random.range(1, postings.min(24) as u64) as i64
        }
        1 if skips > 0 => list_draft.skip_shift = -(random.range(1, skips.min(24) as u64) as i64),
        _ => list_draft.more_skip = vec![random.word() as u8; random.range(1, 24) as usize],
    }
    Some(list)
}

fn skip_kind_wrong(draft: &mut Draft, random: &mut Random) -> Option<usize> {
    let (list, _) = with_block(draft, random)?;
    let kind = draft.lists[list].kind & 1;
    draft.lists[list].kind = KIND_LIES | (1 - kind);
    Some(list)
}

fn width_flag(draft: &mut Draft, random: &mut Random, flag: u8) -> Option<usize> {
    let at = with_block(draft, random)?;
    block_at(draft, at).width_flips |= flag;
    Some(at.0)
}

fn frequency_width_over(draft: &mut Draft, random: &mut Random) -> Option<usize> {
    let at = with_block(draft, random)?;
    let high = random.range(34, 255) as u8;
    block_at(draft, at).claimed_frequency_width = Some(random.pick(&[33, high]));
    Some(at.0)
}

// 4

fn set_weight(draft: &mut Draft, random: &mut Random, weight: f32) -> Option<usize> {
    let list = some_list(draft, random, |_| true)?;
    draft.lists[list].weight = weight;
    Some(list)
}

fn weight_sign(draft: &mut Draft, random: &mut Random) -> Option<usize> {
    let any = f32::from_bits(random.word() as u32 | 1 << 31);
    let weight = random.pick(&[-0.0, -1.0, f32::from_bits(0x8000_0001), any]);
    set_weight(draft, random, weight)
}

fn weight_nan(draft: &mut Draft, random: &mut Random) -> Option<usize> {
    let any = f32::from_bits(0x7f80_0001 + random.below(0x7f_ffff) as u32);
    let weight = random.pick(&[f32::from_bits(0x7f80_0001), f32::from_bits(0x7fc0_0000), any]);
    set_weight(draft, random, weight)
}

fn weight_over(draft: &mut Draft, random: &mut Random) -> Option<usize> {
    let weight = random.pick(&[f32::from_bits(0x447a_0001), 1001.0, f32::MAX, f32::INFINITY]);
    set_weight(draft, random, weight)
}

fn count_over(draft: &mut Draft, random: &mut Random) -> Option<usize> {
    let list = some_list(draft, random, |_| true)?;
    let high = random.range(draft.documents + 1, (1 << 21) - 1);
    draft.lists[list].count = random.pick(&[draft.documents + 1, high]);
    Some(list)
}

// 3

fn ends_in_entries(draft: &mut Draft, random: &mut Random) -> Option<usize> {
    let entries = 13 * draft.lists.len() as u64;
    draft.cut_to = (entries > 0).then(|| 9 + random.below(entries) as usize);
    draft.cut_to.map(|_| 0)
}

fn cut_short(draft: &mut Draft, random: &mut Random) -> Option<usize> {
    let (entries, length) = (9 + 13 * draft.lists.len(), draft.bytes().len());
    if entries >= length {
        return None;
    }
    let any = random.range(entries as u64, length as u64 - 1) as usize;
    draft.cut_to = Some(random.pick(&[any, length - 1]));
    Some(0)
}

fn left_over(draft: &mut Draft, random: &mut Random) -> Option<usize> {
    draft.more = vec![random.word() as u8; random.range(1, 40) as usize];
    Some(0)
}

fn skip_lie(draft: &mut Draft, random: &mut Random) -> Option<usize> {
    let list = some_list(draft, random, |_| true)?;
    draft.lists[list].skip_lie = random.pick(&[1, 8, 12, 1 << 20]);
    Some(list)
}

fn postings_lie(draft: &mut Draft, random: &mut Random) -> Option<usize> {
    let list = some_list(draft, random, |_| true)?;
    let shorter = draft.lists[list].postings_length() > 40;
    draft.lists[list].postings_lie = match random.below(3) {
        0 if shorter => -1,
        1 => 1 << 24,
        _ => 1,
    };
    Some(list)
}

fn norms_off(draft: &mut Draft, random: &mut Random) -> Option<usize> {
    if draft.norm_kind != 0 {
        return None;
    }
    match random.below(2) {
        0 => draft.norms.push(1),
        _ => drop(draft.norms.pop()?),
    }
    Some(0)
}

// 2

fn average_range(draft: &mut Draft, random: &mut Random) -> Option<usize> {
    let above = f32::from_bits(0x4f00_0001);
    let below = f32::from_bits(0x3d7f_ffff);
    let negative = f32::from_bits(draft.average.to_bits() | 1 << 31);
    let subnormal = f32::from_bits(1);
    draft.average = random.pick(&[above, below, negative, subnormal, 0.0, -0.0, f32::MAX]);
    Some(0)
}

fn average_not_finite(draft: &mut Draft, random: &mut Random) -> Option<usize> {
    let nan = f32::from_bits(0x7f80_0000 | random.word() as u32 | 1);
    draft.average = random.pick(&[f32::INFINITY, f32::NEG_INFINITY, f32::NAN, nan]);
    Some(0)
}

// 1

fn under_nine(draft: &mut Draft, random: &mut Random) -> Option<usize> {
    draft.cut_to = Some(random.index(9));
    Some(0)
}

fn version(draft: &mut Draft, random: &mut Random) -> Option<usize> {
    draft.version = random.pick(&[0, 2, 3, 5, 9, 15]);
    Some(0)
}

fn spare(draft: &mut Draft, _: &mut Random) -> Option<usize> {
    draft.spare = 1;
    Some(0)
}

fn lists_over(draft: &mut Draft, random: &mut Random) -> Option<usize> {
    draft.claimed_lists = Some(random.range(17, 31));
    Some(0)
}

fn documents_over(draft: &mut Draft, random: &mut Random) -> Option<usize> {
    let high = random.range(1_048_577, (1 << 21) - 1);
    draft.documents = random.pick(&[1_048_577, high]);
    Some(0)
}

fn code_with_kind_0(draft: &mut Draft, random: &mut Random) -> Option<usize> {
    if draft.norm_kind != 0 {
        return None;
    }
    draft.norm_code = random.range(1, 255) as u8;
    Some(0)
}

/// 1 to 4 by number; 5 to 9 by list and then by number.
fn first_met(done: &[(u32, usize)]) -> u32 {
    let rank = |&(number, list): &(u32, usize)| match number {
        1..=4 => (0, number),
        _ => (1 + list, number),
    };
    done.iter().copied().min_by_key(rank).map_or(0, |(number, _)| number)
}

/// Breaks a draft in one or two ways of different numbers. Returns the names and the refusal that
/// must follow, or None if nothing could be broken.
pub fn break_draft(draft: &mut Draft, random: &mut Random) -> Option<(Vec<&'static str>, u32)> {
    let wanted = 1 + usize::from(random.one_in(4));
    let mut order: Vec<&Damage> = DAMAGES.iter().collect();
    random.shuffle(&mut order);
    order.truncate(wanted);
    order.sort_by_key(|damage| std::cmp::Reverse(damage.number));
    order.dedup_by_key(|damage| damage.number);
    let (mut names, mut done) = (Vec::new(), Vec::new());
    for damage in order {
        if let Some(list) = (damage.apply)(draft, random) {
            names.push(damage.name);
            done.push((damage.number, list));
        }
    }
    (!done.is_empty()).then(|| (names, first_met(&done)))
}
