//! The stand-ins against the paper's words, and the engines on a few random cases.

use oracle::compare::compare;
use oracle::draft::{bits_of, pack};
use oracle::engine::{self, Load, Source};
use oracle::generate;
use oracle::postings::compression::{BlockDecoder, BlockEncoder};
use oracle::random::Random;
use oracle::small;

fn values(random: &mut Random, width: u8) -> Vec<u32> {
    (0..128).map(|_| random.below(1 << width) as u32).collect()
}

/// Every width: what the paper's words pack, the published decoder unpacks.
#[test]
fn unpacks_every_width() {
    let mut random = Random::new(1);
    for width in 0..=32 {
        let values = values(&mut random, width);
        let raw: Vec<u64> = values.iter().map(|&value| u64::from(value)).collect();
        let mut decoder = BlockDecoder::default();
        let read = decoder.uncompress_block_unsorted(&pack(&raw, width), width, false);
        assert_eq!(read, 16 * usize::from(width));
        assert_eq!(decoder.output_array(), values);
    }
}

/// The published encoder over the stand-in packs as the paper says.
#[test]
fn packs_as_the_paper_says() {
    let mut random = Random::new(2);
    for width in 0..=32 {
        let values = values(&mut random, width);
        let raw: Vec<u64> = values.iter().map(|&value| u64::from(value)).collect();
        let least = raw.iter().map(|&value| bits_of(value)).max().unwrap_or(0);
        let mut encoder = BlockEncoder::new();
        let (num_bits, packed) = encoder.compress_block_unsorted(&values, false);
        assert_eq!((num_bits, packed), (least, &pack(&raw, least)[..]));
    }
}

/// Strict and plain distances, from nothing and from a document before.
#[test]
fn sums_distances() {
    let raw: Vec<u64> = (0..128).map(|i| i % 3).collect();
    for (before, strict) in [(0, false), (0, true), (500, false), (500, true)] {
        let mut last = if strict && before == 0 { -1 } else { before as i64 };
        let expected: Vec<u32> = raw
            .iter()
            .map(|&value| {
                last += value as i64 + i64::from(strict);
                last as u32
            })
            .collect();
        let mut decoder = BlockDecoder::default();
        decoder.uncompress_block_sorted(&pack(&raw, 2), before, 2, strict);
        assert_eq!(decoder.output_array(), expected);
    }
}

/// The small file's lists are tails: each is loaded once, in the query's order.
#[test]
fn records_loads() {
    let case = small::runs(small::FILE.to_vec()).remove(0);
    let skipped = engine::run(&Source::read(&case.file), &case).unwrap();
    let load = |position| Load { position, block: 0 };
    assert_eq!(skipped.loads, [load(0), load(1)]);
}

#[test]
fn a_case_survives_its_text() {
    for number in 0..50 {
        let case = generate::case(9, number).case;
        let text = case.to_text();
        assert_eq!(oracle::case::Case::from_text(&text).unwrap().to_text(), text);
    }
}

#[test]
fn engines_agree_on_a_few_cases() {
    for number in 0..300 {
        let aimed = generate::case(4, number);
        compare(&aimed.case, &aimed.aim).unwrap();
    }
}
