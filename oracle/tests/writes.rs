//! Order 1 of the later requests, on examples that can be checked by hand.

use oracle::contents::Contents;
use oracle::generate::Aim;
use oracle::small;
use oracle::write_compare::compare;
use oracle::writes::Aimed;

const MOST_FREQUENCY: u32 = 2_013_265_944;

/// The contents of the paper's small file.
fn small() -> Contents {
    Contents {
        documents: 4,
        kind: 1,
        code: 1,
        average: 8.0,
        weights: vec![1000.0, 500.0],
        counts: vec![2, 2],
        docs: vec![1, 3, 0, 3],
        freqs: vec![1, 3, 1, 1],
        out_len: 43,
        ..Contents::default()
    }
}

/// One list of 128 documents from 3 on, each 2 after the one before.
fn block() -> Contents {
    Contents {
        documents: 300,
        kind: 1,
        code: 255,
        average: 1.0,
        weights: vec![1.0],
        counts: vec![128],
        docs: (0..128).map(|i| 3 + 2 * i).collect(),
        freqs: vec![1; 128],
        out_len: 1000,
        ..Contents::default()
    }
}

/// Number and bytes, the same on every engine.
fn write(contents: &Contents) -> (u32, Vec<u8>) {
    let aimed = Aimed { contents: contents.clone(), aim: Aim::Open, names: Vec::new() };
    let written = compare(&aimed).unwrap();
    (written.code, written.bytes)
}

fn skip_entry(contents: &Contents) -> Vec<u8> {
    let (code, bytes) = write(contents);
    assert_eq!(code, 0);
    bytes[9 + 13 + contents.norms.len()..][..8].to_vec()
}

#[track_caller]
fn refused(number: u32, change: impl Fn(&mut Contents)) {
    let mut contents = small();
    change(&mut contents);
    assert_eq!(write(&contents), (number, Vec::new()));
}

#[test]
fn the_small_file() {
    assert_eq!(write(&small()), (0, small::FILE.to_vec()));
    let text = small().to_text();
    assert_eq!(Contents::from_text(&text).unwrap().to_text(), text);
}

/// The first document counts from 0 and takes two bits; 1 lies between the others; 257 is last.
#[test]
fn a_block_of_128() {
    let entry = skip_entry(&block());
    assert_eq!(entry, [1, 1, 0, 0, 2 + 64, 0, 255, 1]);
    let (_, bytes) = write(&block());
    let packed = &bytes[9 + 13 + 8..];
    // Row 0 of lane 0 is 3, every other row and lane has 1.
    assert_eq!(packed[0], 0b01_01_01_11);
    assert!(packed[1..].iter().all(|&byte| byte == 0b01_01_01_01));
    assert_eq!(packed.len(), 32);
}

#[test]
fn no_width_at_all() {
    let contents = Contents { docs: (0..128).collect(), ..block() };
    assert_eq!(skip_entry(&contents), [127, 0, 0, 0, 64, 0, 255, 1]);
    assert_eq!(write(&contents).1.len(), 9 + 13 + 8);
}

#[test]
fn codes_of_high_frequencies() {
    for (frequency, code) in [(253, 253), (254, 254), (255, 255), (256, 255), (MOST_FREQUENCY, 255)]
    {
        let mut contents = block();
        contents.freqs[77] = frequency;
        assert_eq!(skip_entry(&contents)[6..], [255, code]);
    }
}

/// Two norm codes whose scores are the same by a weight of 0: the first document's pair.
#[test]
fn the_lowest_document_among_equals() {
    let norms = (0..300).map(|document| (document % 7) as u8).collect();
    let contents = Contents { kind: 0, code: 0, norms, weights: vec![0.0], ..block() };
    assert_eq!(skip_entry(&contents)[6..], [3, 1]);
    let norms = (0..300).map(|document| if document == 9 { 5 } else { 6 }).collect();
    let contents = Contents { kind: 0, code: 0, norms, freqs: vec![2; 128], ..block() };
    assert_eq!(skip_entry(&contents)[6..], [5, 2]);
}

#[test]
fn refusals() {
    refused(1, |contents| contents.kind = 2);
    refused(1, |contents| contents.kind = 0);
    refused(1, |contents| contents.code = 256);
    refused(1, |contents| contents.documents = 1_048_577);
    refused(2, |contents| contents.average = f32::NAN);
    refused(3, |contents| contents.norms = vec![1; 4]);
    refused(3, |contents| contents.weights = vec![1.0]);
    refused(3, |contents| contents.docs = vec![1, 3, 0]);
    refused(3, |contents| contents.counts = vec![2 + (1 << 31), 2 + (1 << 31)]);
    refused(4, |contents| contents.weights[1] = -0.0);
    refused(4, |contents| contents.documents = 1);
    refused(7, |contents| contents.docs[3] = 0);
    refused(7, |contents| contents.docs[3] = 4);
    refused(8, |contents| contents.freqs[3] = 0);
    refused(8, |contents| contents.freqs[3] = MOST_FREQUENCY + 1);
    refused(9, |contents| contents.freqs[1] = 4);
    refused(13, |contents| contents.out_len = 42);
}

#[test]
fn the_first_of_two_faults() {
    refused(9, |contents| (contents.freqs[1], contents.docs[3]) = (4, 0));
    refused(7, |contents| (contents.docs[1], contents.freqs[0]) = (0, 0));
    refused(8, |contents| (contents.freqs[1], contents.freqs[0]) = (4, 0));
    refused(9, |contents| (contents.freqs[1], contents.out_len) = (4, 0));
    refused(4, |contents| (contents.docs[1], contents.weights[1]) = (0, f32::NAN));
    refused(3, |contents| (contents.norms, contents.weights[0]) = (vec![0], -1.0));
}
