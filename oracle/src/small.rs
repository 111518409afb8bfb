//! The paper's small file: two lists of two documents, weights 1,000 and 500.

use crate::case::{Case, BEST_K, INTERSECTION, SCRIPT, SINGLE, STEPPED, UNION, UNSTEPPED};

pub const FILE: [u8; 43] = [
    0x18, 0x80, 0x40, 0x00, 0x08, 0x41, 0x00, 0x00, 0x00, // header
    0x44, 0x7a, 0x00, 0x00, 0x00, 0x00, 0x10, 0x00, 0x00, 0x00, 0x00, 0x00, 0x04, // list 0
    0x43, 0xfa, 0x00, 0x00, 0x00, 0x00, 0x10, 0x00, 0x00, 0x00, 0x00, 0x00, 0x04, // list 1
    0x81, 0x82, 0x81, 0x83, // documents 1 and 3, frequencies 1 and 3
    0x80, 0x83, 0x81, 0x81, // documents 0 and 3, frequencies 1 and 1
];

/// Every prefix, the file itself among them, and every change of one byte.
pub fn changes() -> impl Iterator<Item = Vec<u8>> {
    let prefixes = (0..=FILE.len()).map(|length| FILE[..length].to_vec());
    let changed = (0..FILE.len()).flat_map(|place| {
        (1..=255).map(move |bits| {
            let mut file = FILE.to_vec();
            file[place] ^= bits;
            file
        })
    });
    prefixes.chain(changed)
}

/// A few runs over a file that may hold fewer lists than the small one.
pub fn runs(file: Vec<u8>) -> Vec<Case> {
    let run = |mode, query: &[u32], scoring, rule, start, rows| Case {
        file: file.clone(),
        query: query.to_vec(),
        mode,
        scoring,
        rule,
        start,
        k: 1,
        script: Vec::new(),
        documents_len: rows,
        scores_len: rows + 1,
    };
    vec![
        run(UNION, &[0, 1], STEPPED, SCRIPT, 0.0, 8),
        run(UNION, &[1, 0], UNSTEPPED, BEST_K, -1.0, 2),
        run(INTERSECTION, &[0, 1], STEPPED, BEST_K, -1.0, 1),
        run(SINGLE, &[1], UNSTEPPED, SCRIPT, 100.0, 2),
        run(UNION, &[], STEPPED, SCRIPT, 0.0, 0),
    ]
}
