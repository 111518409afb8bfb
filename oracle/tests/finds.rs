//! Order 4 of the later requests, on examples that can be checked by hand.

use oracle::case::{Case, BEST_K, STEPPED, UNION, UNSTEPPED};
use oracle::draft::{vint, Draft, List};
use oracle::find_compare::compare;
use oracle::finder::{find, Find, Found};
use oracle::finds::{self, Aimed};
use oracle::generate::Aim;
use oracle::small;

/// The k best of the union of the paper's small file, with room for all reports and k notes.
fn small(start: f32, k: u32) -> Find {
    let run = Case {
        file: small::FILE.to_vec(),
        query: vec![0, 1],
        mode: UNION,
        scoring: STEPPED,
        rule: BEST_K,
        start,
        k,
        documents_len: 3,
        scores_len: 4,
        ..Case::default()
    };
    Find { run, documents_len: k as usize, scores_len: k as usize + 1 }
}

/// One list of the documents from 0 on, by their frequencies; all have one norm code.
fn by_frequency(frequencies: &[u64], k: u32) -> Find {
    let list = List {
        weight: 1000.0,
        count: frequencies.len() as u64,
        tail_documents: (0..frequencies.len()).map(|at| vint(at.min(1) as u64, 1)).collect(),
        tail_frequencies: frequencies.iter().map(|&frequency| vint(frequency, 1)).collect(),
        ..List::default()
    };
    let draft = Draft {
        version: 1,
        norm_kind: 1,
        norm_code: 1,
        documents: frequencies.len() as u64,
        average: 2_147_483_648.0,
        lists: vec![list],
        ..Draft::default()
    };
    let mut find = small(0.0, k);
    (find.run.file, find.run.query) = (draft.bytes(), vec![0]);
    (find.run.documents_len, find.run.scores_len) = (frequencies.len(), frequencies.len());
    find
}

/// The same on every engine.
fn found(find: &Find) -> Found {
    let aimed = Aimed { find: find.clone(), aim: Aim::Open, names: Vec::new() };
    compare(&aimed).unwrap().found
}

/// Number, documents of the reports and documents of the notes.
fn documents(find: &Find) -> (u32, Vec<u32>, Vec<u32>) {
    let Found { code, reports, notes } = found(find);
    let documents = |rows: &[oracle::case::Row]| rows.iter().map(|row| row.document).collect();
    (code, documents(&reports), documents(&notes))
}

#[test]
fn the_best_of_the_small_file() {
    assert_eq!(documents(&small(0.0, 1)), (0, vec![0, 1, 3], vec![3]));
    assert_eq!(documents(&small(0.0, 2)), (0, vec![0, 1, 3], vec![3, 1]));
    let scores: Vec<f32> =
        found(&small(0.0, 2)).notes.iter().map(|note| f32::from_bits(note.score)).collect();
    assert_eq!(scores, [1_262_696.0 / 1024.0, 724_955.0 / 1024.0]);
}

#[test]
fn all_if_fewer_than_k() {
    assert_eq!(documents(&small(0.0, 64)), (0, vec![0, 1, 3], vec![3, 1, 0]));
    assert_eq!(documents(&small(362_477.0 / 1024.0, 3)), (0, vec![1, 3], vec![3, 1]));
    assert_eq!(documents(&small(16_000.0, 3)), (0, vec![], vec![]));
}

/// Documents 1, 2 and 4 have one score, and 3 a better one.
#[test]
fn ties_go_by_rising_document() {
    let of = |k| documents(&by_frequency(&[1, 2, 2, 9, 2], k)).2;
    assert_eq!(of(1), [3]);
    assert_eq!(of(2), [3, 1]);
    assert_eq!(of(3), [3, 1, 2]);
    assert_eq!(of(4), [3, 1, 2, 4]);
    assert_eq!(of(5), [3, 1, 2, 4, 0]);
}

/// Once k equal scores are reported, no other is above the threshold.
#[test]
fn all_equal() {
    assert_eq!(documents(&by_frequency(&[5; 100], 3)), (0, vec![0, 1, 2], vec![0, 1, 2]));
}

/// Every document is reported, and the last are the notes.
#[test]
fn rising_scores() {
    let find = by_frequency(&[1, 2, 3, 4, 5, 6], 2);
    assert_eq!(documents(&find), (0, vec![0, 1, 2, 3, 4, 5], vec![5, 4]));
}

#[track_caller]
fn refused(code: u32, find: &Find) {
    assert_eq!(found(find), Found::refused(code));
}

/// The first refusal of a find with one note row too few, whatever else is wrong.
#[track_caller]
fn refused_before_14(code: u32, change: impl Fn(&mut Find)) {
    let mut find = Find { documents_len: 1, ..small(0.0, 2) };
    change(&mut find);
    refused(code, &find);
}

#[test]
fn refusals_in_their_order() {
    refused(14, &Find { documents_len: 1, ..small(0.0, 2) });
    refused(14, &Find { scores_len: 0, ..small(0.0, 1) });
    refused(11, &small(0.0, 0));
    refused(11, &small(0.0, 65));
    refused_before_14(14, |find| find.run.scores_len = 2);
    refused_before_14(11, |find| find.run.start = f32::NAN);
    refused_before_14(11, |find| find.run.scoring = 2);
    refused_before_14(10, |find| find.run.mode = 3);
    refused_before_14(9, |find| find.run.file[38] = 0x84);
}

/// With 12 the first reports stay, and no note is written.
#[test]
fn too_few_report_rows() {
    let mut find = small(0.0, 1);
    find.run.documents_len = 2;
    assert_eq!(documents(&find), (12, vec![0, 1], vec![]));
    find.run.scoring = UNSTEPPED;
    assert_eq!(documents(&find), (12, vec![0, 1], vec![]));
}

#[test]
fn a_find_survives_its_text() {
    for number in 0..50 {
        let aimed = finds::case(9, number);
        let text = aimed.find.to_text();
        let read = Find::from_text(&text).unwrap();
        assert_eq!(read.to_text(), text);
        assert_eq!(find(&read).unwrap(), found(&aimed.find));
    }
}
