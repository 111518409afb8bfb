//! The paper's small file and its cases, on every engine.

use oracle::case::*;
use oracle::compare::compare;
use oracle::draft::{Block, Draft, List};
use oracle::engine::{self, Source};
use oracle::fieldnorm::FIELD_NORMS_TABLE;
use oracle::generate::Aim;
use oracle::{plain, small};

fn run(mode: u32, query: &[u32], rule: u32, start: f32) -> Case {
    Case {
        file: small::FILE.to_vec(),
        query: query.to_vec(),
        mode,
        scoring: STEPPED,
        rule,
        start,
        k: 1,
        script: Vec::new(),
        documents_len: 8,
        scores_len: 8,
    }
}

/// Code and rows, scores in 1/1024, the same on every engine.
fn outcome(case: &Case) -> (u32, Vec<(u32, f32)>) {
    let plain = compare(case, &Aim::Open).unwrap().plain;
    assert_eq!(plain.count as usize, plain.rows.len());
    let row = |row: &Row| (row.document, f32::from_bits(row.score) * 1024.0);
    (plain.code, plain.rows.iter().map(row).collect())
}

fn documents(case: &Case) -> Vec<u32> {
    let (code, rows) = outcome(case);
    assert_eq!(code, 0);
    rows.into_iter().map(|(document, _)| document).collect()
}

#[test]
fn a_fixed_threshold_of_0() {
    let rows = vec![(0, 362_477.0), (1, 724_955.0), (3, 1_262_696.0)];
    assert_eq!(outcome(&run(UNION, &[0, 1], SCRIPT, 0.0)), (0, rows));
}

#[test]
fn b_a_score_at_the_threshold_is_not_reported() {
    assert_eq!(documents(&run(UNION, &[0, 1], SCRIPT, 362_477.0 / 1024.0)), [1, 3]);
}

#[test]
fn c_intersection() {
    assert_eq!(documents(&run(INTERSECTION, &[0, 1], SCRIPT, 0.0)), [3]);
}

#[test]
fn d_script_of_one_entry() {
    let mut case = run(UNION, &[0, 1], SCRIPT, 0.0);
    case.script = vec![800.0];
    assert_eq!(documents(&case), [0, 3]);
}

#[test]
fn e_best_1() {
    assert_eq!(documents(&run(UNION, &[0, 1], BEST_K, -1.0)), [0, 1, 3]);
}

#[test]
fn f_union_over_no_list() {
    assert_eq!(outcome(&run(UNION, &[], SCRIPT, 0.0)), (0, vec![]));
}

#[test]
fn g_intersection_of_one() {
    assert_eq!(outcome(&run(INTERSECTION, &[0], SCRIPT, 0.0)), (10, vec![]));
}

#[test]
fn h_two_rows() {
    let mut case = run(UNION, &[0, 1], SCRIPT, 0.0);
    case.scores_len = 2;
    let (code, rows) = outcome(&case);
    assert_eq!((code, rows[0].0, rows[1].0, rows.len()), (12, 0, 1, 2));
}

#[test]
fn i_a_frequency_of_4_passes_the_list_bound() {
    let mut case = run(UNION, &[0, 1], SCRIPT, 0.0);
    assert_eq!(case.file[38], 0x83);
    case.file[38] = 0x84;
    assert_eq!(outcome(&case), (9, vec![]));
}

/// A list of documents 0 to 127, once each, its block's bound made of norm code 255 and `code`.
fn one_block(code: u8) -> Vec<u8> {
    let block = Block {
        last: 127,
        strict: true,
        norm_code: 255,
        frequency_code: code,
        documents: vec![0; 128],
        frequencies: vec![0; 128],
        ..Block::default()
    };
    let list = List { weight: 1.0, count: 128, blocks: vec![block], ..List::default() };
    let lists = vec![list];
    let average = 2_147_483_648.0;
    Draft {
        version: 1,
        norm_kind: 1,
        norm_code: 1,
        documents: 128,
        average,
        lists,
        ..Draft::default()
    }
    .bytes()
}

#[test]
fn j_codes_254_and_255() {
    for (code, frequency) in [(254, 254), (255, 4_294_967_295)] {
        let file = one_block(code);
        let bound = plain::score_of(1.0, 2_147_483_648.0, 255, frequency);
        let plain = plain::read_file(&file).ok().unwrap();
        assert_eq!(plain.lists[0].block_bounds, [bound]);
        assert_eq!(engine::bounds(&Source::read(&file), 0)[1], bound.to_bits());
    }
}

#[test]
fn k_vint() {
    assert_eq!(plain::vint(&mut &[0x00, 0x81][..]), Some(128));
    assert_eq!(plain::vint(&mut &[0x7f, 0x7f, 0x7f, 0x7f, 0x8f][..]), Some(4_294_967_295));
    assert_eq!(plain::vint(&mut &[0x00, 0x00, 0x00, 0x00, 0x90][..]), None);
    assert_eq!(plain::vint(&mut &[0x00, 0x00, 0x00, 0x00, 0x00, 0x80][..]), None);
}

#[test]
fn l_whole_numbers_become_f32() {
    assert_eq!(plain::whole(16_777_217), 16_777_216.0);
    assert_eq!(plain::whole(16_777_219), 16_777_220.0);
    for number in [0, 1, 33_554_433, 33_554_435, 2_013_265_944, 4_294_967_167, u32::MAX] {
        assert_eq!(plain::whole(number), number as f32);
    }
}

#[test]
fn lengths_are_the_published_table() {
    let lengths: Vec<u32> = (0..=255).map(plain::length_of).collect();
    assert_eq!(lengths, FIELD_NORMS_TABLE);
}
