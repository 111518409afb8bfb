//! Where the published files and the paper's plain scan part, each with its smallest input known.

use oracle::case::*;
use oracle::compare::compare;
use oracle::draft::{vint, Draft, List};
use oracle::engine::{self, Source};
use oracle::generate::Aim;
use oracle::{plain, small};

/// Scores near 512 lie 2^-14 apart.
const UNIT: f32 = 1.0 / 16_384.0;

/// With this frequency, norm code 0 and the largest average, a score is its list's weight.
const FREQUENCY: u64 = 2_013_265_944;

fn list(units: f32, documents: &[u64]) -> List {
    let mut before = 0;
    let distance = |&document: &u64| vint(document - std::mem::replace(&mut before, document), 1);
    List {
        weight: units * UNIT,
        count: documents.len() as u64,
        tail_documents: documents.iter().map(distance).collect(),
        tail_frequencies: documents.iter().map(|_| vint(FREQUENCY, 1)).collect(),
        ..List::default()
    }
}

fn case(mode: u32, lists: Vec<List>, threshold: f32) -> Case {
    let draft = Draft {
        version: 1,
        norm_kind: 1,
        documents: 2,
        average: 2_147_483_648.0,
        ..Draft::default()
    };
    Case {
        query: (0..lists.len() as u32).collect(),
        file: Draft { lists, ..draft }.bytes(),
        mode,
        scoring: UNSTEPPED,
        rule: SCRIPT,
        start: threshold * UNIT,
        documents_len: 4,
        scores_len: 4,
        ..Case::default()
    }
}

/// Documents of the plain and of the published run. The archive, if it takes part, must go with
/// the one or the other.
fn documents(case: &Case) -> (Vec<u32>, Vec<u32>) {
    compare(case, &Aim::Open).unwrap();
    let plain = plain::run(case);
    let published = engine::run(&Source::read(&case.file), case).unwrap().outcome;
    assert_eq!((plain.code, published.code), (0, 0));
    let documents = |outcome: &Outcome| outcome.rows.iter().map(|row| row.document).collect();
    (documents(&plain), documents(&published))
}

#[test]
fn an_unstepped_union_reports_more() {
    let lists = vec![list(1.5, &[1]), list(1.5, &[1]), list(8_388_616.0, &[0, 1])];
    assert_eq!(documents(&case(UNION, lists, 8_388_619.0)), (vec![], vec![1]));
}

#[test]
fn an_unstepped_union_reports_less() {
    let lists = vec![list(8_388_616.0, &[1]), list(1.5, &[0, 1]), list(1.5, &[0, 1])];
    assert_eq!(documents(&case(UNION, lists, 8_388_619.0)), (vec![1], vec![]));
}

#[test]
fn an_unstepped_intersection_loses_a_hit() {
    let lists = vec![list(8_388_616.0, &[0]), list(1.5, &[0])];
    assert_eq!(documents(&case(INTERSECTION, lists, 8_388_617.0)), (vec![0], vec![]));
}

/// The intersection adds from the shortest list on, the plain scan in query order.
#[test]
fn an_unstepped_intersection_of_three_has_other_bits() {
    let lists = vec![list(8_388_616.0, &[0, 1]), list(1.5, &[0]), list(1.5, &[0])];
    let case = case(INTERSECTION, lists, 0.0);
    compare(&case, &Aim::Open).unwrap();
    let published = engine::run(&Source::read(&case.file), &case).unwrap().outcome;
    assert_eq!(f32::from_bits(plain::run(&case).rows[0].score), 8_388_620.0 * UNIT);
    assert_eq!(f32::from_bits(published.rows[0].score), 8_388_619.0 * UNIT);
}

/// Refusal 9: with the list bound below a real score the published union loses the document.
#[test]
fn a_list_bound_below_a_score() {
    let mut file = small::FILE.to_vec();
    file[38] = 0x84;
    let case = |start| Case {
        file: file.clone(),
        query: vec![0, 0],
        start,
        documents_len: 4,
        scores_len: 4,
        ..Case::default()
    };
    assert_eq!(plain::run(&case(0.0)).code, 9);
    let published = |start| engine::run(&Source::read(&file), &case(start)).unwrap().outcome;
    let best = f32::from_bits(published(0.0).rows[1].score);
    assert!(best > 1_800.0);
    assert_eq!(published(1_800.0).rows, []);
}
