//! Runs over the small file and the larger sample, through the safe wrapper.

use noterank::{best, sample, Hit, Mode, NoteFile, Outcome, Query, Refusal, Rule, Scoring, Walk};

fn bytes(name: &str) -> Vec<u8> {
    let mut samples = sample::all().into_iter();
    samples.find(|sample| sample.name == name).expect("a sample's name").bytes
}

/// Documents and scores in 1/1024, the same in both walks.
fn reports(query: Query) -> Result<Vec<(u32, f32)>, Refusal> {
    let small = bytes("small.note");
    let file = NoteFile::check(&small).unwrap();
    let plain = file.run(&Query { walk: Walk::Plain, ..query });
    assert_eq!(plain, file.run(&query));
    plain.map(|hits| hits.iter().map(|hit| (hit.document, hit.score * 1024.0)).collect())
}

fn documents(query: Query) -> Result<Vec<u32>, Refusal> {
    reports(query).map(|rows| rows.into_iter().map(|row| row.0).collect())
}

const ROWS: [(u32, f32); 3] = [(0, 362_477.0), (1, 724_955.0), (3, 1_262_696.0)];

#[test]
fn the_sample_is_the_print_programs_input() {
    assert_eq!(bytes("small.note"), std::fs::read("../../crates/print/stdin").unwrap());
}

#[test]
fn every_mode_and_rule() {
    let union = Query::new(Mode::Union, &[0, 1]);
    assert_eq!(reports(union), Ok(ROWS.to_vec()));
    let rule = Rule::Script { start: 362_477.0 / 1024.0, entries: &[] };
    assert_eq!(documents(Query { rule, ..union }), Ok(vec![1, 3]));
    let rule = Rule::Script { start: 0.0, entries: &[800.0] };
    assert_eq!(documents(Query { rule, ..union }), Ok(vec![0, 3]));
    let rule = Rule::Best { start: -1.0, k: 1 };
    assert_eq!(documents(Query { rule, ..union }), Ok(vec![0, 1, 3]));
    assert_eq!(documents(Query::new(Mode::Intersection, &[0, 1])), Ok(vec![3]));
    assert_eq!(documents(Query::new(Mode::Single, &[1])), Ok(vec![0, 3]));
    assert_eq!(documents(Query::new(Mode::Union, &[])), Ok(vec![]));
}

#[test]
fn wrong_queries_are_refused_with_10() {
    for lists in [&[2][..], &[u32::MAX], &[0; 17]] {
        assert_eq!(reports(Query::new(Mode::Union, lists)), Err(Refusal::Query));
    }
    for (mode, lists) in [
        (Mode::Single, &[][..]),
        (Mode::Single, &[0, 1]),
        (Mode::Intersection, &[]),
        (Mode::Intersection, &[1]),
    ] {
        assert_eq!(reports(Query::new(mode, lists)), Err(Refusal::Query));
    }
}

#[test]
fn wrong_rules_are_refused_with_11() {
    let union = Query::new(Mode::Union, &[0, 1]);
    let starts = [f32::NAN, f32::INFINITY, f32::NEG_INFINITY, 0.1, -2.0, 16_001.0];
    let best = [0, 65, u32::MAX].map(|k| Rule::Best { start: 0.0, k });
    let scripts = [&[1.0][..], &[3.0, 2.5], &[f32::NAN]];
    let scripts = scripts.map(|entries| Rule::Script { start: 2.0, entries });
    let starts = starts.map(|start| Rule::Best { start, k: 1 });
    for rule in best.into_iter().chain(scripts).chain(starts) {
        assert_eq!(reports(Query { rule, ..union }), Err(Refusal::Rule), "{rule:?}");
    }
    let rule = Rule::Best { start: 0.1, k: 1 };
    let unstepped = Query { scoring: Scoring::Unstepped, rule, ..union };
    assert_eq!(documents(unstepped), Ok(vec![0, 1, 3]));
}

/// The shorter buffer counts; cells behind the count stay.
#[test]
fn short_rows_are_refused_with_12() {
    let small = bytes("small.note");
    let file = NoteFile::check(&small).unwrap();
    let union = Query::new(Mode::Union, &[0, 1]);
    for (rows, more, count) in [(0, 0, 0), (0, 5, 0), (2, 0, 2), (2, 9, 2), (3, 0, 3), (3, 1, 3)] {
        let (mut documents, mut scores) = (vec![77; rows], vec![-7.0; rows + more]);
        let outcome = file.run_into(&union, &mut documents, &mut scores);
        let refusal = (rows < 3).then_some(Refusal::Rows);
        assert_eq!(outcome, Outcome { count, refusal });
        for (place, row) in ROWS[..count].iter().enumerate() {
            assert_eq!((documents[place], scores[place] * 1024.0), *row);
        }
        assert!(scores[count..].iter().all(|&score| score == -7.0));
    }
}

#[test]
fn a_refused_run_writes_nothing() {
    let small = bytes("small.note");
    let file = NoteFile::check(&small).unwrap();
    let (mut documents, mut scores) = ([77; 4], [-7.0; 4]);
    let query = Query::new(Mode::Union, &[9]);
    let outcome = file.run_into(&query, &mut documents, &mut scores);
    assert_eq!(outcome, Outcome { count: 0, refusal: Some(Refusal::Query) });
    assert_eq!((documents, scores), ([77; 4], [-7.0; 4]));
}

#[test]
fn empty_and_short_files_are_refused_with_1() {
    let small = bytes("small.note");
    for length in 0..9 {
        assert_eq!(NoteFile::check(&small[..length]).err(), Some(Refusal::Header));
    }
}

#[test]
fn the_smallest_file_has_no_lists_and_no_documents() {
    let empty = [0x18, 0, 0, 0, 0, 0x41, 0, 0, 0];
    let file = NoteFile::check(&empty).unwrap();
    assert_eq!((file.documents(), file.lists()), (0, 0));
    assert_eq!(file.run(&Query::new(Mode::Union, &[])), Ok(vec![]));
    assert_eq!(file.run(&Query::new(Mode::Union, &[0])), Err(Refusal::Query));
}

/// Best k, ranked, is the front of all reports, ranked.
#[test]
fn the_best_are_those_of_the_whole_list() {
    let dryer = sample::dryer();
    let file = NoteFile::check(&dryer).unwrap();
    for (mode, lists) in [
        (Mode::Union, &[0, 1, 2, 3, 4][..]),
        (Mode::Union, &[3, 3, 1]),
        (Mode::Intersection, &[0, 2]),
        (Mode::Single, &[0]),
    ] {
        let query = Query::new(mode, lists);
        let all = file.run(&query).unwrap();
        for k in [1, 2, 10, 64] {
            let rule = Rule::Best { start: 0.0, k };
            for walk in [Walk::Skipping, Walk::Plain] {
                let reports = file.run(&Query { rule, walk, ..query }).unwrap();
                assert_eq!(best(reports, k as usize), best(all.clone(), k as usize));
            }
        }
    }
}

#[test]
fn equal_scores_are_ranked_by_document() {
    let hit = |document, score| Hit { document, score };
    let hits = vec![hit(1, 2.0), hit(4, 3.0), hit(5, 2.0), hit(9, 3.0)];
    assert_eq!(best(hits.clone(), 3), [hit(4, 3.0), hit(9, 3.0), hit(1, 2.0)]);
    assert_eq!(best(hits, 0), []);
}

#[test]
fn threads_share_a_file() {
    let dryer = sample::dryer();
    let file = NoteFile::check(&dryer).unwrap();
    let query = Query::new(Mode::Union, &[0, 1, 2, 3]);
    let alone = file.run(&query).unwrap();
    std::thread::scope(|scope| {
        let run = || file.run(&query).unwrap();
        let threads: Vec<_> = (0..4).map(|_| scope.spawn(run)).collect();
        assert!(threads.into_iter().all(|thread| thread.join().unwrap() == alone));
    });
}

#[test]
fn a_small_stack_suffices() {
    let small = std::thread::Builder::new().stack_size(128 * 1024);
    let run = || {
        let other = sample::other_form();
        let file = NoteFile::check(&other).unwrap();
        let lists = [0, 1, 2, 3, 0, 1, 2, 3, 0, 1, 2, 3, 0, 1, 2, 3];
        [Mode::Union, Mode::Intersection].map(|mode| file.run(&Query::new(mode, &lists)).is_ok())
    };
    assert_eq!(small.spawn(run).unwrap().join().unwrap(), [true, true]);
}
