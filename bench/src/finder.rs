//! The note finder: its time beside that of its run, and beside the same work in Rust.

use std::hint::black_box;

use oracle::case::{INTERSECTION, SINGLE, STEPPED, UNION};

use crate::corpus::{Kind, Prepared};
use crate::engines::{our_check, our_find, our_run, rust_find, Rows};
use crate::measure::{for_a_turn, least, same_check, same_rows, Shape};

/// Nanoseconds of one call, the least so far. All but the check itself have a file check in them.
#[derive(Clone, Copy)]
pub struct FindTimes {
    pub check: f64,
    pub run: f64,
    pub find: f64,
    pub rust: f64,
}

impl FindTimes {
    const NONE: FindTimes =
        FindTimes { check: f64::MAX, run: f64::MAX, find: f64::MAX, rust: f64::MAX };
}

pub struct FindRow {
    pub shape: Shape,
    pub postings: usize,
    pub reports: usize,
    pub times: FindTimes,
}

/// The best 10 of the runs' queries, and lists in which every document is reported.
pub fn shapes() -> Vec<Shape> {
    let shape = |mode, lists, k, kind| Shape { mode, lists, best: Some(k), scoring: STEPPED, kind };
    let mut shapes = Vec::new();
    for (mode, lists) in
        [(SINGLE, 1), (UNION, 2), (UNION, 3), (UNION, 8), (INTERSECTION, 2), (INTERSECTION, 3)]
    {
        shapes.push(shape(mode, lists, 10, Kind::Large));
    }
    for kind in [Kind::Small(1_000), Kind::Small(10_000)] {
        for (mode, lists) in [(SINGLE, 1), (UNION, 2), (INTERSECTION, 2)] {
            shapes.push(shape(mode, lists, 10, kind));
        }
    }
    for k in [10, 64] {
        shapes.extend([1_000, 250_000].map(|n| shape(SINGLE, 1, k, Kind::Rising(n))));
    }
    shapes
}

impl FindRow {
    /// The same reports and notes as the Rust's; with rising scores every document is a report.
    pub fn compared(prepared: &Prepared, shape: Shape) -> Result<FindRow, String> {
        same_check(&prepared.file)?;
        same_rows(prepared, &shape)?;
        let case = &shape.case();
        let (mut rusts, mut rust_notes) = (Rows::new(), Rows::new());
        rust_find(prepared, case, &mut rusts, &mut rust_notes);
        let (mut rows, mut notes) = (Rows::due(rusts.count()), Rows::new());
        let code = our_find(&prepared.file, case, &mut rows, &mut notes);
        let same = rows.written() == rusts.written() && notes.written() == rust_notes.written();
        if code != 0 || !same {
            return Err(format!("the find returned {code}, or its rows differ: {case:?}"));
        }
        match shape.kind {
            Kind::Rising(documents) if rows.count() != documents => {
                Err(format!("{} of {documents} rising scores are reported", rows.count()))
            }
            _ => Ok(FindRow {
                shape,
                postings: prepared.postings,
                reports: rows.count(),
                times: FindTimes::NONE,
            }),
        }
    }

    /// The check, the run, the find and the Rust, in close turns and with the same rows.
    pub fn time(&mut self, prepared: &Prepared) {
        let (case, times, postings) = (self.shape.case(), &mut self.times, self.postings);
        let (mut rows, mut notes) = (Rows::new(), Rows::new());
        for_a_turn(|| {
            least(&mut times.check, postings, || {
                black_box(our_check(black_box(&prepared.file)));
            });
            least(&mut times.run, postings, || {
                black_box(our_run(black_box(&prepared.file), &case, &mut rows));
            });
            least(&mut times.find, postings, || {
                black_box(our_find(black_box(&prepared.file), &case, &mut rows, &mut notes));
            });
            least(&mut times.rust, postings, || {
                black_box(rust_find(black_box(prepared), &case, &mut rows, &mut notes));
            });
        });
    }
}
