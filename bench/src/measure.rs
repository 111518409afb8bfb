//! Times of calls, engines taking turns, and the comparison that comes before.

use std::hint::black_box;
use std::time::Duration;

use oracle::case::{Case, BEST_K, INTERSECTION, SCRIPT, SINGLE, STEPPED, UNION, UNSTEPPED};
use oracle::contents::Contents;
use oracle::{generate, plain, writer, writes};

use crate::clock;
use crate::corpus::{Kind, Prepared};
use crate::engines::{our_check, our_run, our_write, rust_check, rust_run, rust_write, Rows};

/// The least that is spent on a row before the next has its turn.
const TURN: Duration = Duration::from_millis(50);

/// Calls on a smaller file are timed several at once, about so many postings in all.
const TIMED: usize = 100_000;

pub const LISTS: [usize; 7] = [1, 2, 3, 5, 8, 12, 16];

/// One run that is timed.
#[derive(Clone, Copy)]
pub struct Shape {
    pub mode: u32,
    pub lists: usize,
    /// None: the threshold stays 0, and every match is a report.
    pub best: Option<u32>,
    pub scoring: u32,
    pub kind: Kind,
}

/// Nanoseconds of one call, the least so far.
#[derive(Clone, Copy)]
pub struct Times {
    pub our_check: f64,
    pub rust_check: f64,
    pub our_run: f64,
    pub rust_run: f64,
}

impl Times {
    pub const NONE: Times =
        Times { our_check: f64::MAX, rust_check: f64::MAX, our_run: f64::MAX, rust_run: f64::MAX };

    /// Ours without its file check; never below a nanosecond, whatever the clock says.
    pub fn our_ranking(&self) -> f64 {
        (self.our_run - self.our_check).max(1.0)
    }

    pub fn check_ratio(&self) -> f64 {
        self.our_check / self.rust_check
    }

    pub fn ranking_ratio(&self) -> f64 {
        self.our_ranking() / self.rust_run
    }

    pub fn whole_ratio(&self) -> f64 {
        self.our_run / (self.rust_check + self.rust_run)
    }
}

impl Shape {
    pub fn all() -> Vec<Shape> {
        let mut shapes = Vec::new();
        for (mode, least, most) in [(SINGLE, 1, 1), (UNION, 1, 16), (INTERSECTION, 2, 16)] {
            for lists in LISTS.into_iter().filter(|&lists| lists >= least && lists <= most) {
                for k in [10, 64] {
                    shapes.extend(Shape::in_both_scorings(mode, lists, Some(k), Kind::Large));
                }
            }
        }
        shapes.extend(Shape::in_both_scorings(UNION, 3, None, Kind::Large));
        for kind in [Kind::Small(1_000), Kind::Small(10_000)] {
            for (mode, lists) in [(SINGLE, 1), (UNION, 2), (UNION, 3), (INTERSECTION, 2)] {
                shapes.extend(Shape::in_both_scorings(mode, lists, Some(10), kind));
            }
        }
        shapes
    }

    fn in_both_scorings(mode: u32, lists: usize, best: Option<u32>, kind: Kind) -> [Shape; 2] {
        [UNSTEPPED, STEPPED].map(|scoring| Shape { mode, lists, best, scoring, kind })
    }

    /// How it is named in tables, filters and saved times: no two words of it can be mistaken.
    pub fn words(&self) -> Vec<String> {
        let mode = match self.mode {
            UNION => "union",
            INTERSECTION => "intersection",
            _ => "single",
        };
        let scoring = if self.scoring == STEPPED { "stepped" } else { "unstepped" };
        let best = self.best.map_or("every".to_string(), |k| k.to_string());
        let mut words = vec![mode.into(), self.lists.to_string(), best, scoring.into()];
        match self.kind {
            Kind::Large => words.push("large".into()),
            Kind::Small(postings) => words.extend(["small".into(), postings.to_string()]),
            Kind::Rising(documents) => words.extend(["rising".into(), documents.to_string()]),
        }
        words
    }

    /// The file is handed over beside the case.
    pub fn case(&self) -> Case {
        Case {
            query: (0..self.lists as u32).collect(),
            mode: self.mode,
            scoring: self.scoring,
            rule: if self.best.is_some() { BEST_K } else { SCRIPT },
            k: self.best.unwrap_or(0),
            ..Case::default()
        }
    }
}

/// Places of the stack, over a page and at every distance from a cache line.
const PLACES: [fn(&mut dyn FnMut()); 8] = [
    lower::<16>,
    lower::<544>,
    lower::<1072>,
    lower::<1600>,
    lower::<2128>,
    lower::<2656>,
    lower::<3184>,
    lower::<3712>,
];

/// A call with the stack so many bytes further down.
#[inline(never)]
fn lower<const BYTES: usize>(call: &mut dyn FnMut()) {
    let room = [0u8; BYTES];
    black_box(&room);
    call();
}

/// The time of a call on this file, the least of one go at each of eight places of the stack. Where
/// the stack begins differs from process to process, and a call's time seems to go with it.
pub fn least(time: &mut f64, postings: usize, mut call: impl FnMut()) {
    let calls = (TIMED / postings).max(1);
    for place in PLACES {
        let start = clock::now();
        place(&mut || (0..calls).for_each(|_| call()));
        *time = time.min((clock::now() - start).as_nanos() as f64 / calls as f64);
    }
}

fn time_checks(prepared: &Prepared, times: &mut Times) {
    least(&mut times.our_check, prepared.postings, || {
        black_box(our_check(black_box(&prepared.file)));
    });
    least(&mut times.rust_check, prepared.postings, || {
        black_box(rust_check(black_box(&prepared.file)));
    });
}

pub fn for_a_turn(mut calls: impl FnMut()) {
    let begun = clock::now();
    loop {
        calls();
        if clock::now() - begun >= TURN {
            return;
        }
    }
}

/// The checks alone.
pub fn checks(prepared: &Prepared, times: &mut Times) {
    for_a_turn(|| time_checks(prepared, times));
}

/// The checks and the runs, in close turns.
pub fn runs(prepared: &Prepared, shape: &Shape, times: &mut Times) {
    let (case, mut rows) = (shape.case(), Rows::new());
    for_a_turn(|| {
        time_checks(prepared, times);
        least(&mut times.our_run, prepared.postings, || {
            black_box(our_run(black_box(&prepared.file), &case, &mut rows));
        });
        least(&mut times.rust_run, prepared.postings, || {
            rust_run(black_box(&prepared.source), &case, &mut rows);
        });
    });
}

/// Nanoseconds of one write, and of the check of its file, the least so far.
#[derive(Clone, Copy)]
pub struct WriteTimes {
    pub ours: f64,
    pub rust: f64,
    pub check: f64,
}

impl WriteTimes {
    pub const NONE: WriteTimes = WriteTimes { ours: f64::MAX, rust: f64::MAX, check: f64::MAX };
}

/// Contents, and room for their file; the file is in it once they are compared.
pub struct Writing {
    pub contents: Contents,
    pub out: Vec<u8>,
    pub length: usize,
}

impl Writing {
    /// Both writers on these contents: the same file, and the check accepts it.
    pub fn compared(contents: Contents) -> Result<Writing, String> {
        let most = 9 + 13 * contents.counts.len() + contents.norms.len() + 8 * contents.docs.len();
        let (mut out, mut rusts) = (vec![0; most], vec![0; most]);
        let (code, length) = our_write(&contents, &mut out);
        let rust = rust_write(&contents, &mut rusts);
        if (code, length) != rust || out != rusts {
            return Err(format!("the writers differ: {:?} and {rust:?}", (code, length)));
        }
        match our_check(&out[..length]) {
            0 => Ok(Writing { contents, out, length }),
            refusal => Err(format!("a written file is checked as {refusal}")),
        }
    }

    /// Both writers and the check, in close turns.
    pub fn time(&mut self, times: &mut WriteTimes) {
        let Writing { contents, out, length } = self;
        let postings = contents.docs.len();
        for_a_turn(|| {
            least(&mut times.ours, postings, || {
                black_box(our_write(black_box(contents), out));
            });
            least(&mut times.rust, postings, || {
                black_box(rust_write(black_box(contents), out));
            });
            least(&mut times.check, postings, || {
                black_box(our_check(black_box(&out[..*length])));
            });
        });
    }
}

/// Both writers against the paper's program on random contents, broken ones among them.
pub fn same_writes(cases: u64) -> Result<(), String> {
    for number in 0..cases {
        let contents = writes::case(1, number).contents;
        let plain = writer::write(&contents);
        for write in [our_write, rust_write] {
            let mut out = vec![0; contents.out_len];
            let (code, length) = write(&contents, &mut out);
            if code != plain.code || out[..length] != plain.bytes[..] {
                return Err(format!("contents {number}: {code}, the paper {}", plain.code));
            }
        }
    }
    Ok(())
}

/// Both checks accept the file.
pub fn same_check(file: &[u8]) -> Result<(), String> {
    match (our_check(file), rust_check(file)) {
        (0, 0) => Ok(()),
        other => Err(format!("a generated file is checked as {other:?}, ours and Rust's")),
    }
}

/// The same rows, bit for bit.
pub fn same_rows(prepared: &Prepared, shape: &Shape) -> Result<(), String> {
    let case = &shape.case();
    let (mut ours, mut rusts) = (Rows::new(), Rows::new());
    let code = our_run(&prepared.file, case, &mut ours);
    rust_run(&prepared.source, case, &mut rusts);
    if code == 0 && ours.written() == rusts.written() {
        return Ok(());
    }
    Err(format!("ours returned {code}, or its rows differ from the Rust's: {case:?}"))
}

/// Both checks against the paper's program on random files, broken ones among them.
pub fn same_refusals(cases: u64) -> Result<(), String> {
    for number in 0..cases {
        let file = generate::case(1, number).case.file;
        let found = [our_check(&file), rust_check(&file), plain::check(&file)];
        if found[0] != found[2] || found[1] != found[2] {
            return Err(format!("case {number} is checked as {found:?}: ours, Rust, the paper"));
        }
    }
    Ok(())
}
