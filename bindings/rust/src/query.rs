//! What a run is asked for. The enums' numbers are those of the C interface.

/// Which documents match.
#[derive(Clone, Copy, Debug, PartialEq, Eq)]
pub enum Mode {
    /// Those in any list of the query.
    Union = 0,
    /// Those in all lists of the query, of which there are at least two.
    Intersection = 1,
    /// Those of the query's one list.
    Single = 2,
}

/// How a run goes over the lists. Stepped runs report the same either way.
#[derive(Clone, Copy, Debug, PartialEq, Eq)]
pub enum Walk {
    /// Leaves out blocks that cannot hold a report.
    Skipping = 0,
    /// Looks at every posting.
    Plain = 1,
}

/// What a score is.
#[derive(Clone, Copy, Debug, PartialEq, Eq)]
pub enum Scoring {
    /// As it is computed; sums are rounded, so the order of adding can show.
    Unstepped = 0,
    /// Cut down to a multiple of 1/1024; every sum is exact.
    Stepped = 1,
}

/// The threshold that a score must exceed to be reported, and how it moves.
#[derive(Clone, Copy, Debug, PartialEq)]
pub enum Rule<'a> {
    /// First `start`; after each report the next entry; past the last entry it stays.
    Script {
        /// The threshold before the first report.
        start: f32,
        /// The thresholds after each report, none lower than the one before it.
        entries: &'a [f32],
    },
    /// The larger of `start` and the k-th best score so far, once k exist.
    Best {
        /// The threshold until k scores are reported.
        start: f32,
        /// From 1 to 64.
        k: u32,
    },
}

impl<'a> Rule<'a> {
    /// The C interface's rule, start, k and script.
    pub(crate) fn numbers(&self) -> (u32, f32, u32, &'a [f32]) {
        match *self {
            Rule::Script { start, entries } => (0, start, 0, entries),
            Rule::Best { start, k } => (1, start, k, &[]),
        }
    }
}

/// One question to a note file. Anything may stand in it: what is wrong is refused by the run.
#[derive(Clone, Copy, Debug, PartialEq)]
pub struct Query<'a> {
    /// List numbers from 0, at most 16; a list named twice counts twice.
    pub lists: &'a [u32],
    /// Which documents match.
    pub mode: Mode,
    /// How the run goes over the lists.
    pub walk: Walk,
    /// What a score is.
    pub scoring: Scoring,
    /// What is reported.
    pub rule: Rule<'a>,
}

impl<'a> Query<'a> {
    /// A skipping, stepped query for every matching document that scores above 0.
    pub fn new(mode: Mode, lists: &'a [u32]) -> Query<'a> {
        let rule = Rule::Script { start: 0.0, entries: &[] };
        Query { lists, mode, walk: Walk::Skipping, scoring: Scoring::Stepped, rule }
    }
}
