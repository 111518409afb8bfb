//! Queries, rules and row limits over a file.

use crate::case::{Case, BEST_K, INTERSECTION, SCRIPT, SINGLE, STEPPED, UNION};
use crate::plain::{matches, run_over, NoteFile};
use crate::random::Random;

const STEP: f32 = 1.0 / 1024.0;

fn mode(random: &mut Random, lists: usize) -> u32 {
    match random.below(20) {
        _ if lists == 0 => UNION,
        0..=8 => UNION,
        9..=15 => INTERSECTION,
        _ => SINGLE,
    }
}

fn query_length(random: &mut Random, mode: u32) -> u64 {
    match (mode, random.below(4)) {
        (SINGLE, _) => 1,
        (INTERSECTION, 0) => random.range(2, 16),
        (INTERSECTION, _) => random.range(2, 3),
        (_, 0) => random.range(0, 16),
        (_, _) => random.range(1, 4),
    }
}

/// All lists in order or not, or any numbers with repeats.
fn query(random: &mut Random, mode: u32, lists: usize) -> Vec<u32> {
    if lists == 0 {
        return Vec::new();
    }
    let mut all: Vec<u32> = (0..lists as u32).collect();
    if mode != SINGLE && lists >= 2 && random.one_in(3) {
        if random.one_in(2) {
            random.shuffle(&mut all);
        }
        return all;
    }
    let length = query_length(random, mode);
    (0..length).map(|_| random.pick(&all)).collect()
}

fn on_grid(threshold: f32) -> f32 {
    (threshold.clamp(-1.0, 16_000.0) * 1024.0).floor() / 1024.0
}

/// A neighbour of a score: the next f32, or the next multiple of 1/1024.
fn neighbour(random: &mut Random, stepped: bool, score: f32) -> f32 {
    match (stepped, random.below(3)) {
        (_, 0) => score,
        (true, 1) => score + STEP,
        (true, _) => score - STEP,
        (false, 1) => score.next_up(),
        (false, _) => score.next_down(),
    }
}

/// A threshold that the table lets through, mostly near scores that occur.
fn threshold(random: &mut Random, stepped: bool, scores: &[f32]) -> f32 {
    if scores.is_empty() || random.one_in(3) {
        let rare = [f32::MAX, -f32::MAX, f32::from_bits(1), -f32::from_bits(1), 0.3, -2.5];
        return match random.below(8) {
            0 if !stepped => random.pick(&rare),
            0 | 1 => random.pick(&[0.0, -0.0, 16_000.0, STEP, -STEP]),
            2..=4 => -1.0,
            _ => 0.0,
        };
    }
    let score = random.pick(scores);
    let threshold = neighbour(random, stepped, score);
    if stepped {
        on_grid(threshold)
    } else {
        threshold
    }
}

/// A start low enough that something is left to report, two times in three.
fn start(random: &mut Random, stepped: bool, scores: &[f32]) -> f32 {
    if random.one_in(3) {
        return threshold(random, stepped, scores);
    }
    let low = random.pick(&[-1.0, 0.0, -0.0]);
    if scores.is_empty() || random.one_in(3) {
        return low;
    }
    let a = threshold(random, stepped, scores);
    a.min(threshold(random, stepped, scores)).min(threshold(random, stepped, scores))
}

fn script(random: &mut Random, stepped: bool, start: f32, scores: &[f32]) -> Vec<f32> {
    let length = match random.below(4) {
        0 => 0,
        1 => 1,
        2 => random.range(2, 6),
        _ => random.range(2, 40),
    };
    let mut script: Vec<f32> = (0..length)
        .map(|_| threshold(random, stepped, scores))
        .map(|threshold| if threshold < start { start } else { threshold })
        .collect();
    script.sort_by(|a, b| a.partial_cmp(b).unwrap_or(std::cmp::Ordering::Equal));
    if random.one_in(3) {
        // Holds back the rise, so that more is reported under changing thresholds.
        script.iter_mut().take(length as usize / 2).for_each(|entry| *entry = start);
    }
    script
}

/// Fills in the rule; what the rule does not look at is filled with what it would refuse.
fn set_rule(case: &mut Case, random: &mut Random, scores: &[f32]) {
    let stepped = case.scoring == STEPPED;
    case.start = start(random, stepped, scores);
    case.rule = random.pick(&[SCRIPT, BEST_K]);
    if case.rule == SCRIPT {
        case.script = script(random, stepped, case.start, scores);
        case.k = random.pick(&[0, 1, 65, u32::MAX]);
    } else {
        let any = random.range(1, 64) as u32;
        case.k = random.pick(&[1, 2, 3, 10, 64, any]);
        case.script = random.pick(&[&[][..], &[f32::NAN], &[5.0, 1.0]]).to_vec();
    }
}

/// A rule without a script: the k that notes are shown by, mostly, and half of the time a start that
/// is below all scores or at the lowest.
fn set_best_k(case: &mut Case, random: &mut Random, scores: &[f32]) {
    case.start = match random.below(4) {
        0 => -1.0,
        1 => 0.0,
        _ => start(random, case.scoring == STEPPED, scores),
    };
    let any = random.range(1, 64) as u32;
    (case.rule, case.k) = (BEST_K, random.pick(&[1, 2, 10, 10, 64, any]));
}

/// Row limits around the number of reports, the two buffers often of unequal length.
fn set_rows(case: &mut Case, random: &mut Random, reports: usize) {
    let any = random.index(reports + 1);
    let near = (reports + random.index(5)).saturating_sub(2);
    let rows = random.pick(&[reports, reports + 7, near, near, any, 0]);
    let longer = rows + random.pick(&[0, 0, 1, 9]);
    (case.documents_len, case.scores_len) = match random.below(2) {
        0 => (rows, longer),
        _ => (longer, rows),
    };
}

type SetRule = fn(&mut Case, &mut Random, &[f32]);

/// A run that meets none of the conditions 10 and 11.
pub fn allowed(random: &mut Random, bytes: Vec<u8>, file: &NoteFile) -> Case {
    suited(random, bytes, file, set_rule)
}

/// Such a run by best k, with no script.
pub fn best_k(random: &mut Random, bytes: Vec<u8>, file: &NoteFile) -> Case {
    suited(random, bytes, file, set_best_k)
}

fn suited(random: &mut Random, bytes: Vec<u8>, file: &NoteFile, set_rule: SetRule) -> Case {
    let mode = mode(random, file.lists.len());
    let query = query(random, mode, file.lists.len());
    let scoring = u32::from(!random.one_in(3));
    let mut case = Case { file: bytes, query, mode, scoring, ..Case::default() };
    let sums: Vec<f32> = matches(&case, &file.lists).into_iter().map(|(_, sum)| sum).collect();
    set_rule(&mut case, random, &sums);
    (case.documents_len, case.scores_len) = (usize::MAX, usize::MAX);
    let reports = run_over(&case, file).rows.len();
    set_rows(&mut case, random, reports);
    case
}

/// Any run at all, for files that are refused before it is looked at.
pub fn blind(random: &mut Random, bytes: Vec<u8>) -> Case {
    let lists = random.index(4);
    let mode = random.below(3) as u32;
    let query = query(random, mode, lists);
    let scoring = random.below(2) as u32;
    let mut case = Case { file: bytes, query, mode, scoring, ..Case::default() };
    set_rule(&mut case, random, &[]);
    set_rows(&mut case, random, 3);
    case
}

/// One way to break a run that was allowed.
struct Fault {
    name: &'static str,
    apply: fn(&mut Case, &mut Random),
    /// Whether it is one of best k too, where no script is looked at.
    of_best_k: bool,
}

const fn fault(name: &'static str, apply: fn(&mut Case, &mut Random)) -> Fault {
    Fault { name, apply, of_best_k: true }
}

/// Of the script, or of the number that chooses between a script and best k.
const fn script_fault(name: &'static str, apply: fn(&mut Case, &mut Random)) -> Fault {
    Fault { name, apply, of_best_k: false }
}

const QUERY_FAULTS: &[Fault] = &[
    fault("over 16 numbers", |case, random| case.query = vec![0; random.pick(&[17, 18, 300])]),
    fault("single without exactly one", |case, random| {
        (case.mode, case.query) = (SINGLE, vec![0; random.pick(&[0, 2, 3])]);
    }),
    fault("intersection under two", |case, random| {
        (case.mode, case.query) = (INTERSECTION, vec![0; random.index(2)]);
    }),
    fault("mode outside its numbers", |case, random| case.mode = random.pick(&[3, 4, u32::MAX])),
];

const RULE_FAULTS: &[Fault] = &[
    fault("start not finite", |case, random| case.start = not_finite(random)),
    fault("stepped start off the grid", |case, random| {
        (case.scoring, case.start) = (STEPPED, off_grid(random));
    }),
    fault("stepped start out of range", |case, random| {
        (case.scoring, case.start) = (STEPPED, out_of_range(random));
    }),
    script_fault("entry not finite", |case, random| {
        let entry = not_finite(random);
        break_script(case, random, |_| entry);
    }),
    script_fault("stepped entry off the grid", |case, random| {
        case.scoring = STEPPED;
        let entry = off_grid(random);
        break_script(case, random, |_| entry);
    }),
    script_fault("stepped entry out of range", |case, random| {
        case.scoring = STEPPED;
        let entry = out_of_range(random);
        break_script(case, random, |_| entry);
    }),
    script_fault("script falls", |case, random| {
        let drop = random.pick(&[STEP, 0.5, 0.25]);
        break_script(case, random, |before| before - drop);
    }),
    script_fault("script starts below the start", |case, random| {
        (case.rule, case.start) = (SCRIPT, 3.0);
        case.script = vec![random.pick(&[2.0, 3.0 - STEP, 0.0, -1.0]), 4.0];
    }),
    fault("k not 1 to 64", |case, random| {
        (case.rule, case.k) = (BEST_K, random.pick(&[0, 65, 66, u32::MAX]));
    }),
    fault("scoring outside its numbers", |case, random| {
        case.scoring = random.pick(&[2, u32::MAX]);
    }),
    script_fault("rule outside its numbers", |case, random| {
        case.rule = random.pick(&[2, u32::MAX]);
    }),
];

fn not_finite(random: &mut Random) -> f32 {
    random.pick(&[f32::INFINITY, f32::NEG_INFINITY, f32::NAN, f32::from_bits(0xffc0_0001)])
}

fn off_grid(random: &mut Random) -> f32 {
    let between = random.range(0, 1_000_000) as f32 / 1024.0 + STEP / 2.0;
    random.pick(&[between, f32::from_bits(1), -f32::from_bits(1), 0.1, STEP.next_up(), 1e-30])
}

fn out_of_range(random: &mut Random) -> f32 {
    random.pick(&[-1.0 - STEP, 16_000.0 + STEP, -2.0, 16_001.0, f32::MAX, -f32::MAX])
}

/// A legal script of its own with one entry at fault.
fn break_script(case: &mut Case, random: &mut Random, at_fault: impl Fn(f32) -> f32) {
    (case.rule, case.start) = (SCRIPT, 0.0);
    case.script = (0..random.range(2, 9)).map(|entry| entry as f32 * 0.5).collect();
    let place = random.range(1, case.script.len() as u64 - 1) as usize;
    case.script[place] = at_fault(case.script[place - 1]);
}

/// Breaks the query. Returns the name of what was done.
pub fn break_query(case: &mut Case, random: &mut Random, lists: usize) -> &'static str {
    let at = random.index(QUERY_FAULTS.len() + 2);
    if let Some(fault) = QUERY_FAULTS.get(at) {
        (fault.apply)(case, random);
        return fault.name;
    }
    let high = random.pick(&[lists as u32, lists as u32 + 1, 31, 256, 65_536, u32::MAX]);
    let place = random.index(case.query.len() + 1);
    case.query.insert(place, high.max(lists as u32));
    "list number too high"
}

/// Breaks the rule. Returns the name of what was done.
pub fn break_rule(case: &mut Case, random: &mut Random) -> &'static str {
    let fault = &RULE_FAULTS[random.index(RULE_FAULTS.len())];
    (fault.apply)(case, random);
    fault.name
}

/// Breaks a run by best k. Returns the name of what was done.
pub fn break_best_k(case: &mut Case, random: &mut Random) -> &'static str {
    let faults: Vec<&Fault> = RULE_FAULTS.iter().filter(|fault| fault.of_best_k).collect();
    let fault = random.pick(&faults);
    (fault.apply)(case, random);
    fault.name
}
