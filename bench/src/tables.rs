//! What is printed: tables, means, worst rows, and whether the targets are met.

use oracle::case::UNION;

use crate::corpus::Kind;
use crate::finder::{FindRow, FindTimes};
use crate::measure::{Shape, Times, WriteTimes};
use crate::saved::Saved;
use crate::unpack::UnpackRow;

/// A file's check, by its lists and postings.
pub struct CheckRow {
    pub lists: usize,
    pub postings: usize,
    pub times: Times,
}

/// A write, by its lists and postings.
pub struct WriteRow {
    pub lists: usize,
    pub postings: usize,
    pub times: WriteTimes,
}

pub struct RunRow {
    pub shape: Shape,
    pub postings: usize,
    pub times: Times,
}

fn ms(nanoseconds: f64) -> f64 {
    nanoseconds / 1e6
}

fn us(nanoseconds: f64) -> f64 {
    nanoseconds / 1e3
}

/// Ours, the Rust's and their ratio.
fn beside(ours: f64, rusts: f64, unit: fn(f64) -> f64) -> String {
    format!("{:>9.3} {:>9.3} {:>6.2}", unit(ours), unit(rusts), ours / rusts)
}

fn of_files(rows: &[RunRow], small: bool) -> Vec<&RunRow> {
    rows.iter().filter(|row| (row.shape.kind != Kind::Large) == small).collect()
}

/// Unpacking, in nanoseconds a block.
pub fn unpacking(rows: &[UnpackRow]) {
    println!("\nUnpacking a block of 128\n");
    println!("{:<14} {:>8} {:>8} {:>6}", "values", "ours ns", "Rust ns", "ratio");
    for row in rows {
        let (ours, rusts) = (row.ours, row.rust);
        println!("{:<14} {ours:>8.1} {rusts:>8.1} {:>6.2}", row.name(), ours / rusts);
    }
}

pub fn checks(title: &str, rows: &[CheckRow]) {
    println!("\n{title}\n");
    println!(
        "{:>5} {:>10} {:>10} {:>10} {:>11} {:>11} {:>6}",
        "lists", "postings", "ours ms", "Rust ms", "ours ns/p", "Rust ns/p", "ratio"
    );
    for row in rows {
        let (ours, rusts, postings) =
            (row.times.our_check, row.times.rust_check, row.postings as f64);
        println!(
            "{:>5} {:>10} {:>10.3} {:>10.3} {:>11.2} {:>11.2} {:>6.2}",
            row.lists,
            row.postings,
            ms(ours),
            ms(rusts),
            ours / postings,
            rusts / postings,
            row.times.check_ratio()
        );
    }
}

/// Both writers, then the check of the file that they wrote.
pub fn writes(rows: &[WriteRow]) {
    println!("\nWriting a file, and the check of it\n");
    println!(
        "{:>5} {:>10} {:>10} {:>10} {:>11} {:>11} {:>6} {:>12} {:>12}",
        "lists",
        "postings",
        "ours ms",
        "Rust ms",
        "ours ns/p",
        "Rust ns/p",
        "ratio",
        "check ns/p",
        "write/check"
    );
    for WriteRow { lists, postings, times } in rows {
        let WriteTimes { ours, rust, check } = *times;
        let each = *postings as f64;
        println!(
            "{lists:>5} {postings:>10} {:>10.3} {:>10.3} {:>11.2} {:>11.2} {:>6.2} {:>12.2} {:>12.2}",
            ms(ours),
            ms(rust),
            ours / each,
            rust / each,
            ours / rust,
            check / each,
            ours / check
        );
    }
}

/// Ranking alone, then check and ranking; with earlier times a last column.
pub fn runs(rows: &[RunRow], earlier: Option<&Saved>) {
    let rows = of_files(rows, false);
    if rows.is_empty() {
        return;
    }
    println!("\nRuns: ranking alone, and the whole (check and ranking)\n");
    println!(
        "{:<12} {:>5} {:>5} {:<9} {:>9} {:>9} {:>6} {:>9} {:>9} {:>6}{}",
        "mode",
        "lists",
        "best",
        "scoring",
        "ours ms",
        "Rust ms",
        "ratio",
        "whole ms",
        "Rust ms",
        "ratio",
        if earlier.is_some() { "  now/then" } else { "" }
    );
    for RunRow { shape, times, .. } in rows {
        let words = shape.words();
        print!(
            "{:<12} {:>5} {:>5} {:<9} {} {}",
            words[0],
            words[1],
            words[2],
            words[3],
            beside(times.our_ranking(), times.rust_run, ms),
            beside(times.our_run, times.rust_check + times.rust_run, ms)
        );
        match earlier.and_then(|saved| saved.get(shape)) {
            Some(then) => println!("  {:>8.2}", times.ranking_ratio() / then.ranking_ratio()),
            None => println!(),
        }
    }
}

/// The check, then check and ranking, in microseconds.
pub fn small(rows: &[RunRow]) {
    let rows = of_files(rows, true);
    if rows.is_empty() {
        return;
    }
    println!("\nRuns on small files: the check, and the whole (check and ranking)\n");
    println!(
        "{:<12} {:>5} {:>5} {:<9} {:>8} {:>9} {:>9} {:>6} {:>9} {:>9} {:>6}",
        "mode",
        "lists",
        "best",
        "scoring",
        "postings",
        "check us",
        "Rust us",
        "ratio",
        "whole us",
        "Rust us",
        "ratio"
    );
    for RunRow { shape, postings, times } in rows {
        let words = shape.words();
        println!(
            "{:<12} {:>5} {:>5} {:<9} {postings:>8} {} {}",
            words[0],
            words[1],
            words[2],
            words[3],
            beside(times.our_check, times.rust_check, us),
            beside(times.our_run, times.rust_check + times.rust_run, us)
        );
    }
}

/// Best 10 unstepped by the number of lists.
pub fn growth(rows: &[RunRow]) {
    let wanted = |row: &&RunRow| row.shape.words()[2..] == ["10", "unstepped", "large"];
    let rows: Vec<&RunRow> = rows.iter().filter(wanted).collect();
    if rows.is_empty() {
        return;
    }
    println!("\nRanking against the number of lists (best 10, unstepped)\n");
    println!(
        "{:<12} {:>5} {:>10} {:>10} {:>10} {:>11} {:>11}",
        "mode", "lists", "postings", "ours ms", "Rust ms", "ours ns/p", "Rust ns/p"
    );
    for RunRow { shape, postings, times } in rows {
        let words = shape.words();
        println!(
            "{:<12} {:>5} {postings:>10} {:>10.3} {:>10.3} {:>11.2} {:>11.2}",
            words[0],
            words[1],
            ms(times.our_ranking()),
            ms(times.rust_run),
            times.our_ranking() / *postings as f64,
            times.rust_run / *postings as f64
        );
    }
}

/// The finder beside its run and the Rust, in microseconds. Its own time by the report is shown where
/// there are enough reports: elsewhere it is less than the two times vary.
pub fn finds(rows: &[FindRow]) {
    println!("\nNote finder: its run, the whole, and the same work in Rust (all with the check)\n");
    println!(
        "{:<38} {:>8} {:>8} {:>9} {:>9} {:>9} {:>8} {:>9} {:>9} {:>9}",
        "search",
        "postings",
        "reports",
        "check us",
        "run us",
        "find us",
        "find/run",
        "ns/report",
        "Rust us",
        "find/Rust"
    );
    for FindRow { shape, postings, reports, times } in rows {
        let FindTimes { check, run, find, rust } = *times;
        let name = shape.words().join(" ");
        let own = match shape.kind {
            Kind::Rising(_) => format!("{:.1}", (find - run) / *reports as f64),
            _ => "-".to_string(),
        };
        print!("{name:<38} {postings:>8} {reports:>8} ");
        println!(
            "{:>9.1} {:>9.1} {:>9.1} {:>8.3} {own:>9} {:>9.1} {:>9.2}",
            us(check),
            us(run),
            us(find),
            find / run,
            us(rust),
            find / rust
        );
    }
}

/// A target: its limit on the mean, its limit on each row, or both.
struct Target {
    name: &'static str,
    mean: Option<f64>,
    row: Option<f64>,
}

impl Target {
    fn print(&self, rows: &[(String, f64)]) {
        let Some(worst) = rows.iter().max_by(|a, b| a.1.total_cmp(&b.1)) else {
            return;
        };
        let logs: f64 = rows.iter().map(|(_, ratio)| ratio.ln()).sum();
        let mean = (logs / rows.len() as f64).exp();
        let within = |value, limit: Option<f64>| limit.is_none_or(|limit| value <= limit);
        let met = within(mean, self.mean) && within(worst.1, self.row);
        let asked =
            |limit: Option<f64>| limit.map_or(String::new(), |limit| format!(" (<= {limit})"));
        println!(
            "{:<12} {:<7} mean {mean:.2}{}, worst {:.2}{}: {}",
            self.name,
            if met { "met" } else { "NOT met" },
            asked(self.mean),
            worst.1,
            asked(self.row),
            worst.0
        );
    }
}

/// The writer's target is by the file check, not by the Rust.
fn write_target(writes: &[WriteRow]) {
    let by_check = |row: &WriteRow| {
        let name = format!("{} postings, write/check", row.postings);
        (name, row.times.ours / row.times.check)
    };
    let target = Target { name: "writer", mean: None, row: Some(2.0) };
    target.print(&writes.iter().map(by_check).collect::<Vec<_>>());
}

/// The finder's is by its run: for the best 10 of a query, and where scores rise with the document.
fn find_targets(finds: &[FindRow]) {
    let rising = |row: &FindRow| matches!(row.shape.kind, Kind::Rising(_));
    for (name, wanted) in [("note finder", false), ("rising", true)] {
        let asked = |row: &&FindRow| row.shape.best == Some(10) && rising(row) == wanted;
        let by_run = |row: &FindRow| {
            (format!("{}, find/run", row.shape.words().join(" ")), row.times.find / row.times.run)
        };
        let target = Target { name, mean: None, row: Some(1.05) };
        target.print(&finds.iter().filter(asked).map(by_run).collect::<Vec<_>>());
    }
}

/// The rows that were timed.
pub struct Timed {
    pub unpacking: Vec<UnpackRow>,
    pub checks: Vec<CheckRow>,
    pub writes: Vec<WriteRow>,
    pub runs: Vec<RunRow>,
    pub finds: Vec<FindRow>,
}

impl Timed {
    pub fn is_empty(&self) -> bool {
        let Timed { unpacking, checks: _, writes, runs, finds } = self;
        unpacking.is_empty() && writes.is_empty() && runs.is_empty() && finds.is_empty()
    }
}

pub fn targets(timed: &Timed) {
    let Timed { unpacking, checks, writes, runs, finds } = timed;
    println!("\nTargets (geometric means of ratios)\n");
    write_target(writes);
    find_targets(finds);
    let of_width = |row: &&UnpackRow| row.width.is_some();
    let by_width = |row: &UnpackRow| (row.name(), row.ours / row.rust);
    let unpack = Target { name: "unpacking", mean: None, row: Some(1.2) };
    unpack.print(&unpacking.iter().filter(of_width).map(by_width).collect::<Vec<_>>());
    let by_check = |row: &CheckRow| {
        (format!("{} lists, {} postings", row.lists, row.postings), row.times.check_ratio())
    };
    let by_run = |wanted: &dyn Fn(&Shape) -> bool, ratio: fn(&Times) -> f64| {
        let rows = runs.iter().filter(|row| wanted(&row.shape));
        rows.map(|row| (row.shape.words().join(" "), ratio(&row.times))).collect::<Vec<_>>()
    };
    let check = Target { name: "file check", mean: None, row: Some(0.7) };
    check.print(&checks.iter().map(by_check).collect::<Vec<_>>());
    for (name, postings, limit) in [("check 10,000", 10_000, 0.85), ("check 1,000", 1_000, 1.2)] {
        let of_size = |shape: &Shape| shape.kind == Kind::Small(postings);
        Target { name, mean: None, row: Some(limit) }.print(&by_run(&of_size, Times::check_ratio));
    }
    let best = |shape: &Shape| shape.kind == Kind::Large && shape.best.is_some();
    let ranking = Target { name: "ranking", mean: Some(1.05), row: Some(1.4) };
    ranking.print(&by_run(&best, Times::ranking_ratio));
    for (name, lists, limit) in [("union of 2", 2, 1.2), ("union of 3", 3, 1.3)] {
        let union = |shape: &Shape| best(shape) && shape.mode == UNION && shape.lists == lists;
        Target { name, mean: None, row: Some(limit) }.print(&by_run(&union, Times::ranking_ratio));
    }
    let every = Target { name: "every match", mean: None, row: Some(1.6) };
    every.print(&by_run(&|shape| shape.best.is_none(), Times::ranking_ratio));
    let whole = Target { name: "whole run", mean: Some(0.85), row: Some(1.0) };
    whole.print(&by_run(&best, Times::whole_ratio));
    let small = Target { name: "small files", mean: None, row: Some(1.3) };
    small.print(&by_run(&|shape| shape.kind != Kind::Large, Times::whole_ratio));
}
