//! The forms of the command.

use oracle::case::{INTERSECTION, SINGLE, STEPPED, UNION, UNSTEPPED};

use crate::corpus::Kind;
use crate::measure::Shape;

pub const USAGE: &str = "\
run [ROUNDS]             every table; each time is the least of these rounds (5)
    --quick              two rounds, and no file over a million postings
    --only WORD,WORD     only rows with all of these words, as union,8,10,stepped; large or small
                         for the file, 1000 or 10000 for its postings, every for a threshold that
                         stays 0; or check alone, or write alone, or unpack alone; with find the
                         rows of the note finder, as find,union or find,rising
    --save FILE          keeps the times
    --against FILE       adds the ranking's ratio now over then, by times kept earlier
run --loop MODE LISTS BEST SCORING SECONDS [ours|rust]
                         runs one row of a large file again and again, for a profiler";

pub struct Options {
    pub rounds: u32,
    pub quick: bool,
    pub only: Vec<String>,
    pub save: Option<String>,
    pub against: Option<String>,
}

pub struct Loop {
    pub shape: Shape,
    pub seconds: u64,
    pub ours: bool,
}

pub enum Work {
    Tables(Options),
    Loop(Loop),
}

pub fn read(words: &[String]) -> Option<Work> {
    match words.split_first() {
        Some((first, rest)) if first == "--loop" => read_loop(rest).map(Work::Loop),
        _ => read_tables(words).map(Work::Tables),
    }
}

fn read_tables(words: &[String]) -> Option<Options> {
    let mut options =
        Options { rounds: 5, quick: false, only: Vec::new(), save: None, against: None };
    let mut words = words.iter();
    while let Some(word) = words.next() {
        match word.as_str() {
            "--quick" => (options.quick, options.rounds) = (true, 2),
            "--only" => options.only = words.next()?.split(',').map(String::from).collect(),
            "--save" => options.save = Some(words.next()?.clone()),
            "--against" => options.against = Some(words.next()?.clone()),
            rounds => options.rounds = rounds.parse().ok().filter(|&rounds| rounds > 0)?,
        }
    }
    Some(options)
}

fn read_loop(words: &[String]) -> Option<Loop> {
    let [mode, lists, best, scoring, seconds, engine @ ..] = words else {
        return None;
    };
    let shape = Shape {
        mode: match mode.as_str() {
            "union" => UNION,
            "intersection" => INTERSECTION,
            "single" => SINGLE,
            _ => return None,
        },
        lists: lists.parse().ok().filter(|lists| (1..=16).contains(lists))?,
        best: match best.as_str() {
            "every" => None,
            k => Some(k.parse().ok().filter(|k| (1..=64).contains(k))?),
        },
        scoring: if scoring == "stepped" { STEPPED } else { UNSTEPPED },
        kind: Kind::Large,
    };
    let ours = engine.first().is_none_or(|engine| engine != "rust");
    Some(Loop { shape, seconds: seconds.parse().ok()?, ours })
}
