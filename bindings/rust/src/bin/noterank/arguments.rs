//! The command line.

use std::ffi::{OsStr, OsString};
use std::path::PathBuf;
use std::slice::Iter;

use noterank::{Mode, Query, Rule, Scoring, Walk};

use crate::file::shown;

/// What is to be done.
pub enum Command {
    Help,
    Check(PathBuf),
    Search(Request),
    Both(Request),
    /// Contents, and the file that is made of them; None for standard output.
    Write(PathBuf, Option<PathBuf>),
    Dump(PathBuf),
    Sample(PathBuf),
}

/// A search as it was asked for.
pub struct Request {
    pub file: PathBuf,
    pub lists: Vec<u32>,
    pub mode: Mode,
    pub best: u32,
    pub start: f32,
    pub scoring: Scoring,
    pub walk: Walk,
}

impl Request {
    pub fn query(&self, walk: Walk) -> Query<'_> {
        let rule = Rule::Best { start: self.start, k: self.best };
        Query { lists: &self.lists, mode: self.mode, walk, scoring: self.scoring, rule }
    }
}

pub fn parse(words: Vec<OsString>) -> Result<Command, String> {
    if words.iter().any(|word| word == "--help" || word == "-h") {
        return Ok(Command::Help);
    }
    let (command, rest) = words.split_first().ok_or("a command is missing")?;
    match command.to_str() {
        Some("check") => Ok(Command::Check(only_path(rest, "check takes one FILE")?)),
        Some("dump") => Ok(Command::Dump(only_path(rest, "dump takes one FILE")?)),
        Some("write") => write(rest),
        Some("sample") => Ok(Command::Sample(only_path(rest, "sample takes one DIR")?)),
        Some("search") => Ok(Command::Search(request(rest)?)),
        Some("both") => match request(rest)? {
            Request { walk: Walk::Plain, .. } => Err("both has no --plain: it runs both".into()),
            request => Ok(Command::Both(request)),
        },
        _ => Err(format!("there is no command {}", shown(command))),
    }
}

fn only_path(words: &[OsString], otherwise: &str) -> Result<PathBuf, String> {
    match words {
        [path] if !is_option(path) => Ok(path.into()),
        _ => Err(otherwise.into()),
    }
}

fn write(words: &[OsString]) -> Result<Command, String> {
    match words {
        _ if words.iter().any(|word| is_option(word)) => Err("write has no options".into()),
        [contents] => Ok(Command::Write(contents.into(), None)),
        [contents, file] => Ok(Command::Write(contents.into(), Some(file.into()))),
        _ => Err("write takes CONTENTS, and a FILE or none".into()),
    }
}

fn is_option(word: &OsStr) -> bool {
    word.as_encoded_bytes().starts_with(b"-")
}

/// Options as they stand, each at most once.
#[derive(Default)]
struct Options {
    file: Option<PathBuf>,
    lists: Option<Vec<u32>>,
    mode: Option<Mode>,
    best: Option<u32>,
    start: Option<f32>,
    unstepped: Option<()>,
    plain: Option<()>,
}

fn request(words: &[OsString]) -> Result<Request, String> {
    let mut options = Options::default();
    let mut words = words.iter();
    while let Some(word) = words.next() {
        options.take(word, &mut words)?;
    }
    let scoring = if options.unstepped.is_some() { Scoring::Unstepped } else { Scoring::Stepped };
    Ok(Request {
        file: options.file.ok_or("FILE is missing")?,
        lists: options.lists.ok_or("--lists is missing")?,
        mode: options.mode.unwrap_or(Mode::Union),
        best: options.best.unwrap_or(10),
        start: options.start.unwrap_or(0.0),
        scoring,
        walk: if options.plain.is_some() { Walk::Plain } else { Walk::Skipping },
    })
}

impl Options {
    /// Takes a word and, if it is an option with a value, the next.
    fn take(&mut self, word: &OsStr, rest: &mut Iter<OsString>) -> Result<(), String> {
        let mut value = || match rest.next() {
            Some(value) => Ok(value.to_string_lossy().into_owned()),
            None => Err(format!("{} takes a value", shown(word))),
        };
        match word.to_str() {
            Some("--lists") => once(&mut self.lists, lists(&value()?)?, word),
            Some("--mode") => once(&mut self.mode, mode(&value()?)?, word),
            Some("--best") => once(&mut self.best, best(&value()?)?, word),
            Some("--start") => once(&mut self.start, start(&value()?)?, word),
            Some("--unstepped") => once(&mut self.unstepped, (), word),
            Some("--plain") => once(&mut self.plain, (), word),
            _ if is_option(word) => Err(format!("there is no option {}", shown(word))),
            _ => once(&mut self.file, word.into(), OsStr::new("FILE")),
        }
    }
}

fn once<T>(place: &mut Option<T>, value: T, name: &OsStr) -> Result<(), String> {
    match place.replace(value) {
        None => Ok(()),
        Some(_) => Err(format!("{} is given twice", shown(name))),
    }
}

/// An empty word is a query over no list.
fn lists(value: &str) -> Result<Vec<u32>, String> {
    let number = |word: &str| {
        let wrong = |_| format!("--lists {}: not list numbers with commas between", shown(value));
        word.trim().parse().map_err(wrong)
    };
    match value {
        "" => Ok(Vec::new()),
        _ => value.split(',').map(number).collect(),
    }
}

fn mode(value: &str) -> Result<Mode, String> {
    match value {
        "union" => Ok(Mode::Union),
        "intersection" => Ok(Mode::Intersection),
        "single" => Ok(Mode::Single),
        _ => Err(format!("--mode {}: not union, intersection or single", shown(value))),
    }
}

fn best(value: &str) -> Result<u32, String> {
    value.parse().map_err(|_| format!("--best {}: not a number from 1 to 64", shown(value)))
}

fn start(value: &str) -> Result<f32, String> {
    value.parse().map_err(|_| format!("--start {}: not a number", shown(value)))
}
