//! Times of one command, kept in a file for a later one: a line for each row.

use std::collections::HashMap;
use std::fs;

use crate::measure::{Shape, Times};
use crate::tables::RunRow;

pub struct Saved(HashMap<String, Times>);

pub fn save(path: &str, rows: &[RunRow]) -> Result<(), String> {
    let line = |RunRow { shape, times, .. }: &RunRow| {
        let Times { our_check, rust_check, our_run, rust_run } = times;
        format!("{} {our_check} {rust_check} {our_run} {rust_run}\n", shape.words().join(" "))
    };
    fs::write(path, rows.iter().map(line).collect::<String>())
        .map_err(|error| format!("{path}: {error}"))
}

fn read_line(line: &str) -> Option<(String, Times)> {
    let words: Vec<&str> = line.split(' ').collect();
    let (shape, times) = words.split_at(words.len().checked_sub(4)?);
    let times: Vec<f64> = times.iter().filter_map(|word| word.parse().ok()).collect();
    let &[our_check, rust_check, our_run, rust_run] = times.as_slice() else {
        return None;
    };
    Some((shape.join(" "), Times { our_check, rust_check, our_run, rust_run }))
}

impl Saved {
    pub fn read(path: &str) -> Result<Saved, String> {
        let text = fs::read_to_string(path).map_err(|error| format!("{path}: {error}"))?;
        let rows: Option<HashMap<String, Times>> = text.lines().map(read_line).collect();
        rows.map(Saved).ok_or_else(|| format!("{path}: not a file of saved times"))
    }

    pub fn get(&self, shape: &Shape) -> Option<&Times> {
        self.0.get(&shape.words().join(" "))
    }
}
