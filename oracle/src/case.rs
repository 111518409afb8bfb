//! A case: a file and one run over it, with its text form; and the outcome of a run.

use std::fmt::Write;

pub const UNION: u32 = 0;
pub const INTERSECTION: u32 = 1;
pub const SINGLE: u32 = 2;
pub const UNSTEPPED: u32 = 0;
pub const STEPPED: u32 = 1;
pub const SCRIPT: u32 = 0;
pub const BEST_K: u32 = 1;

/// The numbers are those of the C interface, so that numbers outside it can be tried too.
#[derive(Clone, Debug, Default)]
pub struct Case {
    pub file: Vec<u8>,
    pub query: Vec<u32>,
    pub mode: u32,
    pub scoring: u32,
    pub rule: u32,
    pub start: f32,
    pub k: u32,
    pub script: Vec<f32>,
    pub documents_len: usize,
    pub scores_len: usize,
}

/// A report. The score stands as its bits, so that equal means the same bits.
#[derive(Clone, Copy, Debug, PartialEq, Eq)]
pub struct Row {
    pub document: u32,
    pub score: u32,
}

#[derive(Clone, Debug, PartialEq, Eq)]
pub struct Outcome {
    pub code: u32,
    pub count: u32,
    pub rows: Vec<Row>,
}

impl Outcome {
    pub fn done(rows: Vec<Row>) -> Outcome {
        Outcome { code: 0, count: rows.len() as u32, rows }
    }

    pub fn full(rows: Vec<Row>) -> Outcome {
        Outcome { code: 12, count: rows.len() as u32, rows }
    }

    pub fn refused(code: u32) -> Outcome {
        Outcome { code, count: 0, rows: Vec::new() }
    }
}

impl Case {
    /// Both buffers count as long as the shorter.
    pub fn rows(&self) -> usize {
        self.documents_len.min(self.scores_len)
    }

    /// One line a field: a name, then its values. Floats stand as their bits.
    pub fn to_text(&self) -> String {
        let mut text = String::new();
        let mut line = |name: &str, values: &[String]| {
            let _ = writeln!(text, "{name} {}", values.join(" "));
        };
        line("file", &[hex(&self.file)]);
        line("query", &self.query.iter().map(u32::to_string).collect::<Vec<_>>());
        line("mode", &[self.mode.to_string()]);
        line("scoring", &[self.scoring.to_string()]);
        line("rule", &[self.rule.to_string()]);
        line("start", &[float(self.start)]);
        line("k", &[self.k.to_string()]);
        line("script", &self.script.iter().map(|&entry| float(entry)).collect::<Vec<_>>());
        line("documents_len", &[self.documents_len.to_string()]);
        line("scores_len", &[self.scores_len.to_string()]);
        text
    }

    /// Reads the text form, without lines that start with `#`; any other line is an error.
    pub fn from_text(text: &str) -> Result<Case, String> {
        let mut case = Case::default();
        let fields = text.lines().filter(|line| !line.trim().is_empty() && !line.starts_with('#'));
        for line in fields {
            let mut words = line.split_whitespace();
            let name = words.next().unwrap_or_default();
            let values: Vec<&str> = words.collect();
            case.set(name, &values).ok_or_else(|| format!("cannot read the line of {name:?}"))?;
        }
        Ok(case)
    }

    fn set(&mut self, name: &str, values: &[&str]) -> Option<()> {
        let one = || values.first().copied().filter(|_| values.len() == 1);
        match name {
            "file" => self.file = bytes(&values.concat())?,
            "query" => self.query = each(values, |word| word.parse().ok())?,
            "mode" => self.mode = one()?.parse().ok()?,
            "scoring" => self.scoring = one()?.parse().ok()?,
            "rule" => self.rule = one()?.parse().ok()?,
            "start" => self.start = from_bits(one()?)?,
            "k" => self.k = one()?.parse().ok()?,
            "script" => self.script = each(values, from_bits)?,
            "documents_len" => self.documents_len = one()?.parse().ok()?,
            "scores_len" => self.scores_len = one()?.parse().ok()?,
            _ => return None,
        }
        Some(())
    }
}

pub(crate) fn each<T>(values: &[&str], read: impl Fn(&str) -> Option<T>) -> Option<Vec<T>> {
    values.iter().map(|word| read(word)).collect()
}

pub(crate) fn hex(bytes: &[u8]) -> String {
    bytes.iter().map(|byte| format!("{byte:02x}")).collect()
}

pub(crate) fn bytes(hex: &str) -> Option<Vec<u8>> {
    let digits: Option<Vec<u8>> =
        hex.chars().map(|digit| digit.to_digit(16).map(|digit| digit as u8)).collect();
    let digits = digits.filter(|digits| digits.len() % 2 == 0)?;
    Some(digits.chunks(2).map(|pair| pair[0] << 4 | pair[1]).collect())
}

pub(crate) fn float(value: f32) -> String {
    format!("{:08x}", value.to_bits())
}

pub(crate) fn from_bits(word: &str) -> Option<f32> {
    u32::from_str_radix(word, 16).ok().map(f32::from_bits)
}
