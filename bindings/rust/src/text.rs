//! Contents as plain text, a line for each thing:
//!
//! ```text
//! # what stands behind this sign is for the reader
//! documents 4          documents are numbered from 0 up to this
//! average 8            the average field length
//! norm 1               one norm code for all documents; or in its place
//! norms 1 1 7 1        a norm code for each document, in their order, on one line or several
//! list 1000            a list begins, with its weight
//! 1 1                  a posting of that list: a document, and how often it has the word
//! 3 3
//! ```
//!
//! The lines before the first list may stand in any order. Average and weight are taken to the
//! nearest f32; shown, whole numbers stand in full and others in the fewest digits that read back
//! as the same f32. What the text says is judged by the archive; this module, which is tested and
//! not proved, finds the lines.

use std::fmt::Write;

use crate::{write, write_into, Contents, List, Norms, NoteFile, Posting, Refusal};

/// Norm codes on a line of shown text.
const CODES: usize = 20;
/// Letters of a wrong word that are shown.
const SHOWN: usize = 40;

/// Contents, and the lines on which they stand, from 1.
#[derive(Debug)]
pub struct Text {
    /// What the text says.
    pub contents: Contents,
    documents_line: usize,
    average_line: usize,
    lists: Vec<Lines>,
}

#[derive(Debug)]
struct Lines {
    list: usize,
    postings: Vec<usize>,
}

/// A value, and the line that gives it.
type Given<T> = Option<(usize, T)>;

#[derive(Default)]
struct Parser {
    documents: Given<u32>,
    average: Given<f32>,
    norms: Given<Norms>,
    lists: Vec<List>,
    lines: Vec<Lines>,
}

/// Contents from their text, or a sentence about the first wrong line.
pub fn parse(text: &[u8]) -> Result<Text, String> {
    let mut parser = Parser::default();
    for (place, line) in text.split(|&byte| byte == b'\n').enumerate() {
        let number = place + 1;
        parser.line(number, line).map_err(|wrong| format!("line {number}: {wrong}"))?;
    }
    parser.done()
}

fn quoted(word: &str) -> String {
    let plain = |c: char| if c.is_control() { char::REPLACEMENT_CHARACTER } else { c };
    let mut shown: String = word.chars().take(SHOWN).map(plain).collect();
    if word.chars().nth(SHOWN).is_some() {
        shown += "..";
    }
    shown
}

fn once<T>(place: &mut Given<T>, name: &str, line: usize, value: T) -> Result<(), String> {
    match place.replace((line, value)) {
        None => Ok(()),
        Some((first, _)) => Err(format!("{name} is given twice, first on line {first}")),
    }
}

fn one<'a>(name: &str, values: &[&'a str]) -> Result<&'a str, String> {
    match values {
        [value] => Ok(value),
        _ => Err(format!("{name} takes one number, and here are {}", values.len())),
    }
}

fn whole(word: &str) -> Result<u32, String> {
    let wrong = |_| format!("{}: not a whole number from 0 to {}", quoted(word), u32::MAX);
    word.parse().map_err(wrong)
}

fn fraction(word: &str) -> Result<f32, String> {
    word.parse().map_err(|_| format!("{}: not a number", quoted(word)))
}

fn code(word: &str) -> Result<u8, String> {
    word.parse().map_err(|_| format!("{}: not a norm code from 0 to 255", quoted(word)))
}

impl Parser {
    fn line(&mut self, number: usize, line: &[u8]) -> Result<(), String> {
        let line = std::str::from_utf8(line).map_err(|_| "not text in UTF-8")?;
        let said = line.split('#').next().unwrap_or_default();
        let words: Vec<&str> = said.split_whitespace().collect();
        match words.split_first() {
            None => Ok(()),
            Some((name, values)) => self.take(number, name, values),
        }
    }

    fn take(&mut self, line: usize, name: &str, values: &[&str]) -> Result<(), String> {
        let head = matches!(name, "documents" | "average" | "norm" | "norms");
        if head && !self.lists.is_empty() {
            return Err(format!("{name} must stand before the first list"));
        }
        match name {
            "documents" => once(&mut self.documents, name, line, whole(one(name, values)?)?),
            "average" => once(&mut self.average, name, line, fraction(one(name, values)?)?),
            "norm" => once(&mut self.norms, "norm", line, Norms::All(code(one(name, values)?)?)),
            "norms" => self.codes(line, values),
            "list" => {
                let weight = fraction(one(name, values)?)?;
                self.lists.push(List { weight, postings: Vec::new() });
                self.lines.push(Lines { list: line, postings: Vec::new() });
                Ok(())
            }
            _ if name.starts_with(|c: char| c.is_ascii_digit()) => self.posting(line, name, values),
            _ => Err(format!(
                "{}: not one of documents, average, norm, norms and list, and no posting",
                quoted(name)
            )),
        }
    }

    fn codes(&mut self, line: usize, values: &[&str]) -> Result<(), String> {
        let codes = values.iter().map(|word| code(word)).collect::<Result<Vec<u8>, _>>()?;
        match &mut self.norms {
            Some((_, Norms::Each(all))) => all.extend(codes),
            _ => once(&mut self.norms, "norm", line, Norms::Each(codes))?,
        }
        Ok(())
    }

    fn posting(&mut self, line: usize, name: &str, values: &[&str]) -> Result<(), String> {
        let (Some(list), Some(lines)) = (self.lists.last_mut(), self.lines.last_mut()) else {
            return Err("a posting before the first list".to_string());
        };
        let [frequency] = values else {
            let numbers = values.len() + 1;
            return Err(format!(
                "a posting is a document and its frequency, and here are {numbers}"
            ));
        };
        list.postings.push(Posting { document: whole(name)?, frequency: whole(frequency)? });
        lines.postings.push(line);
        Ok(())
    }

    fn done(self) -> Result<Text, String> {
        let missing = |name| format!("a line is missing: {name}");
        let (documents_line, documents) = self.documents.ok_or(missing("documents"))?;
        let (average_line, average) = self.average.ok_or(missing("average"))?;
        let (_, norms) = self.norms.ok_or(missing("norm, or norms"))?;
        let contents = Contents { documents, norms, average, lists: self.lists };
        Ok(Text { contents, documents_line, average_line, lists: self.lines })
    }
}

impl Text {
    /// The line that shows the fault for which the contents are refused. Empty where none was
    /// found.
    pub fn place(&self, refusal: Refusal) -> String {
        let Contents { documents, norms, average, lists } = &self.contents;
        match refusal {
            Refusal::Header if lists.len() > 16 => {
                format!("line {}: the list after the 16th", self.lists[16].list)
            }
            Refusal::Header => format!("line {}: documents {documents}", self.documents_line),
            Refusal::Average => format!("line {}: average {average}", self.average_line),
            Refusal::Length => {
                let codes = if let Norms::Each(codes) = norms { codes.len() } else { 0 };
                let line = self.documents_line;
                format!("line {line}: documents {documents}; norm codes: {codes}")
            }
            Refusal::Entry => self.entry_place().unwrap_or_default(),
            _ => self.posting_place(refusal).unwrap_or_default(),
        }
    }

    fn entry_place(&self) -> Option<String> {
        let documents = self.contents.documents;
        self.contents.lists.iter().zip(&self.lists).enumerate().find_map(|(number, (list, at))| {
            let (weight, count, line) = (list.weight, list.postings.len(), at.list);
            if weight.is_sign_negative() || weight.is_nan() || weight > 1000.0 {
                return Some(format!("line {line}: list {number}, weight {weight}"));
            }
            (count > documents as usize).then(|| {
                format!("line {line}: list {number}, postings: {count}; documents {documents}")
            })
        })
    }

    /// The first posting with which a list's beginning is refused so, found by halving. A longer
    /// beginning is refused with the same number or a lower one, and the whole list with none
    /// lower.
    fn posting_place(&self, refusal: Refusal) -> Option<String> {
        let refused = |list: &List, count: usize| {
            let postings = list.postings[..count].to_vec();
            let lists = vec![List { weight: list.weight, postings }];
            let alone = Contents { lists, norms: self.contents.norms.clone(), ..self.contents };
            write_into(&alone, &mut []) == Err(refusal)
        };
        let whole = |list: &List| refused(list, list.postings.len());
        let number = self.contents.lists.iter().position(whole)?;
        let list = &self.contents.lists[number];
        let counts: Vec<usize> = (0..=list.postings.len()).collect();
        let least = counts.partition_point(|&count| !refused(list, count));
        let posting = least.checked_sub(1)?;
        let line = self.lists[number].postings.get(posting)?;
        Some(format!("line {line}: list {number}, {}", self.told(list, posting, refusal)))
    }

    fn told(&self, list: &List, place: usize, refusal: Refusal) -> String {
        let Posting { document, frequency } = list.postings[place];
        let documents = self.contents.documents;
        match refusal {
            Refusal::Documents if document >= documents => {
                format!("document {document}; documents {documents}")
            }
            Refusal::Documents => {
                let before = list.postings[place - 1].document;
                format!("document {document} behind document {before}")
            }
            Refusal::Frequencies => format!("frequency {frequency}"),
            _ => format!("document {document} with frequency {frequency}"),
        }
    }
}

/// A whole number in full, any other in the fewest digits that read back as the same f32.
fn shortest(value: f32) -> String {
    match value {
        _ if value.fract() == 0.0 && value < 1e10 => f64::from(value).to_string(),
        _ if value < 1e-5 => format!("{value:e}"),
        _ => value.to_string(),
    }
}

fn norm_lines(norms: &Norms) -> String {
    let codes = match norms {
        Norms::All(code) => return format!("norm {code}\n"),
        Norms::Each(codes) if codes.is_empty() => return "norms\n".to_string(),
        Norms::Each(codes) => codes,
    };
    let line = |(row, codes): (usize, &[u8])| {
        let words: Vec<String> = codes.iter().map(u8::to_string).collect();
        format!("norms {} # from document {}\n", words.join(" "), row * CODES)
    };
    codes.chunks(CODES).enumerate().map(line).collect()
}

/// The text of contents.
pub fn shown(contents: &Contents) -> String {
    let mut text = format!("documents {}\n", contents.documents);
    text += &format!("average {}\n", shortest(contents.average));
    text += &norm_lines(&contents.norms);
    for (number, list) in contents.lists.iter().enumerate() {
        let count = list.postings.len();
        text += &format!("\n# list {number}, postings: {count}\n");
        text += &format!("list {}\n", shortest(list.weight));
        for posting in &list.postings {
            let _ = writeln!(text, "{} {}", posting.document, posting.frequency);
        }
    }
    text
}

/// The text of a file's contents. Its first line tells whether the file is the one that is written
/// from it.
pub fn of_file(file: &NoteFile) -> String {
    let contents = Contents::read(file);
    let first = match write(&contents).as_deref() == Ok(file.bytes()) {
        true => "# house form: written from this text, the file is the same byte for byte",
        false => "# not house form: written from this text, the file has other bytes",
    };
    format!("{first}\n{}", shown(&contents))
}

#[cfg(test)]
mod tests {
    use super::*;

    const SMALL: &str = "documents 4\naverage 8\nnorm 1\nlist 1000\n1 1\n3 3\nlist 500\n0 1\n3 1\n";

    #[track_caller]
    fn wrong(text: &str, said: &str) {
        assert_eq!(parse(text.as_bytes()).unwrap_err(), said);
    }

    #[track_caller]
    fn place(text: &str, place: &str) {
        let text = parse(text.as_bytes()).unwrap();
        let refusal = write(&text.contents).unwrap_err();
        assert_eq!(text.place(refusal), place);
    }

    #[test]
    fn comments_spaces_and_order_do_not_matter() {
        let text = parse(SMALL.as_bytes()).unwrap().contents;
        let other = SMALL.replace("documents 4\naverage 8\nnorm 1\n", "");
        let other = format!("#\n\n norm  1 # all\r\naverage 8.0\r\n\tdocuments 4 #\n{other}");
        assert_eq!(parse(other.trim_end().as_bytes()).unwrap().contents, text);
        assert_eq!(parse(shown(&text).as_bytes()).unwrap().contents, text);
    }

    #[test]
    fn norm_codes_stand_on_several_lines() {
        let codes: Vec<u8> = (0..40).collect();
        let lists = Vec::new();
        let norms = Norms::Each(codes);
        let contents = Contents { documents: 40, norms, average: 0.1, lists };
        let text = shown(&contents);
        assert_eq!(text.lines().filter(|line| line.starts_with("norms ")).count(), 2);
        assert_eq!(parse(text.as_bytes()).unwrap().contents, contents);
        let none = Contents { documents: 0, norms: Norms::Each(Vec::new()), ..contents };
        assert_eq!(parse(shown(&none).as_bytes()).unwrap().contents, none);
    }

    #[test]
    fn numbers_come_back_bit_for_bit() {
        let patterns = (0..0x447a_0001).step_by(65_537).chain([1, 0x007f_ffff, 0x4f00_0000]);
        for bits in patterns {
            let value = f32::from_bits(bits);
            assert_eq!(fraction(&shortest(value)).map(f32::to_bits), Ok(bits));
        }
        assert_eq!(shortest(1e-45), "1e-45");
        assert_eq!(shortest(0.1), "0.1");
        assert_eq!(shortest(0.0), "0");
        assert_eq!(shortest(1000.0), "1000");
        assert_eq!(shortest(2_147_483_648.0), "2147483648");
    }

    #[test]
    fn wrong_lines() {
        wrong("documents 4\nnorm 1", "a line is missing: average");
        wrong("average 4\nnorm 1", "a line is missing: documents");
        wrong("average 4\ndocuments 1", "a line is missing: norm, or norms");
        wrong("\n\ndocuments", "line 3: documents takes one number, and here are 0");
        wrong("average 1 2", "line 1: average takes one number, and here are 2");
        wrong("documents 4,000", "line 1: 4,000: not a whole number from 0 to 4294967295");
        wrong("documents -1", "line 1: -1: not a whole number from 0 to 4294967295");
        wrong("average eight", "line 1: eight: not a number");
        wrong("norm 256", "line 1: 256: not a norm code from 0 to 255");
        wrong("norms 1 2 x", "line 1: x: not a norm code from 0 to 255");
        wrong("norm 1\nnorm 1", "line 2: norm is given twice, first on line 1");
        wrong("norms 1\n#\nnorm 1", "line 3: norm is given twice, first on line 1");
        wrong("norm 1\nnorms 1", "line 2: norm is given twice, first on line 1");
        wrong("1 1", "line 1: a posting before the first list");
        wrong("list 1\n1", "line 2: a posting is a document and its frequency, and here are 1");
        wrong("list 1\n1 2 3", "line 2: a posting is a document and its frequency, and here are 3");
        wrong("list 1\n1 x", "line 2: x: not a whole number from 0 to 4294967295");
        wrong("list 1\ndocuments 3", "line 2: documents must stand before the first list");
        let said = "not one of documents, average, norm, norms and list, and no posting";
        wrong("lists 1", &format!("line 1: lists: {said}"));
        wrong("\u{7}", &format!("line 1: \u{fffd}: {said}"));
        assert_eq!(parse(b"#\n\xff").unwrap_err(), "line 2: not text in UTF-8");
    }

    #[test]
    fn places_of_refused_contents() {
        place(&SMALL.replace("documents 4", "documents 1048577"), "line 1: documents 1048577");
        place(&format!("{SMALL}{}", "list 1\n".repeat(15)), "line 24: the list after the 16th");
        place(&SMALL.replace("average 8", "average nan"), "line 2: average NaN");
        place(&SMALL.replace("norm 1", "norms 1 1"), "line 1: documents 4; norm codes: 2");
        place(&SMALL.replace("list 500", "list -0"), "line 7: list 1, weight -0");
        let five = SMALL.replace("0 1\n", "0 1\n1 1\n2 1\n2 1\n");
        place(&five, "line 7: list 1, postings: 5; documents 4");
        place(&SMALL.replace("3 3", "1 3"), "line 6: list 0, document 1 behind document 1");
        place(&SMALL.replace("3 3", "4 3"), "line 6: list 0, document 4; documents 4");
        place(&SMALL.replace("0 1", "0 0"), "line 8: list 1, frequency 0");
        place(&SMALL.replace("3 3", "3 4"), "line 6: list 0, document 3 with frequency 4");
    }
}
