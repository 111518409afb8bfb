//! The refusals, by number and in words.

use std::error::Error;
use std::fmt;

/// Why a file (1 to 9), a query (10), a rule (11), a run without rows left (12), contents (1 to 9)
/// or an output that is too short for their file (13) is refused.
#[derive(Clone, Copy, Debug, PartialEq, Eq)]
pub enum Refusal {
    /// The header.
    Header = 1,
    /// The average field length.
    Average = 2,
    /// The file's length.
    Length = 3,
    /// A list's entry.
    Entry = 4,
    /// A list's skip entries.
    Skips = 5,
    /// The shape of a list's postings.
    Postings = 6,
    /// A list's documents.
    Documents = 7,
    /// A list's frequencies.
    Frequencies = 8,
    /// A bound below a score.
    Bound = 9,
    /// The query.
    Query = 10,
    /// The rule.
    Rule = 11,
    /// The rows.
    Rows = 12,
    /// The output.
    Output = 13,
}

/// Each refusal with its condition in words, in number order.
const TABLE: [(Refusal, &str); 13] = [
    (
        Refusal::Header,
        "The header is wrong: under 9 bytes, a version other than 1, the spare bit set, over 16 \
         lists, over 1,048,576 documents, or a norm code beside norm bytes.",
    ),
    (Refusal::Average, "The average field length is not a number from 0.0625 to 2,147,483,648."),
    (
        Refusal::Length,
        "The length is wrong: the file ends inside its list entries, or its parts do not add up \
         to it.",
    ),
    (
        Refusal::Entry,
        "A list's entry is wrong: its weight is negative, no number or over 1,000, or it counts \
         more documents than the file has.",
    ),
    (
        Refusal::Skips,
        "A list's skip entries are wrong: their length does not fit its full blocks, or a width \
         is one that no block has.",
    ),
    (
        Refusal::Postings,
        "A list's postings are wrong: blocks and tail do not fill them exactly, or a number of \
         the tail is cut off, over 5 bytes or over 4,294,967,295.",
    ),
    (
        Refusal::Documents,
        "A list's documents are wrong: one does not rise above the one before it or is not below \
         the file's number, or a skip entry names another last document.",
    ),
    (Refusal::Frequencies, "A frequency is 0 or over 2,013,265,944."),
    (
        Refusal::Bound,
        "A bound is too low: that of a full block or of the list lies below a score that it \
         covers.",
    ),
    (
        Refusal::Query,
        "The query does not fit: a list that is not there, over 16 lists, a single run without \
         exactly one, or an intersection of fewer than two.",
    ),
    (
        Refusal::Rule,
        "The rule is wrong: a threshold is not finite or, in stepped scoring, not a multiple of \
         1/1024 from -1 to 16,000; a script falls or begins below its start; or k is not from 1 to \
         64.",
    ),
    (Refusal::Rows, "A report is due and every row is full."),
    (Refusal::Output, "The output is too short for the file."),
];

/// Those that contents meet in other words than a file does.
const OF_CONTENTS: [(Refusal, &str); 5] = [
    (Refusal::Header, "The contents are too large: over 16 lists, or over 1,048,576 documents."),
    (Refusal::Length, "There are not as many norm codes as documents."),
    (
        Refusal::Entry,
        "A list is wrong: its weight is negative, no number or over 1,000, or it has more \
         postings than there are documents.",
    ),
    (
        Refusal::Documents,
        "A list's documents are wrong: one does not rise above the one before it or is not below \
         the number of documents.",
    ),
    (
        Refusal::Bound,
        "A score is too high: it lies above its list's bound, the score of the longest field with \
         the highest frequency.",
    ),
];

impl Refusal {
    /// The refusal of a number; None for 0 and for numbers past 13.
    pub fn from_number(number: u32) -> Option<Refusal> {
        TABLE.iter().map(|row| row.0).find(|refusal| refusal.number() == number)
    }

    /// The number in the C interface.
    pub fn number(self) -> u32 {
        self as u32
    }

    /// The condition in words.
    pub fn sentence(self) -> &'static str {
        TABLE[self as usize - 1].1
    }

    /// The condition in words, where contents are refused and not a file.
    pub fn of_contents(self) -> &'static str {
        let own = OF_CONTENTS.iter().find(|row| row.0 == self);
        own.map_or(self.sentence(), |row| row.1)
    }
}

impl fmt::Display for Refusal {
    fn fmt(&self, out: &mut fmt::Formatter) -> fmt::Result {
        out.write_str(self.sentence())
    }
}

impl Error for Refusal {}

#[cfg(test)]
mod tests {
    use super::*;

    #[test]
    fn numbers_go_both_ways() {
        for number in 1..=13 {
            assert_eq!(Refusal::from_number(number).map(Refusal::number), Some(number));
        }
        assert_eq!(Refusal::from_number(0), None);
        assert_eq!(Refusal::from_number(14), None);
    }

    #[test]
    fn each_has_its_row_and_one_sentence() {
        for (place, (refusal, text)) in TABLE.iter().enumerate() {
            assert_eq!(refusal.number() as usize, place + 1);
            assert_eq!(refusal.to_string(), *text);
        }
        for (_, text) in TABLE.iter().chain(&OF_CONTENTS) {
            assert!(text.ends_with('.') && !text.contains(". ") && !text.contains("  "), "{text}");
        }
    }

    #[test]
    fn contents_have_words_of_their_own() {
        for (refusal, text) in OF_CONTENTS {
            assert_ne!(refusal.sentence(), text);
            assert_eq!(refusal.of_contents(), text);
        }
        assert_eq!(Refusal::Average.of_contents(), Refusal::Average.sentence());
    }
}
