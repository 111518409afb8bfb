//! `noterank check`.

use std::path::Path;

use noterank::layout::{Header, Layout, List};
use noterank::{place, NoteFile, Refusal};

use crate::file::{read, shown};
use crate::table::{row, table};
use crate::{Answer, Failure};

pub fn check(path: &Path) -> Result<Answer, Failure> {
    let bytes = read(path)?;
    let name = shown(path);
    Ok(match NoteFile::check(&bytes) {
        Ok(_) => Answer::answered(format!("{name}: accepted\n{}", contents(&bytes))),
        Err(refusal) => Answer::negative(format!("{name}: {}\n", refused(&bytes, refusal))),
    })
}

/// The file, or a failure that says why it is refused.
pub fn open<'a>(path: &Path, bytes: &'a [u8]) -> Result<NoteFile<'a>, Failure> {
    NoteFile::check(bytes).map_err(|refusal| {
        Failure::refused(format!("{}: {}", shown(path), refused(bytes, refusal)))
    })
}

/// The number and its condition, then the places.
fn refused(bytes: &[u8], refusal: Refusal) -> String {
    let mut text = format!("refused with {}\n{refusal}\n", refusal.number());
    let places = place::places(bytes);
    if places.is_empty() {
        text += "where: not found by this tool";
    } else {
        text += "where, as this tool reads it: ";
        text += &places.join("; ");
    }
    text
}

fn norms(header: &Header) -> String {
    match header.constant_norm {
        true => format!("code {} for all documents", header.norm_code),
        false => "a byte for each document".to_string(),
    }
}

/// What an accepted file holds.
fn contents(bytes: &[u8]) -> String {
    let Some(layout) = Layout::read(bytes) else {
        return String::new();
    };
    let postings: usize = layout.lists.iter().map(|list| list.entry.count).sum();
    let facts = [
        ("bytes", bytes.len().to_string()),
        ("documents", layout.header.documents.to_string()),
        ("norms", norms(&layout.header)),
        ("average", f64::from(layout.header.average).to_string()),
        ("lists", layout.lists.len().to_string()),
        ("postings", postings.to_string()),
    ];
    let facts = facts.iter().map(|(name, value)| format!("{name:<11}{value}\n"));
    format!("\n{}{}", facts.collect::<String>(), lists(&layout.lists))
}

fn lists(lists: &[List]) -> String {
    if lists.is_empty() {
        return String::new();
    }
    let heads =
        ["list", "weight", "postings", "full blocks", "in tail", "skip bytes", "posting bytes"];
    let mut rows = vec![row(&heads)];
    for (number, list) in lists.iter().enumerate() {
        let entry = &list.entry;
        let counts = [entry.count, entry.full_blocks(), entry.tail()];
        let bytes = [entry.skip_length, entry.postings_length];
        let sizes = counts.iter().chain(&bytes).map(usize::to_string);
        rows.push(
            [number.to_string(), f64::from(entry.weight).to_string()]
                .into_iter()
                .chain(sizes)
                .collect(),
        );
    }
    format!("\n{}", table(&rows))
}
