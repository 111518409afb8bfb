//! `noterank write` and `noterank dump`.

use std::io::{self, IsTerminal};
use std::path::Path;

use noterank::text::{self, Text};
use noterank::{Contents, Refusal};

use crate::check::open;
use crate::file::{create, read, read_text, shown};
use crate::{Answer, Failure};

/// The number and its condition, then the line.
fn refused(name: &str, text: &Text, refusal: Refusal) -> Failure {
    let (number, words) = (refusal.number(), refusal.of_contents());
    let place = match text.place(refusal) {
        place if place.is_empty() => "where: not found by this tool".to_string(),
        place => format!("where, as this tool reads it: {place}"),
    };
    Failure::refused(format!("{name}: refused with {number}\n{words}\n{place}"))
}

fn told(name: &str, bytes: &[u8], contents: &Contents) -> String {
    let postings: usize = contents.lists.iter().map(|list| list.postings.len()).sum();
    format!(
        "{name}: written\n\nbytes      {}\ndocuments  {}\nlists      {}\npostings   {postings}\n",
        bytes.len(),
        contents.documents,
        contents.lists.len()
    )
}

/// The note file of the contents, made new, or on standard output.
pub fn write(contents: &Path, file: Option<&Path>) -> Result<Answer, Failure> {
    if file.is_none() && io::stdout().is_terminal() {
        return Err(Failure::usage("a note file is no text: name a FILE, or a pipe".to_string()));
    }
    let name = shown(contents);
    let text = text::parse(&read_text(contents)?)
        .map_err(|wrong| Failure::unreadable(format!("{name}: {wrong}")))?;
    let bytes = noterank::write(&text.contents).map_err(|error| refused(&name, &text, error))?;
    match file {
        None => Ok(Answer::answered(bytes)),
        Some(path) => {
            create(path, &bytes)?;
            Ok(Answer::answered(told(&shown(path), &bytes, &text.contents)))
        }
    }
}

/// The text of a file's contents.
pub fn dump(path: &Path) -> Result<Answer, Failure> {
    let bytes = read(path)?;
    Ok(Answer::answered(text::of_file(&open(path, &bytes)?)))
}
