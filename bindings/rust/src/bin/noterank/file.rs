//! Files and their names.

use std::ffi::OsStr;
use std::fs::{self, File, OpenOptions};
use std::io::{self, Read, Write};
use std::path::Path;

use noterank::layout::MOST_BYTES;
use noterank::sample;

use crate::{Answer, Failure};

/// A name as it may be printed: what is no text, or would move the cursor, is replaced.
pub fn shown(name: impl AsRef<OsStr>) -> String {
    let text = name.as_ref().to_string_lossy();
    text.chars().map(|c| if c.is_control() { char::REPLACEMENT_CHARACTER } else { c }).collect()
}

/// None if it is longer than `most`.
fn read_within(path: &Path, most: u64) -> io::Result<Option<Vec<u8>>> {
    let file = File::open(path)?;
    if file.metadata()?.len() > most {
        return Ok(None);
    }
    // A device tells no length, and may be endless.
    let mut bytes = Vec::new();
    let length = file.take(most + 1).read_to_end(&mut bytes)?;
    Ok((length as u64 <= most).then_some(bytes))
}

fn read_or_fail(path: &Path, most: u64, than: &str) -> Result<Vec<u8>, Failure> {
    let unreadable = |text| Failure::unreadable(format!("{}: {text}", shown(path)));
    match read_within(path, most) {
        Ok(Some(bytes)) => Ok(bytes),
        Ok(None) => Err(unreadable(format!("over {most} bytes, longer than {than}"))),
        Err(error) => Err(unreadable(format!("cannot be read: {error}"))),
    }
}

pub fn read(path: &Path) -> Result<Vec<u8>, Failure> {
    read_or_fail(path, MOST_BYTES, "any note file")
}

/// The text of 16 lists over all documents has a third of this.
const MOST_TEXT: u64 = 1 << 30;

pub fn read_text(path: &Path) -> Result<Vec<u8>, Failure> {
    read_or_fail(path, MOST_TEXT, "this tool takes contents")
}

fn unwritable(path: &Path, error: io::Error) -> Failure {
    Failure::unreadable(format!("{}: cannot be written: {error}", shown(path)))
}

/// Writes no file that is there already, and leaves none that is not whole.
pub fn create(path: &Path, bytes: &[u8]) -> Result<(), Failure> {
    let made = OpenOptions::new().write(true).create_new(true).open(path);
    let mut file = made.map_err(|error| unwritable(path, error))?;
    file.write_all(bytes).map_err(|error| {
        // What cannot be written may not be removed either; the first failure is told.
        let _ = fs::remove_file(path);
        unwritable(path, error)
    })
}

pub fn write_samples(folder: &Path) -> Result<Answer, Failure> {
    fs::create_dir_all(folder).map_err(|error| unwritable(folder, error))?;
    let mut text = String::new();
    for sample in sample::all() {
        create(&folder.join(sample.name), &sample.bytes)?;
        text += &format!("{:<18}{}\n", sample.name, sample.about);
    }
    Ok(Answer::answered(text))
}
