//! `write FILE`: writes a note file of four documents in two lists, and what a search finds in it.

use std::error::Error;

use noterank::{write, Contents, List, Mode, Norms, NoteFile, Posting, Query};

fn list(weight: f32, pairs: &[(u32, u32)]) -> List {
    let postings = pairs.iter().map(|&(document, frequency)| Posting { document, frequency });
    List { weight, postings: postings.collect() }
}

fn main() -> Result<(), Box<dyn Error>> {
    let path = std::env::args().nth(1).ok_or("write FILE")?;
    let contents = Contents {
        documents: 4,
        norms: Norms::Each(vec![5, 9, 5, 14]),
        average: 8.0,
        lists: vec![list(2.5, &[(0, 1), (2, 2)]), list(1.0, &[(0, 1), (1, 1), (3, 4)])],
    };
    let bytes = write(&contents).map_err(|refusal| refusal.of_contents())?;
    std::fs::write(&path, &bytes)?;
    println!("{path}: {} bytes", bytes.len());

    let file = NoteFile::check(&bytes)?;
    for hit in file.run(&Query::new(Mode::Union, &[0, 1]))? {
        println!("document {}, score {}", hit.document, hit.score);
    }
    Ok(())
}
