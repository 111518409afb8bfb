//! `search FILE LIST..`: the ten best documents in any of the lists, the best first.

use std::error::Error;

use noterank::{best, Mode, NoteFile, Query, Rule};

const BEST: u32 = 10;

fn main() -> Result<(), Box<dyn Error>> {
    let mut words = std::env::args().skip(1);
    let bytes = std::fs::read(words.next().ok_or("search FILE LIST..")?)?;
    let lists = words.map(|word| word.parse()).collect::<Result<Vec<u32>, _>>()?;

    let file = NoteFile::check(&bytes)?;
    let rule = Rule::Best { start: 0.0, k: BEST };
    let query = Query { rule, ..Query::new(Mode::Union, &lists) };
    for hit in best(file.run(&query)?, BEST as usize) {
        println!("document {}, score {}", hit.document, hit.score);
    }
    Ok(())
}
