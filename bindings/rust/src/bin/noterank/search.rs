//! `noterank search` and `noterank both`.

use noterank::{best, Hit, Mode, NoteFile, Refusal, Scoring, Walk};

use crate::arguments::Request;
use crate::check::open;
use crate::file::read;
use crate::table::{row, scores, table};
use crate::{Answer, Failure};

/// The reports of one walk, in document order.
fn reports(file: &NoteFile, request: &Request, walk: Walk) -> Result<Vec<Hit>, Failure> {
    file.run(&request.query(walk)).map_err(|refusal| {
        let mut text = format!("refused with {}\n{refusal}", refusal.number());
        if let Some(fault) = fault(request, file.lists(), refusal) {
            text += &format!("\nhere: {fault}");
        }
        Failure::refused(text)
    })
}

/// What of the question meets the condition.
fn fault(request: &Request, lists: usize, refusal: Refusal) -> Option<String> {
    match refusal {
        Refusal::Query => query_fault(request, lists),
        Refusal::Rule => rule_fault(request),
        _ => None,
    }
}

fn query_fault(request: &Request, lists: usize) -> Option<String> {
    let named = request.lists.len();
    if let Some(list) = request.lists.iter().find(|&&list| list as usize >= lists) {
        let there = match lists {
            0 => "no lists".to_string(),
            1 => "list 0 alone".to_string(),
            _ => format!("lists 0 to {}", lists - 1),
        };
        return Some(format!("list {list} is named, and the file has {there}"));
    }
    match request.mode {
        _ if named > 16 => Some(format!("lists named: {named}")),
        Mode::Single if named != 1 => Some(format!("a single run, lists named: {named}")),
        Mode::Intersection if named < 2 => Some(format!("an intersection, lists named: {named}")),
        _ => None,
    }
}

fn rule_fault(request: &Request) -> Option<String> {
    let Request { best, start, scoring, .. } = *request;
    let on_grid = (-1.0..=16_000.0).contains(&start) && (start * 1024.0).fract() == 0.0;
    match scoring {
        _ if !(1..=64).contains(&best) => Some(format!("--best {best}")),
        Scoring::Unstepped if !start.is_finite() => Some(format!("--start {start}")),
        Scoring::Stepped if !on_grid => Some(format!("--start {start}")),
        _ => None,
    }
}

pub fn search(request: &Request) -> Result<Answer, Failure> {
    let bytes = read(&request.file)?;
    let reports = reports(&open(&request.file, &bytes)?, request, request.walk)?;
    let hits = best(reports, request.best as usize);
    if hits.is_empty() {
        return Ok(Answer::answered(format!("no document scores above {}\n", request.start)));
    }
    let mut rows = vec![row(&["rank", "document", "score"])];
    let texts = scores(hits.iter().map(|hit| hit.score));
    for (place, (hit, score)) in hits.iter().zip(texts).enumerate() {
        rows.push(vec![(place + 1).to_string(), hit.document.to_string(), score]);
    }
    Ok(Answer::answered(table(&rows)))
}

/// Document and score of each rank, and empty cells up to `ranks`.
fn cells(hits: &[Hit], ranks: usize) -> Vec<[String; 2]> {
    let texts = scores(hits.iter().map(|hit| hit.score));
    let filled = hits.iter().zip(texts).map(|(hit, score)| [hit.document.to_string(), score]);
    filled.chain(std::iter::repeat_n([String::new(), String::new()], ranks - hits.len())).collect()
}

fn side_by_side(skipping: &[Hit], plain: &[Hit]) -> String {
    let ranks = skipping.len().max(plain.len());
    if ranks == 0 {
        return String::new();
    }
    let mut rows = vec![row(&["rank", "skipping document", "score", "plain document", "score"])];
    let pairs = cells(skipping, ranks).into_iter().zip(cells(plain, ranks));
    for (place, (left, right)) in pairs.enumerate() {
        let rank = (place + 1).to_string();
        rows.push([rank].into_iter().chain(left).chain(right).collect());
    }
    format!("{}\n", table(&rows))
}

fn told(hit: Option<&Hit>) -> String {
    match hit {
        Some(hit) => format!("document {} with {}", hit.document, hit.score),
        None => "nothing".to_string(),
    }
}

/// Every report of both walks is compared, not only the best.
fn comparison(skipping: &[Hit], plain: &[Hit]) -> Result<String, String> {
    let longer = skipping.len().max(plain.len());
    match (0..longer).find(|&place| skipping.get(place) != plain.get(place)) {
        None => Ok(format!("the same: {longer} reports each, documents and scores\n")),
        Some(place) => Err(format!(
            "they differ, first in report {}: skipping {}, plain {}\n",
            place + 1,
            told(skipping.get(place)),
            told(plain.get(place)),
        )),
    }
}

pub fn both(request: &Request) -> Result<Answer, Failure> {
    let bytes = read(&request.file)?;
    let file = open(&request.file, &bytes)?;
    let skipping = reports(&file, request, Walk::Skipping)?;
    let plain = reports(&file, request, Walk::Plain)?;
    let compared = comparison(&skipping, &plain);
    let ranked = |hits| best(hits, request.best as usize);
    let tables = side_by_side(&ranked(skipping), &ranked(plain));
    Ok(match compared {
        Ok(same) => Answer::answered(tables + &same),
        Err(difference) => Answer::negative(tables + &difference),
    })
}
