//! `sample SEED N FILE`: N runs with their answers, as words for the program `vectors`.
//! `sample writes SEED N FILE`: N writes, for it too; `sample finds SEED N FILE`: N finds, for the
//! program `find_vectors`.
//!
//! The plain walk is answered by the plain program, the skipping walk by the published files, a
//! write by the plain writer, a find by the plain finder. Small cases are taken, as many of each
//! returned number as of any other while there are enough; of writes a quarter have a full block, of
//! finds a quarter are ones in which the order of equal scores decides.

use std::process::ExitCode;

use oracle::case::{Case, Outcome};
use oracle::contents::{Contents, Written};
use oracle::engine::{self, Source};
use oracle::find_compare;
use oracle::finder::{Find, Found};
use oracle::generate::case;
use oracle::{finds, plain, writer, writes};

/// What both have room for.
const QUERY: usize = 32;
const SCRIPT: usize = 32;
const ROWS: usize = 256;
const LISTS: usize = 32;
const POSTINGS: usize = 512;
const OUTPUT: usize = 4096;
const CODES: usize = 13;
/// The numbers of a write: 0, 1 to 4, 7 to 9 and 13.
const WRITE_CODES: usize = 9;
/// The numbers of a find: 0 to 12 and 14.
const FIND_CODES: usize = 14;
/// How many numbers are looked through before the sample is given up.
const TRIES: u64 = 10_000_000;

/// A threshold as a kind and the bits of a number that the program can make.
fn threshold(value: f32) -> Option<[u32; 2]> {
    let known = |bits: u32| {
        bits <= 1000f32.to_bits() || (0.0625..=2_147_483_648.0).contains(&f32::from_bits(bits))
    };
    match value {
        _ if value.is_nan() => Some([2, 0]),
        _ if value == f32::INFINITY => Some([3, 0]),
        _ if known(value.to_bits()) => Some([0, value.to_bits()]),
        _ if value < 0.0 && known((-value).to_bits()) => Some([1, (-value).to_bits()]),
        _ => None,
    }
}

fn answer(case: &Case, walk: u32) -> Option<Outcome> {
    let plain = plain::run(case);
    if walk == 1 || !matches!(plain.code, 0 | 12) {
        return Some(plain);
    }
    engine::run(&Source::read(&case.file), case).ok().map(|run| run.outcome)
}

fn words(case: &Case, walk: u32, most: usize) -> Option<(u32, Vec<u8>)> {
    let lengths = [
        case.query.len() <= QUERY,
        case.script.len() <= SCRIPT,
        case.documents_len <= ROWS,
        case.scores_len <= ROWS,
    ];
    if case.file.len() > most || lengths.contains(&false) {
        return None;
    }
    let outcome = answer(case, walk)?;
    let start = threshold(case.start)?;
    let script: Vec<[u32; 2]> =
        case.script.iter().map(|&value| threshold(value)).collect::<Option<_>>()?;
    let mut words = vec![
        0,
        case.file.len() as u32,
        case.query.len() as u32,
        walk,
        case.mode,
        case.scoring,
        case.rule,
    ];
    words.extend(start);
    words.extend([
        case.k,
        script.len() as u32,
        case.documents_len as u32,
        case.scores_len as u32,
        outcome.code,
        outcome.count,
    ]);
    words.extend(&case.query);
    words.extend(script.concat());
    words.extend(outcome.rows.iter().flat_map(|row| [row.document, row.score]));
    Some((outcome.code, sized(&words, &case.file)))
}

/// A case's words, the first of which becomes its size, and the bytes behind them.
fn sized(words: &[u32], behind: &[u8]) -> Vec<u8> {
    let mut bytes: Vec<u8> = words.iter().flat_map(|word| word.to_le_bytes()).collect();
    bytes.extend(behind);
    bytes.resize(bytes.len().next_multiple_of(4), 0);
    let size = bytes.len() as u32;
    bytes[..4].copy_from_slice(&size.to_le_bytes());
    bytes
}

/// None if the program has no room for it, or if a number cannot be made.
fn write_words(contents: &Contents, written: &Written) -> Option<Vec<u8>> {
    let Contents { norms, weights, counts, docs, freqs, .. } = contents;
    let few = weights.len().max(counts.len()) <= LISTS;
    let many = docs.len().max(freqs.len()) <= POSTINGS;
    if !few || !many || norms.len().max(contents.out_len) > OUTPUT {
        return None;
    }
    let pairs: Vec<[u32; 2]> =
        weights.iter().map(|&weight| threshold(weight)).collect::<Option<_>>()?;
    let mut words = vec![0, contents.documents, contents.kind, contents.code, norms.len() as u32];
    words.extend(threshold(contents.average)?);
    let lengths = [weights.len(), counts.len(), docs.len(), freqs.len(), contents.out_len];
    words.extend(lengths.map(|length| length as u32));
    words.extend([written.code, written.length]);
    words.extend(pairs.concat());
    words.extend(counts.iter().chain(docs).chain(freqs));
    Some(sized(&words, &[&norms[..], &written.bytes].concat()))
}

/// The same of a find.
fn find_words(find: &Find, found: &Found) -> Option<Vec<u8>> {
    let Find { run, documents_len, scores_len } = find;
    let lengths = [run.documents_len, run.scores_len, *documents_len, *scores_len];
    if run.query.len() > QUERY || lengths.iter().any(|&length| length > ROWS) {
        return None;
    }
    let mut words = vec![0, run.file.len() as u32, run.query.len() as u32, run.mode, run.scoring];
    words.extend(threshold(run.start)?);
    words.push(run.k);
    words.extend(lengths.map(|length| length as u32));
    words.extend([found.code, found.reports.len() as u32, found.notes.len() as u32]);
    words.extend(&run.query);
    let rows = found.reports.iter().chain(&found.notes);
    words.extend(rows.flat_map(|row| [row.document, row.score]));
    Some(sized(&words, &run.file))
}

fn sample_finds(seed: u64, count: usize) -> Vec<u8> {
    let mut taken = [0usize; 15];
    let (mut ties, mut cases) = (0, Vec::new());
    for number in 0..TRIES {
        if cases.len() == count {
            break;
        }
        let aimed = finds::case(seed, number);
        let Ok(compared) = find_compare::compare(&aimed) else { continue };
        let code = compared.found.code as usize;
        let Some(bytes) = find_words(&aimed.find, &compared.found) else { continue };
        if compared.shows(find_compare::TIE) && bytes.len() < 1500 && 4 * ties < count {
            ties += 1;
        } else if bytes.len() > 800 || taken[code] * FIND_CODES * 4 > count * 3 {
            continue;
        } else {
            taken[code] += 1;
        }
        cases.push(bytes);
    }
    joined(cases)
}

fn sample_writes(seed: u64, count: usize) -> Vec<u8> {
    let mut taken = [0usize; 14];
    let (mut blocks, mut cases) = (0, Vec::new());
    for number in 0..TRIES {
        if cases.len() == count {
            break;
        }
        let contents = writes::case(seed, number).contents;
        let written = writer::write(&contents);
        let Some(bytes) = write_words(&contents, &written) else { continue };
        let block = bytes.len() < 3000 && contents.counts.iter().any(|&count| count >= 128);
        if block && 4 * blocks < count {
            blocks += 1;
        } else if bytes.len() > 800 || taken[written.code as usize] * WRITE_CODES * 4 > count * 3 {
            continue;
        } else {
            taken[written.code as usize] += 1;
        }
        cases.push(bytes);
    }
    joined(cases)
}

fn joined(cases: Vec<Vec<u8>>) -> Vec<u8> {
    let mut out = (cases.len() as u32).to_le_bytes().to_vec();
    out.extend(cases.concat());
    out
}

fn sample(seed: u64, count: usize) -> Vec<u8> {
    let mut taken = [0usize; CODES];
    let mut cases: Vec<Vec<u8>> = Vec::new();
    for number in 0..TRIES {
        if cases.len() == count {
            break;
        }
        // A file of full blocks now and then, else a small one.
        let most = if number % 16 == 0 { 4000 } else { 400 };
        let walk = (number % 2) as u32;
        let Some((code, bytes)) = words(&case(seed, number).case, walk, most) else { continue };
        if taken[code as usize] * CODES <= count + CODES {
            taken[code as usize] += 1;
            cases.push(bytes);
        }
    }
    joined(cases)
}

type Sampler = fn(u64, usize) -> Vec<u8>;

/// What is asked for, and where it goes.
fn parsed(words: &[String]) -> Option<(Sampler, u64, usize, &String)> {
    let (sampler, rest): (Sampler, _) = match words.split_first()? {
        (first, rest) if first == "writes" => (sample_writes, rest),
        (first, rest) if first == "finds" => (sample_finds, rest),
        _ => (sample, words),
    };
    match rest {
        [seed, count, path] => Some((sampler, seed.parse().ok()?, count.parse().ok()?, path)),
        _ => None,
    }
}

fn main() -> ExitCode {
    let words: Vec<String> = std::env::args().skip(1).collect();
    let Some((sampler, seed, count, path)) = parsed(&words) else {
        eprintln!("sample SEED N FILE, or sample writes|finds SEED N FILE");
        return ExitCode::FAILURE;
    };
    match std::fs::write(path, sampler(seed, count)) {
        Ok(()) => ExitCode::SUCCESS,
        Err(error) => {
            eprintln!("{path}: {error}");
            ExitCode::FAILURE
        }
    }
}
