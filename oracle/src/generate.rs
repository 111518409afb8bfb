//! One case for each seed and number, with what must come of it.

use crate::case::Case;
use crate::random::Random;
use crate::{damage, plain, runs, shapes};

/// What a case is aimed at.
#[derive(Clone, Debug, PartialEq, Eq)]
pub enum Aim {
    /// The run is not refused, or only for its rows.
    Runs,
    Refused(u32),
    /// Noise: anything may come of it.
    Open,
}

pub struct Aimed {
    pub case: Case,
    pub aim: Aim,
    /// The conditions that were aimed at, by name.
    pub names: Vec<&'static str>,
}

fn running(random: &mut Random) -> Aimed {
    let bytes = shapes::accepted(random).bytes();
    match plain::read_file(&bytes) {
        Ok(file) => {
            let case = runs::allowed(random, bytes, &file);
            Aimed { case, aim: Aim::Runs, names: Vec::new() }
        }
        // The comparison tells that an accepted file was aimed at.
        Err(_) => Aimed { case: runs::blind(random, bytes), aim: Aim::Runs, names: Vec::new() },
    }
}

/// A broken file. The run over it may be broken as well: the file comes first.
pub fn damaged(random: &mut Random) -> Aimed {
    let mut draft = shapes::accepted(random);
    match damage::break_draft(&mut draft, random) {
        None => running(random),
        Some((names, number)) => {
            let mut case = runs::blind(random, draft.bytes());
            if random.one_in(4) {
                runs::break_rule(&mut case, random);
            }
            Aimed { case, aim: Aim::Refused(number), names }
        }
    }
}

fn bad_query(random: &mut Random) -> Aimed {
    let mut aimed = running(random);
    let lists = plain::read_file(&aimed.case.file).map_or(0, |file| file.lists.len());
    let mut names = vec![runs::break_query(&mut aimed.case, random, lists)];
    if random.one_in(4) {
        names.push(runs::break_rule(&mut aimed.case, random));
    }
    Aimed { case: aimed.case, aim: Aim::Refused(10), names }
}

fn bad_rule(random: &mut Random) -> Aimed {
    let mut aimed = running(random);
    let name = runs::break_rule(&mut aimed.case, random);
    Aimed { case: aimed.case, aim: Aim::Refused(11), names: vec![name] }
}

/// Turns a few bits, half of the time near the front, where most of the fields are.
pub fn turn_bits(file: &mut [u8], random: &mut Random) {
    for _ in 0..random.range(1, 3) {
        let end = file.len().min(if random.one_in(2) { 80 } else { usize::MAX });
        let place = random.index(end);
        file[place] ^= 1 << random.below(8);
    }
}

/// An accepted file with a few bits turned, under a run that suited it before.
fn noise(random: &mut Random) -> Aimed {
    let mut aimed = running(random);
    turn_bits(&mut aimed.case.file, random);
    Aimed { case: aimed.case, aim: Aim::Open, names: vec!["noise"] }
}

pub fn case(seed: u64, number: u64) -> Aimed {
    let mut random = Random::for_case(seed, number);
    match random.below(100) {
        0..=59 => running(&mut random),
        60..=83 => damaged(&mut random),
        84..=88 => bad_query(&mut random),
        89..=94 => bad_rule(&mut random),
        _ => noise(&mut random),
    }
}
