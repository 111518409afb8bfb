//! One case of a find for each seed and number, with what must come of it.

use crate::case::{Case, BEST_K};
use crate::finder::Find;
use crate::generate::{self, Aim};
use crate::random::Random;
use crate::{plain, runs, shapes};

pub struct Aimed {
    pub find: Find,
    pub aim: Aim,
    /// The faults, by name.
    pub names: Vec<&'static str>,
}

/// A row more than the largest k: what is lent where k is refused may be anything.
const MOST_NOTES: usize = 65;

fn k_of(find: &Find) -> usize {
    (find.run.k as usize).min(MOST_NOTES)
}

/// The two buffers, one of them often longer.
fn set_notes(find: &mut Find, random: &mut Random, rows: usize) {
    let longer = rows + random.pick(&[0, 0, 1, 9, 100]);
    (find.documents_len, find.scores_len) = match random.below(2) {
        0 => (rows, longer),
        _ => (longer, rows),
    };
}

/// A run with k note rows or a few more.
fn with_notes(random: &mut Random, run: Case) -> Find {
    let run = Case { rule: BEST_K, script: Vec::new(), ..run };
    let mut find = Find { run, ..Find::default() };
    let rows = k_of(&find) + random.pick(&[0, 0, 0, 1, 7]);
    set_notes(&mut find, random, rows);
    find
}

/// Fewer than k note rows; a k of 0 has none.
fn take_notes(find: &mut Find, random: &mut Random, names: &mut Vec<&'static str>) {
    let k = k_of(find);
    if k == 0 {
        return;
    }
    let any = random.index(k);
    let rows = random.pick(&[k - 1, any, 0]);
    set_notes(find, random, rows);
    names.push("fewer than k note rows");
}

/// Two files in three have many equal scores.
fn running(random: &mut Random) -> Aimed {
    let draft = match random.below(3) {
        0 => shapes::accepted(random),
        _ => shapes::repeating(random),
    };
    let bytes = draft.bytes();
    let run = match plain::read_file(&bytes) {
        Ok(file) => runs::best_k(random, bytes, &file),
        // The comparison tells that an accepted file was aimed at.
        Err(_) => runs::blind(random, bytes),
    };
    Aimed { find: with_notes(random, run), aim: Aim::Runs, names: Vec::new() }
}

fn few_notes(random: &mut Random) -> Aimed {
    let Aimed { mut find, mut names, .. } = running(random);
    take_notes(&mut find, random, &mut names);
    Aimed { find, aim: Aim::Refused(14), names }
}

/// Once in two times with too few note rows beside it.
fn bad_rule(random: &mut Random) -> Aimed {
    let mut find = running(random).find;
    let mut names = vec![runs::break_best_k(&mut find.run, random)];
    if random.one_in(2) {
        take_notes(&mut find, random, &mut names);
    }
    Aimed { find, aim: Aim::Refused(11), names }
}

fn bad_query(random: &mut Random) -> Aimed {
    let mut find = running(random).find;
    let lists = plain::read_file(&find.run.file).map_or(0, |file| file.lists.len());
    let mut names = vec![runs::break_query(&mut find.run, random, lists)];
    if random.one_in(4) {
        names.push(runs::break_best_k(&mut find.run, random));
    }
    if random.one_in(4) {
        take_notes(&mut find, random, &mut names);
    }
    Aimed { find, aim: Aim::Refused(10), names }
}

/// A broken file. The find over it may be broken as well: the file comes first.
fn damaged(random: &mut Random) -> Aimed {
    let generate::Aimed { case, aim, mut names } = generate::damaged(random);
    if aim == Aim::Runs {
        return running(random);
    }
    let mut find = with_notes(random, case);
    if random.one_in(4) {
        take_notes(&mut find, random, &mut names);
    }
    Aimed { find, aim, names }
}

fn noise(random: &mut Random) -> Aimed {
    let mut find = running(random).find;
    generate::turn_bits(&mut find.run.file, random);
    Aimed { find, aim: Aim::Open, names: vec!["noise"] }
}

pub fn case(seed: u64, number: u64) -> Aimed {
    let mut random = Random::for_case(seed, number);
    match random.below(100) {
        0..=59 => running(&mut random),
        60..=69 => few_notes(&mut random),
        70..=76 => bad_rule(&mut random),
        77..=81 => bad_query(&mut random),
        82..=95 => damaged(&mut random),
        _ => noise(&mut random),
    }
}
