//! Files written through the safe wrapper, and contents that are refused.

use noterank::{
    best, sample, write, write_into, Contents, List, Mode, Norms, NoteFile, Posting, Query, Refusal,
};

const MOST_DOCUMENTS: u32 = 1_048_576;
const MOST_FREQUENCY: u32 = 2_013_265_944;

fn postings(pairs: &[(u32, u32)]) -> Vec<Posting> {
    pairs.iter().map(|&(document, frequency)| Posting { document, frequency }).collect()
}

fn list(weight: f32, pairs: &[(u32, u32)]) -> List {
    List { weight, postings: postings(pairs) }
}

/// Those of the print program's file.
fn small() -> Contents {
    Contents {
        documents: 4,
        norms: Norms::All(1),
        average: 8.0,
        lists: vec![list(1000.0, &[(1, 1), (3, 3)]), list(500.0, &[(0, 1), (3, 1)])],
    }
}

/// One list of so many documents, each `step` after the one before.
fn even(count: u32, step: u32, frequency: impl Fn(u32) -> u32) -> Contents {
    let posting = |i| Posting { document: i * step, frequency: frequency(i) };
    Contents {
        documents: count * step,
        norms: Norms::All(255),
        average: 1.0,
        lists: vec![List { weight: 2.5, postings: (0..count).map(posting).collect() }],
    }
}

fn read(file: &[u8]) -> Contents {
    Contents::read(&NoteFile::check(file).unwrap())
}

#[track_caller]
fn refused(refusal: Refusal, change: impl Fn(&mut Contents)) {
    let mut contents = small();
    change(&mut contents);
    assert_eq!(write(&contents), Err(refusal));
    let mut out = [0xa5; 80];
    assert_eq!(write_into(&contents, &mut out), Err(refusal));
    assert_eq!(out, [0xa5; 80]);
}

#[test]
fn the_small_file_is_the_papers() {
    let file = write(&small()).unwrap();
    assert_eq!(file, std::fs::read("../../crates/print/stdin").unwrap());
    assert_eq!(read(&file), small());
}

/// The samples that are written from text have the bytes of the papers.
#[test]
fn samples_from_text() {
    let bytes = |name| sample::all().into_iter().find(|sample| sample.name == name).unwrap().bytes;
    assert_eq!(bytes("small.note"), write(&small()).unwrap());
    let rounding = "18800000024f000000 44000008000008000000000006 38c00000000008000000000006 \
                    801800004087 801800004087";
    let hex: String = bytes("rounding.note").iter().map(|byte| format!("{byte:02x}")).collect();
    assert_eq!(hex, rounding.replace(' ', ""));
}

#[test]
fn nothing_at_all() {
    for norms in [Norms::Each(Vec::new()), Norms::All(0), Norms::All(255)] {
        let contents = Contents { documents: 0, norms, average: 0.0625, lists: Vec::new() };
        let file = write(&contents).unwrap();
        assert_eq!(file.len(), 9);
        assert_eq!(read(&file), contents);
    }
}

/// What was written is read, on both sides of a block's end and at many widths.
#[test]
fn what_goes_in_comes_out() {
    for count in [0, 1, 2, 127, 128, 129, 255, 256, 257, 1000] {
        for step in [1, 2, 7, 1000] {
            let contents = even(count, step, |i| 1 + i % 7);
            assert_eq!(read(&write(&contents).unwrap()), contents);
        }
    }
    for bits in 0..31 {
        let contents = even(300, 3, |i| 1 + (i % 2) * (1 << bits.min(30)));
        assert_eq!(read(&write(&contents).unwrap()), contents);
    }
    let most = even(300, 3, |i| MOST_FREQUENCY - i);
    assert_eq!(read(&write(&most).unwrap()), most);
}

/// Its frequencies are not strict and one list counts them: another file with the same contents.
#[test]
fn a_file_of_another_form_keeps_its_contents() {
    let other = sample::other_form();
    let contents = read(&other);
    let file = write(&contents).unwrap();
    assert_ne!(file, other);
    assert_eq!(file, sample::dryer());
    assert_eq!(read(&file), contents);
    assert_eq!(write(&read(&file)), Ok(file.clone()));
    let query = Query::new(Mode::Union, &[0, 1, 2, 3, 4]);
    let hits = |file: &[u8]| best(NoteFile::check(file).unwrap().run(&query).unwrap(), 1000);
    assert_eq!(hits(&file), hits(&other));
}

#[test]
fn refusal_1() {
    refused(Refusal::Header, |contents| contents.lists = vec![list(1.0, &[]); 17]);
    refused(Refusal::Header, |contents| contents.documents = MOST_DOCUMENTS + 1);
    refused(Refusal::Header, |contents| contents.documents = u32::MAX);
}

#[test]
fn refusal_2() {
    for average in [0.0, -8.0, 0.062, 2_147_484_000.0, f32::INFINITY, f32::NAN] {
        refused(Refusal::Average, |contents| contents.average = average);
    }
}

#[test]
fn refusal_3() {
    for codes in [0, 3, 5] {
        refused(Refusal::Length, |contents| contents.norms = Norms::Each(vec![1; codes]));
    }
}

#[test]
fn refusal_4() {
    for weight in [-1.0, -0.0, 1000.1, f32::INFINITY, f32::NAN] {
        refused(Refusal::Entry, |contents| contents.lists[1].weight = weight);
    }
    let five = [(0, 1), (1, 1), (2, 1), (3, 1), (4, 1)];
    refused(Refusal::Entry, |contents| contents.lists[1].postings = postings(&five));
}

#[test]
fn refusal_7() {
    for pairs in [&[(3, 1), (1, 1)][..], &[(2, 1), (2, 1)], &[(4, 1)], &[(0, 1), (u32::MAX, 1)]] {
        refused(Refusal::Documents, |contents| contents.lists[1].postings = postings(pairs));
    }
}

#[test]
fn refusal_8() {
    for frequency in [0, MOST_FREQUENCY + 1, u32::MAX] {
        refused(Refusal::Frequencies, |contents| {
            contents.lists[1].postings[1].frequency = frequency;
        });
    }
}

#[test]
fn refusal_9() {
    refused(Refusal::Bound, |contents| contents.lists[0].postings[1].frequency = 4);
}

/// The first list's highest number comes before the second's lowest; within a list the lowest.
#[test]
fn of_several_faults_the_first_is_told() {
    let unsorted = [(3, 1), (1, 1)];
    refused(Refusal::Bound, |contents| {
        contents.lists[0].postings[1].frequency = 4;
        contents.lists[1].postings = postings(&unsorted);
    });
    refused(Refusal::Documents, |contents| {
        contents.lists[0].postings = postings(&[(0, 0), (3, 1), (1, 1)]);
    });
    refused(Refusal::Entry, |contents| {
        contents.lists[0].postings = postings(&unsorted);
        contents.lists[1].weight = f32::NAN;
    });
    refused(Refusal::Header, |contents| {
        contents.documents = u32::MAX;
        contents.average = 0.0;
    });
}

/// Refused with 13 last, nothing written; a longer buffer keeps what stands behind the file.
#[test]
fn buffers_of_every_length() {
    let file = write(&small()).unwrap();
    for length in 0..60 {
        let mut out = vec![0xa5; length];
        let written = write_into(&small(), &mut out);
        if length < file.len() {
            assert_eq!(written, Err(Refusal::Output));
            assert!(out.iter().all(|&byte| byte == 0xa5));
        } else {
            assert_eq!(written, Ok(file.len()));
            assert_eq!(out[..file.len()], file);
            assert!(out[file.len()..].iter().all(|&byte| byte == 0xa5));
        }
    }
    let wrong = Contents { average: 0.0, ..small() };
    assert_eq!(write_into(&wrong, &mut []), Err(Refusal::Average));
}

/// The widest frequencies, and in each block one document far from the others.
#[test]
fn there_is_room_for_the_widest_blocks() {
    for count in [1u32, 127, 128, 129, 256] {
        let far = 1_000_000 / (count / 128).max(1);
        let document = |i| i + (i + 1) / 128 * far;
        let posting = |i| Posting { document: document(i), frequency: MOST_FREQUENCY };
        let list = List { weight: 1.0, postings: (0..count).map(posting).collect() };
        let norms = Norms::Each(vec![255; MOST_DOCUMENTS as usize]);
        let lists = vec![list; 16];
        let contents = Contents { documents: MOST_DOCUMENTS, norms, average: 16.0, lists };
        assert_eq!(read(&write(&contents).unwrap()), contents);
    }
}

#[test]
fn a_thread_with_a_stack_of_512_kilobytes() {
    let thread = std::thread::Builder::new().stack_size(512 * 1024);
    let written = thread.spawn(|| write(&even(1000, 1, |_| 1)).unwrap().len());
    assert!(written.unwrap().join().unwrap() > 9);
}
