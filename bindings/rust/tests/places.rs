//! Where refused files show their faults.

use noterank::layout::{Entry, Layout, List};
use noterank::place::places;
use noterank::{sample, NoteFile, Refusal};

/// The sample with five lists, one byte of it changed.
fn changed(place: usize, change: impl Fn(u8) -> u8) -> Vec<u8> {
    let mut file = sample::other_form();
    file[place] = change(file[place]);
    file
}

/// The same with several bytes changed.
fn with(place: usize, bytes: &[u8]) -> Vec<u8> {
    let mut file = sample::other_form();
    file[place..place + bytes.len()].copy_from_slice(bytes);
    file
}

/// The same with a list's entry changed.
fn with_entry(list: usize, change: impl Fn(&mut Entry)) -> Vec<u8> {
    let list = &layout().lists[list];
    let mut entry = list.entry;
    change(&mut entry);
    with(list.entry_at, &entry.bytes())
}

#[track_caller]
fn shows(file: &[u8], number: u32, expected: &[&str]) {
    assert_eq!(NoteFile::check(file).err().map(Refusal::number), Some(number));
    assert_eq!(places(file), expected);
}

fn layout() -> Layout {
    Layout::read(&sample::other_form()).unwrap()
}

#[test]
fn an_accepted_file_shows_none() {
    assert_eq!(places(&sample::other_form()), [""; 0]);
}

#[test]
fn refusal_1() {
    shows(&[], 1, &["the file ends after 0 bytes, inside the header"]);
    shows(&[0x18; 8], 1, &["the file ends after 8 bytes, inside the header"]);
    shows(&changed(0, |byte| byte | 0x20), 1, &["byte 0, upper four bits, version: 3"]);
    shows(&changed(0, |byte| byte | 4), 1, &["bytes 0 and 1, number of lists: 21"]);
    shows(&changed(1, |byte| byte | 1), 1, &["bytes 1 and 2, norm code: 4 beside norm bytes"]);
    shows(&changed(2, |byte| byte | 0x20), 1, &["bytes 2 to 4, number of documents: 1049576"]);
    shows(&changed(4, |byte| byte | 1), 1, &["byte 4, lowest bit, spare: 1"]);
    let everything = [
        "byte 0, upper four bits, version: 15",
        "bytes 0 and 1, number of lists: 31",
        "bytes 2 to 4, number of documents: 2097151",
        "byte 4, lowest bit, spare: 1",
    ];
    shows(&[0xff; 9], 1, &everything);
}

#[test]
fn refusal_2() {
    shows(&changed(5, |_| 0x7f), 2, &["bytes 5 to 8, average: inf"]);
    shows(&changed(5, |byte| byte | 0x80), 2, &["bytes 5 to 8, average: -16"]);
    shows(&changed(5, |_| 0x50), 2, &["bytes 5 to 8, average: 17179869184"]);
    shows(&with(5, &[0xff; 4]), 2, &["bytes 5 to 8, average: NaN"]);
}

#[test]
fn refusal_3() {
    let (file, layout) = (sample::other_form(), layout());
    let cut = |length: usize| file[..length].to_vec();
    shows(&cut(9), 3, &["the file ends after 9 bytes, inside the entry of list 0 of 5"]);
    shows(&cut(73), 3, &["the file ends after 73 bytes, inside the entry of list 4 of 5"]);
    shows(&cut(74), 3, &["the file ends after 74 bytes of 2658, inside the norm bytes"]);
    let place = "the file ends after 1129 bytes of 2658, inside the skip entries of list 0";
    shows(&cut(layout.lists[0].skips.end - 1), 3, &[place]);
    let place = "the file ends after 2657 bytes of 2658, inside the postings of list 3";
    shows(&cut(2657), 3, &[place]);
    let longer = [&file[..], &[0; 3]].concat();
    shows(&longer, 3, &["from byte 2658 on, bytes behind the last part: 3"]);
}

#[test]
fn refusal_4() {
    shows(&changed(22, |byte| byte | 0x80), 4, &["list 1, weight at bytes 22 to 25: -1.5"]);
    shows(&with(22, &0x8000_0000_u32.to_be_bytes()), 4, &["list 1, weight at bytes 22 to 25: -0"]);
    let count = "list 1, document count at bytes 26 to 28: 1048, the file has 1000";
    let mut file = with_entry(1, |entry| entry.count = 1048);
    shows(&file, 4, &[count]);
    file[22..26].fill(0xff);
    shows(&file, 4, &["list 1, weight at bytes 22 to 25: NaN", count]);
}

#[test]
fn refusal_5() {
    let list = &layout().lists[2];
    let entry = list.skips.start + list.entry.skip_entry_bytes();
    let place = format!("list 2, skip entry 1, width at byte {}: 0x24", entry + 4);
    shows(&changed(entry + 4, |byte| byte | 0x20), 5, &[&place]);
    let place = format!("list 2, skip entry 1, frequency width at byte {}: 33", entry + 5);
    shows(&changed(entry + 5, |_| 33), 5, &[&place]);
    let file = with_entry(2, |entry| {
        entry.skip_length -= 1;
        entry.postings_length += 1;
    });
    shows(&file, 5, &["list 2, skip length at bytes 41 to 44: 15, 301 documents have 16"]);
}

#[test]
fn refusal_6() {
    let lists = layout().lists;
    let frequency_width = lists[1].skips.start + 5;
    let (at, end) = (lists[1].postings.start, lists[1].postings.end);
    let place =
        format!("list 1, block 0 from byte {at} on: 560 bytes, the postings end at byte {end}");
    shows(&changed(frequency_width, |_| 31), 6, &[&place]);
    let tail = &lists[3].postings;
    let cut = "cut off at the end of the postings";
    let place = format!("list 3, frequency 61 of its tail at byte {}: {cut}", tail.end - 1);
    shows(&changed(tail.end - 1, |_| 1), 6, &[&place]);
    let at = tail.start + 2;
    let place = format!("list 3, document 2 of its tail at byte {at}: over 5 bytes");
    shows(&with(at, &[0; 5]), 6, &[&place]);
    let place = format!("list 3, document 2 of its tail at byte {at}: over 4,294,967,295");
    shows(&with(at, &[0, 0, 0, 0, 0x90]), 6, &[&place]);
    let place = format!("list 3, from byte {} on, bytes behind its tail: 2", tail.end - 2);
    shows(&with_entry(3, |entry| entry.count -= 1), 6, &[&place]);
}

#[test]
fn refusal_7() {
    let lists = layout().lists;
    let entry = lists[0].skips.start + 3 * 8;
    let file = changed(entry, |byte| byte ^ 1);
    assert_eq!(NoteFile::check(&file).err(), Some(Refusal::Documents));
    let place = &places(&file)[0];
    assert!(place.starts_with("list 0, block 3: documents at byte "), "{place}");
    assert!(place.ends_with(&format!("skip entry at byte {entry}")), "{place}");
    let tail = lists[3].postings.start;
    let place = format!("list 3, document 5 of its tail at byte {}", tail + 5);
    shows(&changed(tail + 5, |_| 0x80), 7, &[&place]);
}

#[test]
fn refusal_8() {
    let (file, lists) = (sample::other_form(), layout().lists);
    let width = usize::from(file[lists[2].skips.start + 4]);
    let at = lists[2].postings.start + 16 * width;
    let place = format!("list 2, block 0: frequencies at byte {at}");
    shows(&with(at, &[0]), 8, &[&place]);
    let tail = lists[3].postings.end - lists[3].entry.tail();
    let place = format!("list 3, frequency 7 of its tail at byte {}", tail + 7);
    shows(&with(tail + 7, &[0x80]), 8, &[&place]);
}

#[test]
fn refusal_9() {
    let list = &layout().lists[1];
    let code = list.skips.start + 2 * 12 + 11;
    let place = "list 1, block 2: a score above a bound, skip entry at byte";
    let place = format!("{place} {}", list.skips.start + 2 * 12);
    shows(&changed(code, |_| 1), 9, &[&place]);
}

/// Every fault has a place, and none is looked for outside of the file.
#[test]
fn every_prefix() {
    let file = sample::other_form();
    assert!((0..file.len()).all(|length| !places(&file[..length]).is_empty()));
}

/// A bit of a list's skip entries or postings shows in that list, if at all.
#[test]
fn every_turned_bit() {
    let (mut file, layout) = (sample::other_form(), layout());
    for bit in 0..8 * layout.end {
        file[bit / 8] ^= 1 << (bit % 8);
        let places = places(&file);
        assert_eq!(places.is_empty(), NoteFile::check(&file).is_ok());
        let turned = |list: &List| (list.skips.start..list.postings.end).contains(&(bit / 8));
        if let Some(list) = layout.lists.iter().position(turned) {
            assert!(places.iter().all(|place| place.starts_with(&format!("list {list}, "))));
        }
        file[bit / 8] ^= 1 << (bit % 8);
    }
}
