//! Where a refused file shows its fault. Outside of what is proved: the archive gives the number,
//! this finds a place that fits it. Header, entries and skip entries are read once more; for what
//! is packed, the archive itself is asked about smaller files, cut out of the refused one.

use crate::archive;
use crate::layout::{Entry, Header, Layout, List, BLOCK, ENTRY_BYTES, HEADER_BYTES};
use crate::Refusal;

/// The places, in words; bytes, lists, blocks and entries are counted from 0. Empty for a file that
/// is accepted, and where no place was found.
pub fn places(file: &[u8]) -> Vec<String> {
    let Some(refusal) = Refusal::from_number(archive::check(file)) else {
        return Vec::new();
    };
    let Some(header) = Header::read(file) else {
        return vec![format!("the file ends after {} bytes, inside the header", file.len())];
    };
    match refusal {
        Refusal::Header => header_places(&header),
        Refusal::Average => vec![format!("bytes 5 to 8, average: {}", f64::from(header.average))],
        _ => match Layout::read(file) {
            None => vec![cut_entry(file, &header)],
            Some(layout) => part_places(file, &layout, refusal),
        },
    }
}

fn header_places(header: &Header) -> Vec<String> {
    let version = format!("byte 0, upper four bits, version: {}", header.version);
    let lists = format!("bytes 0 and 1, number of lists: {}", header.lists);
    let code = format!("bytes 1 and 2, norm code: {} beside norm bytes", header.norm_code);
    let documents = format!("bytes 2 to 4, number of documents: {}", header.documents);
    let spare = "byte 4, lowest bit, spare: 1".to_string();
    let tests = [
        (header.version != 1, version),
        (header.lists > 16, lists),
        (!header.constant_norm && header.norm_code != 0, code),
        (header.documents > 1_048_576, documents),
        (header.spare, spare),
    ];
    tests.into_iter().filter(|test| test.0).map(|test| test.1).collect()
}

fn cut_entry(file: &[u8], header: &Header) -> String {
    let whole = (file.len() - HEADER_BYTES) / ENTRY_BYTES;
    let (length, lists) = (file.len(), header.lists);
    format!("the file ends after {length} bytes, inside the entry of list {whole} of {lists}")
}

fn part_places(file: &[u8], layout: &Layout, refusal: Refusal) -> Vec<String> {
    match refusal {
        Refusal::Length => length_place(file, layout).into_iter().collect(),
        Refusal::Entry => entry_places(layout),
        _ => list_place(file, layout, refusal).into_iter().collect(),
    }
}

fn length_place(file: &[u8], layout: &Layout) -> Option<String> {
    let (length, end) = (file.len(), layout.end);
    if length > end {
        return Some(format!("from byte {end} on, bytes behind the last part: {}", length - end));
    }
    let norms = [("the norm bytes".to_string(), layout.norms.end)];
    let lists = layout.lists.iter().enumerate().flat_map(|(number, list)| {
        let skips = format!("the skip entries of list {number}");
        let postings = format!("the postings of list {number}");
        [(skips, list.skips.end), (postings, list.postings.end)]
    });
    let (part, _) = norms.into_iter().chain(lists).find(|part| length < part.1)?;
    Some(format!("the file ends after {length} bytes of {end}, inside {part}"))
}

fn entry_places(layout: &Layout) -> Vec<String> {
    let mut places = Vec::new();
    for (number, list) in layout.lists.iter().enumerate() {
        let (Entry { weight, count, .. }, at) = (list.entry, list.entry_at);
        let weight = f64::from(weight);
        if weight.is_sign_negative() || weight.is_nan() || weight > 1000.0 {
            places.push(format!("list {number}, weight at bytes {at} to {}: {weight}", at + 3));
        }
        if count > layout.header.documents as usize {
            let (from, to, documents) = (at + 4, at + 6, layout.header.documents);
            places.push(format!(
                "list {number}, document count at bytes {from} to {to}: {count}, the file has \
                 {documents}"
            ));
        }
    }
    places
}

/// The first list that the archive refuses so when it stands alone, and the place in it.
fn list_place(file: &[u8], layout: &Layout, refusal: Refusal) -> Option<String> {
    let refused = |list: &&List| {
        let cut = Cut { file, layout, list };
        cut.refused(list.entry, &file[list.postings.clone()], refusal)
    };
    let list = layout.lists.iter().find(refused)?;
    let number = (list.entry_at - HEADER_BYTES) / ENTRY_BYTES;
    let cut = Cut { file, layout, list };
    let place = match refusal {
        Refusal::Skips => cut.skip_place(),
        Refusal::Postings => cut.postings_place(),
        _ => cut.block_place(refusal).or_else(|| cut.tail_place(refusal)),
    };
    Some(match place {
        Some(place) => format!("list {number}, {place}"),
        None => format!("list {number}"),
    })
}

/// One list of a file, to be cut smaller.
struct Cut<'a> {
    file: &'a [u8],
    layout: &'a Layout,
    list: &'a List,
}

impl Cut<'_> {
    /// Whether the archive refuses the file of this list alone, with so many of its documents and
    /// with these postings.
    fn refused(&self, entry: Entry, postings: &[u8], refusal: Refusal) -> bool {
        let mut file = Header { lists: 1, ..self.layout.header }.bytes();
        let skips = &self.file[self.list.skips.clone()][..entry.skip_length];
        file.extend(Entry { postings_length: postings.len(), ..entry }.bytes());
        file.extend(&self.file[self.layout.norms.clone()]);
        file.extend(skips);
        file.extend(postings);
        archive::check(&file) == refusal.number()
    }

    fn skip_entry_at(&self, block: usize) -> usize {
        self.list.skips.start + block * self.list.entry.skip_entry_bytes()
    }

    /// Width of documents and of frequencies in a full block.
    fn widths(&self, block: usize) -> (usize, usize) {
        let at = self.skip_entry_at(block) + 4;
        (usize::from(self.file[at] & 31), usize::from(self.file[at + 1]))
    }

    /// Where each full block begins, and last where the tail does.
    fn blocks_at(&self) -> Vec<usize> {
        let mut at = vec![self.list.postings.start];
        for block in 0..self.list.entry.full_blocks() {
            let widths = self.widths(block);
            at.push(at[block] + 16 * (widths.0 + widths.1));
        }
        at
    }

    fn skip_place(&self) -> Option<String> {
        let Entry { count, skip_length, .. } = self.list.entry;
        let right = self.list.entry.full_blocks() * self.list.entry.skip_entry_bytes();
        if skip_length != right {
            let (from, to) = (self.list.entry_at + 6, self.list.entry_at + 9);
            return Some(format!(
                "skip length at bytes {from} to {to}: {skip_length}, {count} documents have {right}"
            ));
        }
        (0..self.list.entry.full_blocks()).find_map(|block| {
            let at = self.skip_entry_at(block) + 4;
            let (width, frequency_width) = (self.file[at], self.file[at + 1]);
            if width & 0b1010_0000 != 0 {
                return Some(format!("skip entry {block}, width at byte {at}: {width:#04x}"));
            }
            (frequency_width > 32).then(|| {
                let at = at + 1;
                format!("skip entry {block}, frequency width at byte {at}: {frequency_width}")
            })
        })
    }

    fn postings_place(&self) -> Option<String> {
        let (blocks, end) = (self.blocks_at(), self.list.postings.end);
        if let Some(block) = blocks.windows(2).position(|pair| pair[1] > end) {
            let (at, length) = (blocks[block], blocks[block + 1] - blocks[block]);
            return Some(format!(
                "block {block} from byte {at} on: {length} bytes, the postings end at byte {end}"
            ));
        }
        let (numbers, fault) = self.tail_numbers();
        let tail = self.list.entry.tail();
        let at = *numbers.last()?;
        match fault {
            Some(fault) => {
                let place = numbers.len() - 1;
                let row = if place < tail { "document" } else { "frequency" };
                Some(format!("{row} {} of its tail at byte {at}: {fault}", place % tail))
            }
            None => Some(format!("from byte {at} on, bytes behind its tail: {}", end - at)),
        }
    }

    /// Where each number of the tail begins, up to the first that cannot be read, with why; else
    /// up to where the last one ends.
    fn tail_numbers(&self) -> (Vec<usize>, Option<&'static str>) {
        let mut at = self.blocks_at().pop().unwrap_or(self.list.postings.start);
        let mut starts = vec![at];
        for _ in 0..2 * self.list.entry.tail() {
            match vint_length(&self.file[at..self.list.postings.end]) {
                Ok(length) => at += length,
                Err(fault) => return (starts, Some(fault)),
            }
            starts.push(at);
        }
        (starts, None)
    }

    /// The first full block with which the list's beginning is refused so. A longer beginning is
    /// refused with the same number or a lower one, and the whole list with none lower: so the
    /// least beginning is found by halving.
    fn block_place(&self, refusal: Refusal) -> Option<String> {
        let starts = self.blocks_at();
        let blocks = self.list.entry.full_blocks();
        let counts: Vec<usize> = (0..=blocks).collect();
        let least = counts.partition_point(|&count| {
            let skip_length = count * self.list.entry.skip_entry_bytes();
            let entry = Entry { count: count * BLOCK, skip_length, ..self.list.entry };
            !self.refused(entry, &self.file[starts[0]..starts[count]], refusal)
        });
        let block = counts.get(least)?.checked_sub(1)?;
        let (entry, documents) = (self.skip_entry_at(block), starts[block]);
        let frequencies = documents + 16 * self.widths(block).0;
        Some(match refusal {
            Refusal::Documents => {
                format!("block {block}: documents at byte {documents}, skip entry at byte {entry}")
            }
            Refusal::Frequencies => format!("block {block}: frequencies at byte {frequencies}"),
            _ => format!("block {block}: a score above a bound, skip entry at byte {entry}"),
        })
    }

    /// The first posting of the tail with which the list's beginning is refused so.
    fn tail_place(&self, refusal: Refusal) -> Option<String> {
        let (numbers, _) = self.tail_numbers();
        let tail = self.list.entry.tail();
        let counts: Vec<usize> = (0..=tail).collect();
        let least = counts.partition_point(|&count| {
            let entry = Entry { count: self.list.entry.count - tail + count, ..self.list.entry };
            let documents = &self.file[self.list.postings.start..numbers[count]];
            let frequencies = &self.file[numbers[tail]..numbers[tail + count]];
            !self.refused(entry, &[documents, frequencies].concat(), refusal)
        });
        let posting = counts.get(least)?.checked_sub(1)?;
        let (document, frequency) = (numbers[posting], numbers[tail + posting]);
        Some(match refusal {
            Refusal::Documents => format!("document {posting} of its tail at byte {document}"),
            Refusal::Frequencies => format!("frequency {posting} of its tail at byte {frequency}"),
            _ => format!(
                "posting {posting} of its tail: a score above the list's bound, frequency at byte \
                 {frequency}"
            ),
        })
    }
}

/// The bytes of the number in front, or why there is none.
fn vint_length(bytes: &[u8]) -> Result<usize, &'static str> {
    match bytes.iter().take(5).position(|byte| byte & 128 != 0) {
        Some(4) if bytes[4] & 0x70 != 0 => Err("over 4,294,967,295"),
        Some(last) => Ok(last + 1),
        None if bytes.len() < 5 => Err("cut off at the end of the postings"),
        None => Err("over 5 bytes"),
    }
}
