//! Where a file's parts stand. Plain Rust beside the archive and outside of what is proved: it
//! judges nothing, so that a file is accepted or refused by the archive alone.

use std::ops::Range;

/// Bytes of the header.
pub const HEADER_BYTES: usize = 9;
/// Bytes of a list's entry.
pub const ENTRY_BYTES: usize = 13;
/// Postings of a full block.
pub const BLOCK: usize = 128;
/// The length to which the widest fields of 16 lists can add up.
pub const MOST_BYTES: u64 = 9 + 16 * 13 + 1_048_576 + 16 * ((1 << 24) - 1 + (1 << 26) - 1);

/// The header's fields as they stand.
#[derive(Clone, Copy, Debug, PartialEq)]
pub struct Header {
    /// Only 1 is accepted.
    pub version: u8,
    /// One norm code for all documents, not a byte for each.
    pub constant_norm: bool,
    /// How many lists there are.
    pub lists: usize,
    /// The constant code.
    pub norm_code: u8,
    /// Documents are numbered from 0 up to this.
    pub documents: u32,
    /// Must be clear.
    pub spare: bool,
    /// The average field length.
    pub average: f32,
}

impl Header {
    /// None for a file under 9 bytes.
    pub fn read(file: &[u8]) -> Option<Header> {
        let bytes = file.get(..HEADER_BYTES)?;
        let front = bytes[..5].iter().fold(0, |front, &byte| front << 8 | u64::from(byte));
        Some(Header {
            version: (front >> 36) as u8,
            constant_norm: front >> 35 & 1 == 1,
            lists: (front >> 30 & 0x1f) as usize,
            norm_code: (front >> 22) as u8,
            documents: (front >> 1 & 0x1f_ffff) as u32,
            spare: front & 1 == 1,
            average: f32::from_be_bytes([bytes[5], bytes[6], bytes[7], bytes[8]]),
        })
    }

    /// The header as it stands in a file.
    pub fn bytes(&self) -> Vec<u8> {
        let front = u64::from(self.version) << 36
            | u64::from(self.constant_norm) << 35
            | (self.lists as u64) << 30
            | u64::from(self.norm_code) << 22
            | u64::from(self.documents) << 1
            | u64::from(self.spare);
        let mut bytes = front.to_be_bytes()[3..].to_vec();
        bytes.extend(self.average.to_be_bytes());
        bytes
    }
}

/// A list's entry as it stands.
#[derive(Clone, Copy, Debug, PartialEq)]
pub struct Entry {
    /// What each of the list's scores is multiplied with.
    pub weight: f32,
    /// How many documents the list has.
    pub count: usize,
    /// Skip entries of 12 bytes, not of 8.
    pub positions: bool,
    /// Bytes of the skip entries.
    pub skip_length: usize,
    /// Bytes of the postings.
    pub postings_length: usize,
}

impl Entry {
    fn read(bytes: &[u8]) -> Entry {
        let back = bytes[4..].iter().fold(0, |back, &byte| back << 8 | u128::from(byte));
        Entry {
            weight: f32::from_be_bytes([bytes[0], bytes[1], bytes[2], bytes[3]]),
            count: (back >> 51) as usize,
            positions: back >> 50 & 1 == 1,
            skip_length: (back >> 26 & 0xff_ffff) as usize,
            postings_length: (back & 0x3ff_ffff) as usize,
        }
    }

    /// The entry as it stands in a file.
    pub fn bytes(&self) -> Vec<u8> {
        let back = (self.count as u128) << 51
            | u128::from(self.positions) << 50
            | (self.skip_length as u128) << 26
            | self.postings_length as u128;
        let mut bytes = self.weight.to_be_bytes().to_vec();
        bytes.extend(&back.to_be_bytes()[7..]);
        bytes
    }

    /// Blocks of 128 postings, each with a skip entry.
    pub fn full_blocks(&self) -> usize {
        self.count / BLOCK
    }

    /// Postings behind the full blocks.
    pub fn tail(&self) -> usize {
        self.count % BLOCK
    }

    /// Bytes of one skip entry.
    pub fn skip_entry_bytes(&self) -> usize {
        if self.positions {
            12
        } else {
            8
        }
    }
}

/// A list: its entry and where its bytes stand.
#[derive(Clone, Debug)]
pub struct List {
    /// The entry.
    pub entry: Entry,
    /// Where the entry begins.
    pub entry_at: usize,
    /// The skip entries.
    pub skips: Range<usize>,
    /// The postings.
    pub postings: Range<usize>,
}

/// All parts of a file; of a refused one they may reach past its end.
#[derive(Clone, Debug)]
pub struct Layout {
    /// The header.
    pub header: Header,
    /// The norm bytes; none if the norm is constant.
    pub norms: Range<usize>,
    /// The lists.
    pub lists: Vec<List>,
    /// Where the last part ends.
    pub end: usize,
}

impl Layout {
    /// None if the file ends inside its header or its entries.
    pub fn read(file: &[u8]) -> Option<Layout> {
        let header = Header::read(file)?;
        let norms_at = HEADER_BYTES + header.lists * ENTRY_BYTES;
        let entries = file.get(HEADER_BYTES..norms_at)?;
        let norm_bytes = if header.constant_norm { 0 } else { header.documents as usize };
        let norms = norms_at..norms_at + norm_bytes;
        let mut end = norms.end;
        let mut take = |length| {
            end += length;
            end - length..end
        };
        let list = |(number, bytes)| {
            let entry = Entry::read(bytes);
            List {
                entry,
                entry_at: HEADER_BYTES + number * ENTRY_BYTES,
                skips: take(entry.skip_length),
                postings: take(entry.postings_length),
            }
        };
        let lists = entries.chunks_exact(ENTRY_BYTES).enumerate().map(list).collect();
        Some(Layout { header, norms, lists, end })
    }
}

#[cfg(test)]
mod tests {
    use super::*;

    #[test]
    fn header_goes_both_ways() {
        let bytes = [0x18, 0x80, 0x40, 0x00, 0x08, 0x41, 0x00, 0x00, 0x00];
        let header = Header::read(&bytes).unwrap();
        assert_eq!((header.version, header.constant_norm, header.lists), (1, true, 2));
        assert_eq!((header.norm_code, header.documents, header.spare), (1, 4, false));
        assert_eq!(header.average, 8.0);
        assert_eq!(header.bytes(), bytes);
        let full = [0xff; HEADER_BYTES];
        assert_eq!(Header::read(&full).unwrap().bytes(), full);
        assert_eq!(Header::read(&bytes[..8]), None);
    }

    #[test]
    fn entry_goes_both_ways() {
        let entry = Entry {
            weight: 2.5,
            count: (1 << 21) - 2,
            positions: true,
            skip_length: (1 << 24) - 3,
            postings_length: (1 << 26) - 4,
        };
        assert_eq!(Entry::read(&entry.bytes()), entry);
        assert_eq!(entry.bytes().len(), ENTRY_BYTES);
    }

    #[test]
    fn parts_follow_each_other() {
        let file = crate::sample::other_form();
        let layout = Layout::read(&file).unwrap();
        let mut at = layout.norms.end;
        for list in &layout.lists {
            assert_eq!(list.skips.start, at);
            assert_eq!(list.postings.start, list.skips.end);
            at = list.postings.end;
        }
        assert_eq!((layout.end, at), (file.len(), file.len()));
        assert!(Layout::read(&file[..layout.norms.start - 1]).is_none());
    }
}
