//! Bytes in memory where the published files expect bytes of an index.

use std::io;
use std::sync::Arc;

/// A part of shared bytes, beside their owner as in the published crate, so that a read goes
/// straight to them. The tag names the scorer that reads them.
#[derive(Clone)]
pub struct OwnedBytes {
    part: &'static [u8],
    _owner: Arc<[u8]>,
    tag: u32,
}

impl OwnedBytes {
    pub fn new(bytes: Vec<u8>) -> OwnedBytes {
        let owner: Arc<[u8]> = bytes.into();
        // Sound: the owner is kept beside the part, and nothing writes to the bytes.
        let part = unsafe { std::slice::from_raw_parts(owner.as_ptr(), owner.len()) };
        OwnedBytes { part, _owner: owner, tag: 0 }
    }

    pub fn empty() -> OwnedBytes {
        OwnedBytes::new(Vec::new())
    }

    /// The same bytes for another reader.
    pub fn tagged(&self, tag: u32) -> OwnedBytes {
        OwnedBytes { tag, ..self.clone() }
    }

    pub fn tag(&self) -> u32 {
        self.tag
    }

    pub fn as_slice(&self) -> &[u8] {
        self.part
    }

    pub fn len(&self) -> usize {
        self.part.len()
    }

    pub fn advance(&mut self, length: usize) {
        self.part = &self.part[length..];
    }

    pub fn split(self, length: usize) -> (OwnedBytes, OwnedBytes) {
        let (left, right) = self.part.split_at(length);
        (OwnedBytes { part: left, ..self.clone() }, OwnedBytes { part: right, ..self })
    }
}

#[derive(Clone)]
pub struct FileSlice(OwnedBytes);

impl From<OwnedBytes> for FileSlice {
    fn from(bytes: OwnedBytes) -> FileSlice {
        FileSlice(bytes)
    }
}

impl FileSlice {
    pub fn read_bytes(&self) -> io::Result<OwnedBytes> {
        Ok(self.0.clone())
    }
}

/// Seven bits a byte, low first, the high bit on the last byte.
pub struct VInt;

impl VInt {
    pub fn serialize_u64(mut number: u64, out: &mut Vec<u8>) {
        while number > 127 {
            out.push((number & 127) as u8);
            number >>= 7;
        }
        out.push(number as u8 | 128);
    }

    pub fn deserialize_u64(bytes: &mut OwnedBytes) -> io::Result<u64> {
        let (mut number, mut shift) = (0u64, 0u32);
        while shift < 64 {
            let Some(&byte) = bytes.as_slice().first() else {
                break;
            };
            bytes.advance(1);
            number |= u64::from(byte & 127) << shift;
            if byte & 128 != 0 {
                return Ok(number);
            }
            shift += 7;
        }
        Err(io::Error::from(io::ErrorKind::InvalidData))
    }
}

pub trait HasLen {
    fn len(&self) -> usize;
}
