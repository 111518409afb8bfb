//! A list's bytes by the published encoders: packed blocks, VInts and skip entries one by one. The
//! published files have no writer that puts them together, and none that picks a block's pair.

use crate::contents::{Contents, List};
use crate::postings::compression::{BlockEncoder, VIntEncoder, COMPRESSION_BLOCK_SIZE};
use crate::postings::SkipSerializer;
use crate::writer::{best, blocks};

/// Skip bytes and postings.
pub fn parts(contents: &Contents, list: &List) -> (Vec<u8>, Vec<u8>) {
    let (mut encoder, mut skips) = (BlockEncoder::new(), SkipSerializer::new());
    let mut postings = Vec::new();
    for (block, before) in blocks(list) {
        let before = before.unwrap_or(0);
        if block.docs.len() < COMPRESSION_BLOCK_SIZE {
            postings.extend_from_slice(encoder.compress_vint_sorted(block.docs, before));
            postings.extend_from_slice(encoder.compress_vint_unsorted(block.freqs));
            continue;
        }
        let (width, bytes) = encoder.compress_block_sorted(block.docs, before);
        postings.extend_from_slice(bytes);
        skips.write_doc(block.docs[COMPRESSION_BLOCK_SIZE - 1], width);
        let (width, bytes) = encoder.compress_block_unsorted(block.freqs, true);
        postings.extend_from_slice(bytes);
        skips.write_term_freq(width);
        let best = best(contents, &block);
        skips.write_blockwand_max(contents.norm(block.docs[best]), block.freqs[best]);
    }
    (skips.data().to_vec(), postings)
}
