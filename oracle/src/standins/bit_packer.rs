//! `BitPacker4x` with the meaning that the paper gives to it.

const BLOCK_LEN: usize = 128;
const LANES: usize = 4;

pub trait BitPacker: Sized + Clone + Copy {
    const BLOCK_LEN: usize;

    fn new() -> Self;

    fn num_bits(&self, values: &[u32]) -> u8;
    fn num_bits_strictly_sorted(&self, before: Option<u32>, values: &[u32]) -> u8;

    fn compress(&self, values: &[u32], packed: &mut [u8], num_bits: u8) -> usize;
    fn compress_strictly_sorted(
        &self,
        before: Option<u32>,
        values: &[u32],
        packed: &mut [u8],
        num_bits: u8,
    ) -> usize;

    fn decompress(&self, packed: &[u8], values: &mut [u32], num_bits: u8) -> usize;
    fn decompress_sorted(
        &self,
        before: u32,
        packed: &[u8],
        values: &mut [u32],
        num_bits: u8,
    ) -> usize;
    fn decompress_strictly_sorted(
        &self,
        before: Option<u32>,
        packed: &[u8],
        values: &mut [u32],
        num_bits: u8,
    ) -> usize;
}

#[derive(Clone, Copy)]
pub struct BitPacker4x;

fn packed_size(num_bits: u8) -> usize {
    usize::from(num_bits) * BLOCK_LEN / 8
}

fn mask(num_bits: u8) -> u64 {
    (1u64 << num_bits) - 1
}

/// Where word `w` of lane `n` stands.
fn word_place(w: usize, n: usize) -> usize {
    16 * w + 4 * n
}

/// Word `w` of every lane.
fn words(packed: &[u8], w: usize) -> [u32; LANES] {
    let bytes = &packed[word_place(w, 0)..word_place(w + 1, 0)];
    std::array::from_fn(|n| {
        u32::from_le_bytes([bytes[4 * n], bytes[4 * n + 1], bytes[4 * n + 2], bytes[4 * n + 3]])
    })
}

/// Row by row, a value of each lane: they stand at the same bits of words side by side.
fn unpack_rows(packed: &[u8], values: &mut [u32], num_bits: u8) {
    let width = usize::from(num_bits);
    let kept = mask(num_bits) as u32;
    for (row, values) in values.chunks_exact_mut(LANES).enumerate() {
        let (word, shift) = (row * width / 32, row * width % 32);
        let mut found = words(packed, word).map(|low| low >> shift);
        if shift + width > 32 {
            let above = words(packed, word + 1);
            found = std::array::from_fn(|n| found[n] | above[n] << (32 - shift));
        }
        values.copy_from_slice(&found.map(|value| value & kept));
    }
}

fn pack_lane(values: &[u32], lane: usize, packed: &mut [u8], num_bits: u8) {
    let (mut queue, mut held, mut word) = (0u64, 0u8, 0usize);
    for &value in values.iter().skip(lane).step_by(LANES) {
        queue |= (u64::from(value) & mask(num_bits)) << held;
        held += num_bits;
        if held >= 32 {
            let at = word_place(word, lane);
            packed[at..at + 4].copy_from_slice(&(queue as u32).to_le_bytes());
            queue >>= 32;
            held -= 32;
            word += 1;
        }
    }
}

/// Each value as its distance to the one before it, less one.
fn strict_deltas(before: Option<u32>, values: &[u32]) -> Vec<u32> {
    let mut next = before.map_or(0, |before| before.wrapping_add(1));
    let delta = |&value: &u32| {
        let delta = value.wrapping_sub(next);
        next = value.wrapping_add(1);
        delta
    };
    values.iter().map(delta).collect()
}

impl BitPacker for BitPacker4x {
    const BLOCK_LEN: usize = BLOCK_LEN;

    fn new() -> Self {
        BitPacker4x
    }

    fn num_bits(&self, values: &[u32]) -> u8 {
        let all = values.iter().fold(0, |all, value| all | value);
        (32 - all.leading_zeros()) as u8
    }

    fn num_bits_strictly_sorted(&self, before: Option<u32>, values: &[u32]) -> u8 {
        self.num_bits(&strict_deltas(before, values))
    }

    fn compress(&self, values: &[u32], packed: &mut [u8], num_bits: u8) -> usize {
        for lane in 0..LANES {
            pack_lane(&values[..BLOCK_LEN], lane, packed, num_bits);
        }
        packed_size(num_bits)
    }

    fn compress_strictly_sorted(
        &self,
        before: Option<u32>,
        values: &[u32],
        packed: &mut [u8],
        num_bits: u8,
    ) -> usize {
        self.compress(&strict_deltas(before, values), packed, num_bits)
    }

    fn decompress(&self, packed: &[u8], values: &mut [u32], num_bits: u8) -> usize {
        match num_bits {
            // No word holds anything, and the last list may end here.
            0 => values[..BLOCK_LEN].fill(0),
            _ => unpack_rows(packed, &mut values[..BLOCK_LEN], num_bits),
        }
        packed_size(num_bits)
    }

    fn decompress_sorted(
        &self,
        before: u32,
        packed: &[u8],
        values: &mut [u32],
        num_bits: u8,
    ) -> usize {
        let read = self.decompress(packed, values, num_bits);
        let mut last = before;
        for value in values.iter_mut() {
            last = last.wrapping_add(*value);
            *value = last;
        }
        read
    }

    /// With nothing before it the first value follows -1.
    fn decompress_strictly_sorted(
        &self,
        before: Option<u32>,
        packed: &[u8],
        values: &mut [u32],
        num_bits: u8,
    ) -> usize {
        let read = self.decompress(packed, values, num_bits);
        let mut next = before.map_or(0, |before| before.wrapping_add(1));
        for value in values.iter_mut() {
            *value = value.wrapping_add(next);
            next = value.wrapping_add(1);
        }
        read
    }
}
