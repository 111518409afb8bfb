//! Unpacking alone, width by width: the archive's function beside Rust that is written out for each
//! width.

use std::hint::black_box;

use oracle::random::Random;

use crate::clock;

const WIDTHS: usize = 33;

/// Blocks that lie in the first cache together, and how often each is unpacked in a turn.
const BLOCKS: usize = 16;
const TIMES: usize = 200;

/// Of the widths from 1 to this, drawn at random, one row.
const MIXED: usize = 16;

type Values = [u32; 128];

/// A lent slice, as the archive's functions hand it on.
#[repr(C)]
struct Lent {
    bytes: *const u8,
    len: usize,
}

extern "C" {
    /// Not one of the archive's C functions: `bench/run` makes its name known to the linker.
    #[link_name = "unpacking::unpack"]
    fn archive_unpack(bytes: *const Lent, at: usize, width: u32, values: *mut Values);
}

impl Lent {
    fn of(bytes: &[u8]) -> Lent {
        assert_eq!(bytes.len(), 512 * BLOCKS);
        Lent { bytes: bytes.as_ptr(), len: bytes.len() }
    }
}

#[inline(always)]
fn words(bytes: &[u8], at: usize) -> [u32; 4] {
    std::array::from_fn(|lane| {
        let at = at + 4 * lane;
        u32::from_le_bytes(bytes[at..at + 4].try_into().expect("four bytes"))
    })
}

/// Row number R of width W: its place is known when this is compiled.
#[inline(always)]
fn row<const W: usize, const R: usize>(bytes: &[u8], values: &mut Values) {
    let (word, shift) = (R * W / 32, (R * W % 32) as u32);
    let mask = ((1u64 << W) - 1) as u32;
    let low = words(bytes, 16 * word);
    if shift as usize + W <= 32 {
        for lane in 0..4 {
            values[4 * R + lane] = low[lane] >> shift & mask;
        }
    } else {
        let high = words(bytes, 16 * word + 16);
        for lane in 0..4 {
            values[4 * R + lane] = (low[lane] >> shift | high[lane] << (32 - shift)) & mask;
        }
    }
}

macro_rules! rows {
    ($width:ident, $bytes:ident, $values:ident: $($row:literal)*) => {
        $(row::<$width, $row>($bytes, $values);)*
    };
}

#[inline(never)]
fn unrolled<const W: usize>(bytes: &[u8], values: &mut Values) {
    if W == 0 {
        *values = [0; 128];
        return;
    }
    let bytes = &bytes[..16 * W];
    rows!(W, bytes, values: 0 1 2 3 4 5 6 7 8 9 10 11 12 13 14 15 16 17 18 19 20 21 22 23 24 25 26
        27 28 29 30 31);
}

macro_rules! each_width {
    ($($width:literal)*) => { [$(unrolled::<$width>),*] };
}

const UNROLLED: [fn(&[u8], &mut Values); WIDTHS] = each_width!(0 1 2 3 4 5 6 7 8 9 10 11 12 13 14
    15 16 17 18 19 20 21 22 23 24 25 26 27 28 29 30 31 32);

/// Nanoseconds of a block, the least so far; no width: mixed ones.
pub struct UnpackRow {
    pub width: Option<usize>,
    pub ours: f64,
    pub rust: f64,
}

impl UnpackRow {
    pub fn name(&self) -> String {
        self.width.map_or(format!("1 to {MIXED}, mixed"), |width| format!("width {width}"))
    }
}

pub struct Blocks {
    bytes: Vec<u8>,
    mixed: Vec<usize>,
}

impl Blocks {
    pub fn new() -> Blocks {
        let mut random = Random::new(1);
        let bytes = (0..BLOCKS * 512).map(|_| random.below(256) as u8).collect();
        let mixed = (0..BLOCKS * TIMES).map(|_| 1 + random.below(MIXED as u64) as usize).collect();
        Blocks { bytes, mixed }
    }

    /// Each block at each width, unpacked to the same values.
    pub fn same_values(&self) -> Result<(), String> {
        let (mut ours, mut rusts, lent) = ([1; 128], [2; 128], Lent::of(&self.bytes));
        for (width, unrolled) in UNROLLED.iter().enumerate() {
            for at in (0..BLOCKS).map(|block| 512 * block) {
                // Sound: a block has at most 512 bytes, and the values are 128.
                unsafe { archive_unpack(&lent, at, width as u32, &mut ours) };
                unrolled(&self.bytes[at..], &mut rusts);
                if ours != rusts {
                    return Err(format!("a block of width {width} is unpacked differently"));
                }
            }
        }
        Ok(())
    }

    fn least(&self, time: &mut f64, width: Option<usize>, mut unpack: impl FnMut(usize, usize)) {
        let start = clock::now();
        for (number, mixed) in self.mixed.iter().enumerate() {
            unpack(512 * (number % BLOCKS), width.unwrap_or(*mixed));
        }
        *time = time.min((clock::now() - start).as_nanos() as f64 / self.mixed.len() as f64);
    }

    /// Where a block's values lie beside its bytes, in a page of memory, can cost a third: each round
    /// has another place for them.
    pub fn time(&self, row: &mut UnpackRow, round: usize) {
        let mut page = vec![[0; 16]; 64 + 8];
        let values: &mut Values = page[round % 64..round % 64 + 8]
            .as_flattened_mut()
            .try_into()
            .expect("eight rows of 16 are 128");
        let lent = Lent::of(&self.bytes);
        self.least(&mut row.ours, row.width, |at, width| {
            // Sound: as above.
            unsafe { archive_unpack(&lent, at, width as u32, values) };
            black_box(&*values);
        });
        self.least(&mut row.rust, row.width, |at, width| {
            UNROLLED[width](&self.bytes[at..], values);
            black_box(&*values);
        });
    }
}

/// A row for each width, and one for mixed widths.
pub fn rows() -> Vec<UnpackRow> {
    let widths = (0..WIDTHS).map(Some).chain([None]);
    widths.map(|width| UnpackRow { width, ours: f64::MAX, rust: f64::MAX }).collect()
}
