// Document 01's rules for coefficients, element by element over whole numbers.
//
// The Rust has no limits: where a coefficient leaves its range it wraps and goes on, so it cannot say
// where refusal 8 comes, nor 1 to 4. This model can, with i64 sums that cannot wrap here.
use oracle_plain::bitstream::{bits_read, bits_written, BitReader};

use crate::{coder::{Coder, Given, Outcome, Rust}, codewords::Book::{self, C, E}, MOST_BYTES};

/// A coefficient lives in -MOST ..= MOST.
pub const MOST: i64 = (1 << 29) - 1;
pub const MOST_BLOCKS: usize = 32;
/// Bytes that are enough for the code of any block.
pub const MOST_BLOCK: usize = 8 * 63;

pub fn in_range(value: i64) -> bool {
    (-MOST..=MOST).contains(&value)
}

/// The size bound: the most bytes that the code of a list may have, 8 x blocks x (2b + 5), where b is the least
/// number with every magnitude below 2^b.
pub fn most_code(list: &[i32]) -> usize {
    let b = list.iter().map(|value| 32 - value.unsigned_abs().leading_zeros()).max().unwrap_or(0);
    list.len() / 8 * (2 * b as usize + 5)
}

pub struct Coefficients;

impl Coder<1> for Coefficients {
    type Value = i32;
    type Known = usize;

    fn decode_arguments([payload]: [&[u8]; 1], [blocks]: [usize; 1], length: usize) -> Result<usize, u32> {
        if blocks > MOST_BLOCKS || payload.len() > MOST_BYTES {
            Err(1)
        } else if length != 64 * blocks {
            Err(2)
        } else {
            Ok(blocks)
        }
    }

    fn encode_arguments(list: &[i32], shape: [usize; 1]) -> Result<usize, u32> {
        let blocks = Self::decode_arguments([&[]], shape, list.len())?;
        if list.iter().all(|&value| in_range(value.into())) { Ok(blocks) } else { Err(4) }
    }

    fn read([payload]: [&[u8]; 1], &blocks: &usize, exact: &mut Vec<i64>) -> Outcome<1> {
        decode(payload, blocks, exact).map(|bits| [bits]).map_err(|number| (0, number))
    }

    fn parts(blocks: &usize) -> [usize; 1] {
        [64 * blocks]
    }

    fn bounds(list: &[i32], blocks: &usize) -> ([usize; 1], usize) {
        ([8 * most_code(list)], MOST_BLOCK * blocks)
    }

    fn rust_decode(rust: &Rust, [payload]: [&[u8]; 1], &blocks: &usize) -> Given<i32> {
        (rust.decode)(payload, blocks)
    }

    fn plain_bits(_: [&[u8]; 1], &blocks: &usize, given: &Given<i32>) -> Option<Outcome<1>> {
        // for no blocks there is no reader that could note its bits
        let bits = if blocks == 0 { 0 } else { bits_read() };
        Some(given.as_ref().map(|_| [bits]).map_err(|&number| (0, number)))
    }

    fn rust_encode(rust: &Rust, list: &[i32], &blocks: &usize) -> ([Vec<u8>; 1], [usize; 1]) {
        ([(rust.encode)(list, blocks)], [bits_written()])
    }
}

/// Reads a payload into a list of 64 x blocks whole numbers and tells the bits read, or refusal 5 to 8. Where
/// it is 8, the one number out of range stands in the list at its place.
pub fn decode(payload: &[u8], blocks: usize, list: &mut Vec<i64>) -> Result<usize, u32> {
    let total = 64 * blocks;
    list.clear();
    list.resize(total, 0);
    if blocks == 0 {
        return Ok(0);
    }
    let mut bits = BitReader::new(payload);

    let mut dc = unsigned_to_signed(E(5).read(&mut bits)?);
    keep(list, 0, dc)?;
    let mut last_difference = 3;
    for place in 1..blocks {
        let mut difference = unsigned_to_signed(of_difference(last_difference).read(&mut bits)?);
        if last_difference < 0 {
            difference = -difference;
        }
        dc += difference;
        keep(list, place, dc)?;
        last_difference = difference;
    }

    let (mut place, mut last_run, mut last_symbol) = (blocks as u64, 4, 1);
    while place < total as u64 && !bits.end_of_data() {
        last_run = of_run(last_run).read(&mut bits)?;
        place += u64::from(last_run);
        if place >= total as u64 {
            return Err(7);
        }
        last_symbol = of_level(last_symbol).read(&mut bits)?;
        let level = i64::from(last_symbol) + 1;
        let negative = bits.read_bit().map_err(|_| 5u32)? == 1;
        keep(list, place as usize, if negative { -level } else { level })?;
        place += 1;
    }
    Ok(bits.bit_pos())
}

fn keep(list: &mut [i64], place: usize, value: i64) -> Result<(), u32> {
    list[place] = value;
    if in_range(value) { Ok(()) } else { Err(8) }
}

/// The inverse of S.
fn unsigned_to_signed(symbol: u32) -> i64 {
    let half = i64::from(symbol / 2);
    if symbol % 2 == 0 { half } else { -half - 1 }
}

fn of_difference(last: i64) -> Book {
    match last.abs() {
        0 => E(0),
        1 => E(1),
        2 => C(1, 2, 3),
        _ => E(3),
    }
}

fn of_run(last: u32) -> Book {
    match last {
        0..=1 => C(2, 0, 1),
        2..=3 => C(1, 0, 1),
        4 => E(0),
        5..=8 => C(1, 1, 2),
        9..=14 => E(1),
        _ => E(2),
    }
}

fn of_level(last: u32) -> Book {
    match last {
        0 => C(2, 0, 2),
        1 => C(1, 0, 1),
        2 => C(2, 0, 1),
        3 => E(0),
        4..=7 => E(1),
        _ => E(2),
    }
}
