// Document 01's rules for alpha, element by element over whole numbers.
//
// The Rust has no limits, takes 8-bit samples above 255 and does not say where it stopped reading. This model has
// the limits, the refusals and the bits.
use oracle_plain::bitstream::{bits_written, BitReader};

use crate::{coder::{Coder, Given, Outcome, Rust}, MOST_BYTES};

pub const MOST_SAMPLES: usize = 16_384;
pub const MOST_RUN: usize = 2_048;

/// An alpha kind.
#[derive(Clone, Copy)]
pub struct Kind {
    pub number: usize,
    /// Bits of a sample.
    pub width: u32,
    /// The largest magnitude that has the small form.
    pub limit: u32,
}

pub const KINDS: [Kind; 2] = [Kind { number: 1, width: 8, limit: 8 }, Kind { number: 2, width: 16, limit: 64 }];

impl Kind {
    /// Refusal 13 where the number names none.
    pub fn of(number: usize) -> Result<Kind, u32> {
        KINDS.into_iter().find(|kind| kind.number == number).ok_or(13)
    }

    /// The largest sample.
    pub fn most(self) -> u16 {
        ((1u32 << self.width) - 1) as u16
    }

    /// Bits of a magnitude in the small form.
    pub fn small_width(self) -> u32 {
        self.limit.ilog2()
    }

    /// The size bound: the most bits that the code of so many samples may have.
    pub fn most_code(self, samples: usize) -> usize {
        (self.width as usize + 2) * samples
    }
}

pub struct Alpha;

impl Coder<1> for Alpha {
    type Value = u16;
    /// With the number of samples.
    type Known = (Kind, usize);

    fn decode_arguments([payload]: [&[u8]; 1], [kind]: [usize; 1], length: usize) -> Result<(Kind, usize), u32> {
        let kind = Kind::of(kind)?;
        if length > MOST_SAMPLES || payload.len() > MOST_BYTES { Err(1) } else { Ok((kind, length)) }
    }

    fn encode_arguments(samples: &[u16], shape: [usize; 1]) -> Result<(Kind, usize), u32> {
        let known = Self::decode_arguments([&[]], shape, samples.len())?;
        if samples.iter().all(|&sample| sample <= known.0.most()) { Ok(known) } else { Err(4) }
    }

    fn read([payload]: [&[u8]; 1], known: &(Kind, usize), exact: &mut Vec<i64>) -> Outcome<1> {
        decode(payload, known.0, known.1, exact).map(|bits| [bits]).map_err(|number| (0, number))
    }

    fn parts(known: &(Kind, usize)) -> [usize; 1] {
        [known.1]
    }

    fn bounds(_: &[u16], known: &(Kind, usize)) -> ([usize; 1], usize) {
        let most = known.0.most_code(known.1);
        ([most], most.div_ceil(8))
    }

    fn rust_decode(rust: &Rust, [payload]: [&[u8]; 1], known: &(Kind, usize)) -> Given<u16> {
        (rust.decode_alpha)(payload, known.0.number, known.1)
    }

    fn rust_encode(rust: &Rust, list: &[u16], known: &(Kind, usize)) -> ([Vec<u8>; 1], [usize; 1]) {
        ([(rust.encode_alpha)(list, known.0.number)], [bits_written()])
    }
}

/// Reads a payload into a list of so many samples and tells the bits read, or refusal 5 or 9 to 12.
fn decode(payload: &[u8], kind: Kind, length: usize, samples: &mut Vec<i64>) -> Result<usize, u32> {
    samples.clear();
    let mut bits = BitReader::new(payload);
    let mut previous = -1;
    while samples.len() < length {
        previous = (previous + difference(&mut bits, kind)?).rem_euclid(1 << kind.width);
        let behind = samples.len() + run(&mut bits)?;
        if behind > length {
            return Err(10);
        }
        samples.resize(behind, previous);
    }
    let read = bits.bit_pos();
    let left = 8 * payload.len() - read;
    if left > 7 {
        return Err(11);
    }
    if field(&mut bits, left as u32)? == 0 { Ok(read) } else { Err(12) }
}

fn difference(bits: &mut BitReader<'_>, kind: Kind) -> Result<i64, u32> {
    if field(bits, 1)? == 1 {
        return field(bits, kind.width);
    }
    let magnitude = field(bits, kind.small_width())? + 1;
    Ok(if field(bits, 1)? == 1 { -magnitude } else { magnitude })
}

fn run(bits: &mut BitReader<'_>) -> Result<usize, u32> {
    if field(bits, 1)? == 1 {
        return Ok(1);
    }
    let short = field(bits, 4)?;
    if short != 0 {
        return Ok(short as usize + 1);
    }
    let long = field(bits, 11)?;
    if long < 16 { Err(9) } else { Ok(long as usize + 1) }
}

fn field(bits: &mut BitReader<'_>, width: u32) -> Result<i64, u32> {
    bits.read_bits(width).map(i64::from).map_err(|_| 5)
}
