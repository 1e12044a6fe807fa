// The bit layer at any bit position. It has no limits, and no refusal but 5, the end of the bits. Both oracle crates
// have this file.
use crate::bitstream::{BitReader, BitWriter};
use crate::entropy::{read_combo, read_exp_golomb, Codebook};
use crate::Error;

/// A value and the position behind it, or the refusal of document 01 that the error stands for.
pub type Answer = Result<(u32, usize), u32>;

/// Up to here every bit before a position is read or written by the layer itself; of a longer payload the whole bytes
/// before it are cut off, or a single case would take a millisecond.
const SHORT: usize = 64;

fn whole_bytes_before(bytes: &[u8], at: usize) -> usize {
    if bytes.len() <= SHORT { 0 } else { (at / 8).min(bytes.len()) }
}

/// A reader with the bits before `at` read. Past the end it stands at the end: no bit is left.
fn reader_at(payload: &[u8], at: usize) -> BitReader<'_> {
    let cut = whole_bytes_before(payload, at);
    let payload = &payload[cut..];
    let mut reader = BitReader::new(payload);
    for _ in 0..(at - 8 * cut).min(8 * payload.len()) {
        reader.read_bit().expect("a bit before the end");
    }
    reader
}

/// What a reader reads at a position, and the one behind it.
fn read_at(payload: &[u8], at: usize, read: impl FnOnce(&mut BitReader<'_>) -> crate::Result<u32>) -> Answer {
    let mut reader = reader_at(payload, at);
    let before = reader.bit_pos();
    let value = read(&mut reader).map_err(Error::number)?;
    Ok((value, at + (reader.bit_pos() - before)))
}

/// The next n bits of a reader. The given read_bits takes 1 to 32; for no bits there is nothing to ask of it.
fn next_bits(reader: &mut BitReader<'_>, n: u32) -> crate::Result<u32> {
    match n {
        0 => Ok(0),
        1 => reader.read_bit(),
        _ => reader.read_bits(n),
    }
}

pub fn read_bits(payload: &[u8], at: usize, n: u32) -> Answer {
    read_at(payload, at, |reader| next_bits(reader, n))
}

/// The first fields of a payload, read by one reader. Behind a field that runs out a new one reads the other.
pub fn first_fields(payload: &[u8], widths: [u32; 2]) -> [Answer; 2] {
    let mut reader = BitReader::new(payload);
    widths.map(|n| {
        let value = next_bits(&mut reader, n).map_err(Error::number);
        if value.is_err() {
            reader = BitReader::new(payload);
        }
        value.map(|value| (value, reader.bit_pos()))
    })
}

/// The zeros before the next 1; refusal 6 at one zero more than `cap`.
pub fn zero_prefix(payload: &[u8], at: usize, cap: u32) -> Answer {
    let answer = read_at(payload, at, |reader| {
        let mut zeros = 0;
        while reader.read_bit()? == 0 {
            if zeros == cap {
                return Err(Error::invalid("prefix too long"));
            }
            zeros += 1;
        }
        Ok(zeros)
    });
    if let Some(too_long) = entropy_finds_too_long(payload, at, cap) {
        assert_eq!(too_long, answer == Err(6), "entropy.rs caps its prefixes otherwise");
    }
    answer
}

/// Whether the prefix loop of entropy.rs with this cap finds its prefix too long; only 32 and 64 occur
/// there. What follows the prefix may be bad in other ways, which is of no interest here.
fn entropy_finds_too_long(payload: &[u8], at: usize, cap: u32) -> Option<bool> {
    let mut reader = reader_at(payload, at);
    let read = match cap {
        32 => read_exp_golomb(&mut reader, 0),
        64 => read_combo(&mut reader, 0, 0, 0),
        _ => return None,
    };
    Some(matches!(read, Err(error) if error.says("prefix too long")))
}

/// The symbol of a codebook, which has one parameter for exp-Golomb and three for a combination.
pub fn read_codeword(payload: &[u8], at: usize, parameters: &[u32]) -> Answer {
    let book = match *parameters {
        [k] => Codebook::ExpGolomb(k),
        [last_rice_q, k_rice, k_exp] => Codebook::RiceExp { last_rice_q, k_rice, k_exp },
        _ => panic!("a codebook has one parameter or three"),
    };
    read_at(payload, at, |reader| book.read(reader))
}

pub fn end_of_data(payload: &[u8], at: usize) -> bool {
    reader_at(payload, at).end_of_data()
}

/// The bytes of a buffer after the n low bits of v, up to 64, were written at a place in it.
pub fn put(old: &[u8], at: usize, n: u32, v: u64) -> Vec<u8> {
    let cut = whole_bytes_before(old, at);
    let mut before = BitReader::new(&old[cut..]);
    let mut writer = BitWriter::new();
    for _ in 8 * cut..at {
        writer.write_bit(before.read_bit().expect("a bit before the end"));
    }
    // the given write_bits takes 1 to 32 bits
    if n > 32 {
        writer.write_bits((v >> 32) as u32, n - 32);
        writer.write_bits(v as u32, 32);
    } else if n > 0 {
        writer.write_bits(v as u32, n);
    }
    let mut bytes = old[..cut].to_vec();
    bytes.extend_from_slice(&writer.finish());
    let touched = bytes.len();
    bytes.extend_from_slice(&old[touched..]);
    bytes
}

pub fn align_byte(at: usize) -> usize {
    // whole bytes change nothing: eight of them stand for any number
    let begun = at.min(at % 8 + 64);
    let mut writer = BitWriter::new();
    (0..begun).for_each(|_| writer.write_bit(1));
    writer.align_byte();
    at - begun + writer.bit_len()
}
