// Document 01, "Codewords": a symbol of any codebook, whatever its parameters.
use oracle_plain::bitstream::BitReader;

use crate::{bits::Answer, MOST_BYTES};

#[derive(Clone, Copy)]
pub enum Book {
    /// Exp-Golomb of an order.
    E(u32),
    /// A combination: lastQ, r, e.
    C(u32, u32, u32),
}
use Book::{C, E};

impl Book {
    /// The symbol at a bit position and the one behind it, or refusal 1, 5 or 6.
    pub fn read_at(self, payload: &[u8], at: usize) -> Answer {
        if payload.len() > MOST_BYTES {
            return Err(1);
        }
        let cut = (at / 8).min(payload.len());
        let mut bits = BitReader::new(&payload[cut..]);
        // past the end there is nothing to skip
        let skipped = (8 * cut..at).take_while(|_| bits.read_bit().is_ok()).count();
        let symbol = self.read(&mut bits)?;
        Ok((symbol, at + (bits.bit_pos() - skipped)))
    }

    /// The symbol, or refusal 5 or 6.
    pub fn read(self, bits: &mut BitReader<'_>) -> Result<u32, u32> {
        let most_zeros = if matches!(self, E(_)) { 32 } else { 64 };
        let mut zeros = 0;
        while bits.read_bit().map_err(|_| 5u32)? == 0 {
            zeros += 1;
            if zeros > most_zeros {
                return Err(6);
            }
        }
        // behind its limit a combination is exp-Golomb, whose zeros come behind lastQ + 1 others
        match self {
            E(k) => exp_golomb(bits, 0, zeros, k),
            C(last, r, e) if zeros > last => exp_golomb(bits, shifted(last + 1, r), zeros - last - 1, e),
            C(_, r, _) => symbol(bits, shifted(zeros, r), r.into()),
        }
    }
}

/// The value times a power of two. Those past 2^32 are past a symbol, however far.
fn shifted(value: u32, power: u32) -> u64 {
    u64::from(value) << power.min(32)
}

/// The rest of an exp-Golomb codeword behind so many zeros and a 1: x - 2^k, where x is a 1 and the suffix.
fn exp_golomb(bits: &mut BitReader<'_>, limit: u64, zeros: u32, k: u32) -> Result<u32, u32> {
    let width = u64::from(zeros) + u64::from(k);
    let power = |n: u64| 1 << n.min(33);
    symbol(bits, limit + power(width) - power(k.into()), width)
}

/// A suffix added to a base. Too wide a one is refused before it is read.
fn symbol(bits: &mut BitReader<'_>, base: u64, width: u64) -> Result<u32, u32> {
    if width > 32 {
        return Err(6);
    }
    let suffix = bits.read_bits(width as u32).map_err(|_| 5u32)?;
    u32::try_from(base + u64::from(suffix)).map_err(|_| 6)
}
