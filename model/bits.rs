// Document 01's limits on bits, around what a bit layer of the oracle answers, which has none of them.
use crate::MOST_BYTES;

/// A value and the position behind it, or a refusal.
pub type Answer = Result<(u32, usize), u32>;

/// The widest field that is read, and the widest that is put.
const MOST_READ: u32 = 32;
const MOST_PUT: u32 = 56;

/// Reading a payload: a prefix has no width.
pub fn read<T>(payload: &[u8], width: u32, layer: impl FnOnce() -> Result<T, u32>) -> Result<T, u32> {
    if payload.len() > MOST_BYTES {
        return Err(1);
    }
    if width > MOST_READ { Err(6) } else { layer() }
}

/// Reading two fields: the reader stays where it was behind one that is refused.
pub fn first_fields(payload: &[u8], widths: [u32; 2], layer: impl FnOnce([u32; 2]) -> [Answer; 2]) -> [Answer; 2] {
    // a field of no bits leaves the reader where it was too
    let [first, second] = layer(widths.map(|n| if n > MOST_READ { 0 } else { n }));
    [read(payload, widths[0], || first), read(payload, widths[1], || second)]
}

/// Putting a field: the position behind it, and the buffer.
pub fn put(old: &[u8], at: usize, n: u32, layer: impl FnOnce() -> Vec<u8>) -> Result<(usize, Vec<u8>), u32> {
    if n > MOST_PUT || old.len() > MOST_BYTES {
        return Err(1);
    }
    // in whole numbers: a position may be so far that adding the width would pass a usize
    if at as u128 + u128::from(n) > 8 * old.len() as u128 {
        return Err(3);
    }
    Ok((at + n as usize, layer()))
}

/// Aligning a position, which must be one within a payload.
pub fn align_byte(at: usize, layer: impl FnOnce() -> usize) -> Answer {
    if at > 8 * MOST_BYTES { Err(1) } else { Ok((0, layer())) }
}
