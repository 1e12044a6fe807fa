// Document 01's rules for matrices and the scale. The Rust blends by profile, so it has no word on the numbers
// that no profile has, nor on selectors that name nothing.

pub use oracle_plain::asked::Pair;

/// Of four and each perceptual weight, held to 2..63; refusal 13 where the number is not 1 to 8.
pub fn blend(number: usize, perceptual: Pair) -> Result<Pair, u32> {
    if !(1..=8).contains(&number) {
        return Err(13);
    }
    Ok(perceptual.map(|table| table.map(|weight| before_holding(number, weight).clamp(2, 63) as u8)))
}

/// The same of one weight before it is held.
pub fn before_holding(number: usize, weight: u8) -> usize {
    ((8 - number) * 4 + number * usize::from(weight) + 4) / 8
}

/// Whether a pair is valid, has its luma loaded, its chroma, and is the default one.
pub fn flags([luma, chroma]: Pair) -> [bool; 4] {
    let fours = |table: [u8; 64]| table == [4; 64];
    let valid = luma.iter().chain(&chroma).all(|weight| (2..=63).contains(weight));
    [valid, !fours(luma), chroma != luma, fours(luma) && fours(chroma)]
}

pub fn qscale(index: u8) -> usize {
    let i = usize::from(index);
    if i <= 128 { i } else { 128 + 4 * (i - 128) }
}
