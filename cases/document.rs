// Document 01's rows, "Bits written out".

/// A list by the places that are not 0.
pub type Set<'a> = &'a [(usize, i32)];

/// Blocks, a list and its code.
pub const CODED: [(usize, Set<'static>, &[u8]); 13] = [
    (1, &[], &[0x80]),
    (1, &[(0, 1)], &[0x88]),
    (1, &[(0, -1)], &[0x84]),
    (1, &[(0, 15)], &[0xf8]),
    (1, &[(0, -16)], &[0xfc]),
    (1, &[(0, 16)], &[0x40]),
    (2, &[], &[0x82, 0x00]),
    (3, &[(1, -1), (2, -2)], &[0x82, 0x50]),
    (1, &[(1, 1)], &[0x83, 0x00]),
    (1, &[(1, -1)], &[0x83, 0x80]),
    (1, &[(3, 1)], &[0x81, 0xc0]),
    (1, &[(63, 1)], &[0x80, 0x1f, 0xc0]),
    (1, &[(0, 536_870_911)], &[0x00, 0x00, 0x00, 0x40, 0x00, 0x00, 0x1e]),
];

/// Payloads of one block, and their refusals.
pub const REFUSED: [(&[u8], u32); 4] =
    [(&[0x00, 0x00, 0x00, 0x40, 0x00, 0x00, 0x20], 8), (&[0x80, 0x08, 0x00], 7), (&[0; 4], 5), (&[0; 5], 6)];

/// A kind, samples and their code.
pub const ALPHA_CODED: [(usize, &[u16], &[u8]); 8] = [
    (2, &[0], &[0x00, 0x80]),
    (2, &[65535], &[0x80, 0x00, 0x40]),
    (1, &[7], &[0x74]),
    (1, &[8], &[0x84, 0xc0]),
    (1, &[255], &[0x80, 0x40]),
    (1, &[0; 16], &[0x03, 0xc0]),
    (1, &[0; 17], &[0x00, 0x00, 0x80]),
    (1, &[0; 2049], &[0x00, 0x3f, 0xfc, 0x02]),
];

/// Payloads of kind 1, how many samples they are read for, and their refusals.
pub const ALPHA_REFUSED: [(&[u8], usize, u32); 3] =
    [(&[0x00, 0x00, 0x78], 20, 9), (&[0x75], 1, 12), (&[0x74, 0x00], 1, 11)];

/// A list of this length.
pub fn list_of(length: usize, set: Set<'_>) -> Vec<i32> {
    let mut list = vec![0; length];
    set.iter().for_each(|&(place, value)| list[place] = value);
    list
}
