// Document 01's rules, where the given Rust has no word on them or does not tell: limits and refusals, bits, the size
// of a code, blends. They are written from the document alone, over whole numbers. Of the oracle they share nothing
// but the plain bit reader and the two block scans, which the document has from there.
pub mod alpha;
pub mod bits;
pub mod codewords;
pub mod coder;
pub mod coefficients;
pub mod matrices;
pub mod slices;

/// The longest payload, in bytes.
pub const MOST_BYTES: usize = 65_536;
