// The C faces of the proved code as Rust sees them: `cart` is what ships, `probe` what C cannot see otherwise. A
// program that uses one links its archive.
//
// In both files each pointer comes from a Rust reference that lives through the call, and each length is that of its
// slice: all that the faces ask of a caller. Their numbers are u64, and so is usize on every machine that this runs on.
pub mod cart;
pub mod probe;

const _: () = assert!(usize::BITS == 64);

/// What a place for a number holds before a call: no answer, so that one that was not written shows.
const UNWRITTEN: usize = 0xdead_beef_dead_beef;

/// Coefficients as `cart` takes them: four bytes each, the lowest first.
pub fn bytes_of(list: &[i32]) -> Vec<u8> {
    list.iter().flat_map(|value| value.to_le_bytes()).collect()
}
