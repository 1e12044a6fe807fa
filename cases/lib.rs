// What the stored cases and the comparison try: pseudo-random numbers, bytes, lists of coefficients, alpha samples,
// and payloads, good and bad; and the cases of each coder, for both alike. The same seed gives the same cases on every
// machine.
pub mod alpha;
pub mod alpha_samples;
pub mod alpha_streams;
pub mod asking;
pub mod bad_payloads;
pub mod bytes;
pub mod coefficients;
pub mod document;
pub mod lists;
pub mod random;
pub mod slices;
pub mod streams;
