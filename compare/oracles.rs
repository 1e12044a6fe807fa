// The Rust over each of its two bit layers. Both crates have the same items, so what is asked of one is asked of both.
use std::panic::{catch_unwind, AssertUnwindSafe};

use model::coder::{self, Rust};

/// Its coders.
pub const RUST: [Rust; 2] = [coder::PLAIN, model::rust!(oracle_real)];

/// What an oracle gives, or nothing if it panics.
pub fn guarded<T>(ask: impl FnOnce() -> T) -> Option<T> {
    catch_unwind(AssertUnwindSafe(ask)).ok()
}

/// `both!(|rust| ..)`: what the oracle over plain bits gives, and then the one over bitstream.rs.
macro_rules! both {
    (|$rust:ident| $ask:expr) => {
        [
            crate::oracles::guarded(|| {
                use oracle_plain as $rust;
                $ask
            }),
            crate::oracles::guarded(|| {
                use oracle_real as $rust;
                $ask
            }),
        ]
    };
}
