// Root of the oracle crates: the given Rust, unchanged, over the bit layer that build.sh puts beside
// this file as bitstream.rs; and how it is asked.
//
// The given files import `oxideav_core`, which is not at hand. `extern crate self` gives this crate
// that name, so the imports find the three items below; no other item of it is used.
#![allow(dead_code)]
extern crate self as oxideav_core;

pub mod alpha;
pub mod bitstream;
pub mod entropy;
pub mod frame;
pub mod quant;
pub mod slice;

pub mod asked;
pub mod layer;

#[derive(Debug, Clone, PartialEq, Eq)]
pub enum Error {
    Invalid(String),
    Unsupported(String),
}

/// What the errors of the given files say, the most frequent first, and the refusal of document 01 that each stands for.
const NUMBERS: [(&str, u32); 12] = [
    ("EOF", 5),
    ("mb_count out of range", 1),
    ("block-count mismatch", 2),
    ("prefix too long", 6),
    ("suffix too wide", 6),
    ("value out of range", 6),
    ("AC run overruns", 7),
    ("run length out of range", 9),
    ("run overruns alphaValues", 10),
    ("trailing payload", 11),
    ("nonzero alignment padding", 12),
    ("not supported", 13),
];

impl Error {
    pub fn invalid(text: impl Into<String>) -> Self {
        Error::Invalid(text.into())
    }

    pub fn unsupported(text: impl Into<String>) -> Self {
        Error::Unsupported(text.into())
    }

    /// Whether it says this.
    pub fn says(&self, part: &str) -> bool {
        let (Error::Invalid(text) | Error::Unsupported(text)) = self;
        text.contains(part)
    }

    /// Document 01's number for it; 0 where it has none.
    pub fn number(self) -> u32 {
        NUMBERS.iter().find(|(part, _)| self.says(part)).map_or(0, |&(_, number)| number)
    }
}

pub type Result<T> = std::result::Result<T, Error>;

/// Only frame.rs names it, for frame rates and aspect ratios.
#[derive(Debug, Clone, Copy, PartialEq, Eq)]
pub struct Rational {
    pub num: i64,
    pub den: i64,
}

impl Rational {
    pub const fn new(num: i64, den: i64) -> Self {
        Self { num, den }
    }
}
