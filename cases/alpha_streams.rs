// Alpha payloads to decode: elements with fields of any value, codes of good samples, and both of them damaged.
use model::alpha::{Kind, MOST_RUN};
use oracle_plain::{asked::encode_alpha, bitstream::BitWriter};

use crate::{alpha_samples::random_samples, random::Random, streams::damaged};

/// Elements one after another. What no samples have is written like any other.
pub struct Elements {
    pub bits: BitWriter,
    kind: Kind,
}

impl Elements {
    pub fn new(kind: Kind) -> Self {
        Elements { bits: BitWriter::new(), kind }
    }

    /// A difference in the small form, of magnitude field + 1.
    pub fn small(&mut self, field: u32, sign: u32) {
        self.bits.write_bit(0);
        self.bits.write_bits(field, self.kind.small_width());
        self.bits.write_bit(sign);
    }

    pub fn escaped(&mut self, field: u32) {
        self.bits.write_bit(1);
        self.bits.write_bits(field, self.kind.width);
    }

    /// A run of field + 1 in the long form, which is no run where the field is below 16.
    pub fn long_run(&mut self, field: u32) {
        self.bits.write_bits(0, 5);
        self.bits.write_bits(field, 11);
    }

    /// A run from 1 to 2,048, in its form.
    pub fn run(&mut self, run: usize) {
        match run as u32 - 1 {
            0 => self.bits.write_bit(1),
            field @ 1..=15 => self.bits.write_bits(field, 5),
            field => self.long_run(field),
        }
    }
}

/// Elements for so many samples, of which most runs fit and some do not, nor are runs.
fn random_elements(random: &mut Random, kind: Kind, samples: usize) -> Vec<u8> {
    let mut stream = Elements::new(kind);
    let mut left = samples;
    while left > 0 {
        match random.once_in(2) {
            true => stream.escaped(random.below(1 << kind.width) as u32),
            false => stream.small(random.below(kind.limit.into()) as u32, random.below(2) as u32),
        }
        let run = match random.below(32) {
            // to the last sample, and past it
            0 => left,
            1 => left + 1,
            2 => {
                stream.long_run(random.below(17) as u32);
                break;
            }
            3..=8 => 1 + random.below(20) as usize,
            9 => 1 + random.below(MOST_RUN as u64) as usize,
            _ => 1,
        };
        stream.run(run.min(MOST_RUN));
        left = left.saturating_sub(run);
    }
    stream.bits.finish()
}

/// A payload for so many samples, good or bad in one of many ways.
pub fn random_payload(random: &mut Random, kind: Kind, samples: usize) -> Vec<u8> {
    // the Rust masks what is too large, and here only a code is wanted
    let code = |random: &mut Random| encode_alpha(&random_samples(random, samples, kind), kind.number);
    damaged(random, [2, 6], &|random| random_elements(random, kind, samples), &code)
}
