// The scanned coefficient coder: real payloads, and made lists that are dense and sparse. The C face has the
// coefficients as bytes.
use cases::lists::{list, Kind};
use cases::random::Random;
use faces::{bytes_of, cart};
use oracle_plain::asked as plain;
use oracle_real::asked as real;

use crate::races::{races, Case, Codes, Coder};
use crate::{Plan, Side};

#[derive(Clone, Copy)]
struct Blocks(usize);

impl Coder for Blocks {
    const FACE: [&'static str; 2] = ["cart_decode", "cart_encode"];
    type Item = u8;
    const THING: usize = 4;
    type Read = Vec<i32>;

    fn list(read: &Vec<i32>) -> Vec<u8> {
        bytes_of(read)
    }

    fn room(self) -> usize {
        8 * 63 * self.0
    }

    fn decode(self, [payload, ..]: &Codes, list: &mut [u8]) -> u32 {
        cart::decode(payload, self.0, list).number
    }

    fn encode(self, list: &[u8], out: &mut [u8]) -> u32 {
        cart::encode(list, self.0, out).number
    }

    fn rust_decode(self, side: Side, [payload, ..]: &Codes) -> Vec<i32> {
        let decode = if side == Side::Plain { plain::decode } else { real::decode };
        decode(payload, self.0).expect("a good payload")
    }

    fn rust_encode(self, side: Side, list: &Vec<i32>) -> Codes {
        let encode = if side == Side::Plain { plain::encode } else { real::encode };
        [encode(list, self.0), Vec::new(), Vec::new()]
    }
}

pub fn run(plan: &Plan) {
    let random = &mut Random::new(1);
    // 32 blocks, as many as a call takes; magnitudes as they are at high and at low quality
    let mut made = |b, kind| (0..50).map(|_| Case::of_list(Blocks(32), list(random, 32, b, kind))).collect();
    races(plan, "", real_cases(), &[("dense", made(6, Kind::Dense)), ("sparse", made(4, Kind::Sparse))]);
}

fn real_cases() -> Result<Vec<Case<Blocks>>, String> {
    let mut cases = Vec::new();
    for line in real_slices::lines()? {
        for payload in real_slices::slice(&line)?.payloads {
            cases.push(Case::of_payloads(Blocks(payload.blocks), [payload.bytes, Vec::new(), Vec::new()]));
        }
    }
    Ok(cases)
}
