// Alpha: real payloads of both kinds, and made lists of 2,048 samples, as many as a slice has, of 16 bits: flat,
// gradients and noise.
use cases::alpha_samples::{samples, Texture};
use cases::random::Random;
use faces::cart;
use model::alpha::{Kind, KINDS};
use oracle_plain::asked as plain;
use oracle_real::asked as real;
use real_slices::Outcome;

use crate::races::{races, Case, Codes, Coder};
use crate::{Plan, Side};

const SAMPLES: usize = 2_048;

#[derive(Clone, Copy)]
struct Alpha {
    kind: usize,
    samples: usize,
}

impl Coder for Alpha {
    const FACE: [&'static str; 2] = ["cart_decode_alpha", "cart_encode_alpha"];
    type Item = u16;
    const THING: usize = 1;
    type Read = Vec<u16>;

    fn list(read: &Vec<u16>) -> Vec<u16> {
        read.clone()
    }

    fn room(self) -> usize {
        KINDS[1].most_code(SAMPLES) / 8
    }

    fn decode(self, [payload, ..]: &Codes, list: &mut [u16]) -> u32 {
        cart::decode_alpha(payload, self.kind, list).number
    }

    fn encode(self, list: &[u16], out: &mut [u8]) -> u32 {
        cart::encode_alpha(list, self.kind, out).number
    }

    fn rust_decode(self, side: Side, [payload, ..]: &Codes) -> Vec<u16> {
        let decode = if side == Side::Plain { plain::decode_alpha } else { real::decode_alpha };
        decode(payload, self.kind, self.samples).expect("a good payload")
    }

    fn rust_encode(self, side: Side, samples: &Vec<u16>) -> Codes {
        let encode = if side == Side::Plain { plain::encode_alpha } else { real::encode_alpha };
        [encode(samples, self.kind), Vec::new(), Vec::new()]
    }
}

pub fn run(plan: &Plan) {
    let random = &mut Random::new(1);
    let Kind { number: kind, .. } = KINDS[1];
    let of_list = |list| Case::of_list(Alpha { kind, samples: SAMPLES }, list);
    let mut made = |texture| (0..50).map(|_| of_list(samples(random, SAMPLES, KINDS[1], texture))).collect();
    let (flat, gradient, noise) = (made(Texture::Flat), made(Texture::Gradient), made(Texture::Noise));
    races(plan, " alpha", real_cases(), &[("flat", flat), ("gradient", gradient), ("noise", noise)]);
}

fn real_cases() -> Result<Vec<Case<Alpha>>, String> {
    let mut cases = Vec::new();
    for line in real_slices::lines()? {
        let alpha = real_slices::slice(&line)?.alpha;
        // what is refused has no samples
        if let Some(real_slices::Alpha { kind, samples, bytes, outcome: Outcome::Read { .. }, .. }) = alpha {
            cases.push(Case::of_payloads(Alpha { kind, samples }, [bytes, Vec::new(), Vec::new()]));
        }
    }
    Ok(cases)
}
