// Whole slices: real ones, and made ones of 8 macroblocks that are dense and sparse. The C face has their blocks as
// bytes.
use cases::lists::{list, Kind};
use cases::random::Random;
use cases::slices::blocks_of;
use faces::{bytes_of, cart};
use model::slices::{Shape, KINDS};

use crate::races::{races, Case, Codes, Coder};
use crate::{Plan, Side};

type Blocks = Vec<[i32; 64]>;

/// The Rust over one bit layer.
macro_rules! oracle {
    ($name:ident, $rust:ident) => {
        mod $name {
            use super::{Blocks, Codes, Shape};
            use $rust::frame::ChromaFormat;
            use $rust::slice::{decode_slice_components, encode_slice_components};

            fn format(shape: Shape) -> ChromaFormat {
                if shape.chroma == 2 { ChromaFormat::Y422 } else { ChromaFormat::Y444 }
            }

            pub fn decode(shape: Shape, [y, cb, cr]: &Codes) -> Blocks {
                let blocks = decode_slice_components(y, cb, cr, shape.macroblocks, format(shape), shape.scan == 1);
                blocks.expect("a good slice")
            }

            pub fn encode(shape: Shape, blocks: &[[i32; 64]]) -> Codes {
                let codes = encode_slice_components(shape.macroblocks, format(shape), shape.scan == 1, blocks);
                codes.map(|(y, cb, cr)| [y, cb, cr]).expect("blocks of this shape")
            }
        }
    };
}
oracle!(real, oracle_real);
oracle!(plain, oracle_plain);

impl Coder for Shape {
    const FACE: [&'static str; 2] = ["cart_decode_slice", "cart_encode_slice"];
    type Item = u8;
    const THING: usize = 4;
    type Read = Blocks;

    fn list(blocks: &Blocks) -> Vec<u8> {
        bytes_of(&blocks.concat())
    }

    fn room(self) -> usize {
        8 * 63 * 96
    }

    fn decode(self, payloads: &Codes, list: &mut [u8]) -> u32 {
        cart::decode_slice(payloads.each_ref().map(Vec::as_slice), self.numbers(), list).number
    }

    fn encode(self, list: &[u8], out: &mut [u8]) -> u32 {
        cart::encode_slice(list, self.numbers(), out).number
    }

    fn rust_decode(self, side: Side, payloads: &Codes) -> Blocks {
        let decode = if side == Side::Plain { plain::decode } else { real::decode };
        decode(self, payloads)
    }

    fn rust_encode(self, side: Side, blocks: &Blocks) -> Codes {
        let encode = if side == Side::Plain { plain::encode } else { real::encode };
        encode(self, blocks)
    }
}

pub fn run(plan: &Plan) {
    let random = &mut Random::new(1);
    // magnitudes as they are at high and at low quality
    let mut made = |b, kind| (0..20).map(|i| made_case(i, |blocks| list(random, blocks, b, kind))).collect();
    races(plan, " slices", real_cases(), &[("dense", made(6, Kind::Dense)), ("sparse", made(4, Kind::Sparse))]);
}

fn real_cases() -> Result<Vec<Case<Shape>>, String> {
    let case = |line: &String| {
        let real_slices::Slice { shape: [macroblocks, chroma, scan], payloads, .. } = real_slices::slice(line)?;
        Ok(Case::of_payloads(Shape { macroblocks, chroma, scan }, payloads.map(|payload| payload.bytes)))
    };
    real_slices::lines()?.iter().map(case).collect()
}

/// A slice of 8 macroblocks, each format and scan in turn, whose components are such lists.
fn made_case(i: usize, list: impl FnMut(usize) -> Vec<i32>) -> Case<Shape> {
    let (chroma, scan) = KINDS[i % KINDS.len()];
    let shape = Shape { macroblocks: 8, chroma, scan };
    let blocks = blocks_of(shape, list);
    Case::of_list(shape, blocks.chunks_exact(64).map(|block| block.try_into().expect("64")).collect())
}
