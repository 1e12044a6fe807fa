// Document 01's rules for slices, with the coefficients of each component left to coefficients.rs.
//
// The Rust has one error for all three components, does not say where one ended, and its decode takes any
// number of macroblocks. This model tells which component is refused and with what, the bits of each,
// and what arguments are refused.
use std::ops::Range;

use oracle_plain::{bitstream::{bits_read, bits_written}, quant::{BLOCK_SCAN_INTERLACED, BLOCK_SCAN_PROGRESSIVE}};

use crate::{
    coder::{Coder, Given, Outcome, Rust, PLAIN}, coefficients::{decode, in_range, most_code, MOST_BLOCK}, MOST_BYTES,
};

/// What a slice coder is asked with beside its lists, in document 01's numbers: any, also those that name nothing.
#[derive(Clone, Copy, Debug, PartialEq, Eq)]
pub struct Shape {
    pub macroblocks: usize,
    /// 2 is 4:2:2, 3 is 4:4:4.
    pub chroma: usize,
    /// 0 is progressive, 1 is interlaced.
    pub scan: usize,
}

/// The two formats with the two scans.
pub const KINDS: [(usize, usize); 4] = [(2, 0), (2, 1), (3, 0), (3, 1)];

impl Shape {
    pub fn numbers(self) -> [usize; 3] {
        [self.macroblocks, self.chroma, self.scan]
    }
}

pub const MOST_MACROBLOCKS: usize = 8;

/// Every shape that is known, the small ones first.
pub fn every_shape() -> impl Iterator<Item = Shape> {
    (1..=MOST_MACROBLOCKS).flat_map(shapes_of)
}

pub fn shapes_of(macroblocks: usize) -> impl Iterator<Item = Shape> {
    KINDS.into_iter().map(move |(chroma, scan)| Shape { macroblocks, chroma, scan })
}

/// The layout of a shape that is known.
pub fn layout(shape: Shape) -> Layout {
    Layout::of(shape).unwrap_or_else(|_| panic!("{:?} is no shape", shape))
}

/// Where the coefficients of a slice stand.
pub struct Layout {
    pub shape: Shape,
    /// Blocks of Y, Cb and Cr in a macroblock.
    parts: [usize; 3],
    /// For each scanned place, one component behind the other, the place in the list of blocks.
    pub order: Vec<usize>,
}

impl Layout {
    /// Refusal 13, then 1 for the macroblocks.
    pub fn of(shape: Shape) -> Result<Layout, u32> {
        let [chroma, _] = blocks_per_mb(shape.chroma)?;
        let scan = match shape.scan {
            0 => &BLOCK_SCAN_PROGRESSIVE,
            1 => &BLOCK_SCAN_INTERLACED,
            _ => return Err(13),
        };
        if shape.macroblocks < 1 || shape.macroblocks > MOST_MACROBLOCKS {
            return Err(1);
        }
        let parts = [4, chroma, chroma];
        let mut natural = [0; 64];
        scan.iter().enumerate().for_each(|(place, &n)| natural[usize::from(n)] = place);
        let mut order = Vec::new();
        // place n x B + m x c + b: by coefficients, then macroblocks, then blocks
        for component in 0..3 {
            let before: usize = parts[..component].iter().sum();
            let of_macroblock = |m: usize| (0..parts[component]).map(move |b| m * (4 + 2 * chroma) + before + b);
            let blocks: Vec<usize> = (0..shape.macroblocks).flat_map(of_macroblock).collect();
            natural.iter().for_each(|place| order.extend(blocks.iter().map(|block| 64 * block + place)));
        }
        Ok(Layout { shape, parts, order })
    }

    /// The blocks of a component.
    pub fn blocks(&self, component: usize) -> usize {
        self.shape.macroblocks * self.parts[component]
    }

    /// The coefficients of the slice.
    pub fn length(&self) -> usize {
        64 * self.shape.macroblocks * self.parts.iter().sum::<usize>()
    }

    /// The scanned places of a component.
    pub fn part(&self, component: usize) -> Range<usize> {
        let before: usize = (0..component).map(|component| self.blocks(component)).sum();
        64 * before..64 * (before + self.blocks(component))
    }

    /// The scanned list of a component.
    pub fn scanned(&self, component: usize, blocks: &[i32]) -> Vec<i32> {
        self.order[self.part(component)].iter().map(|&place| blocks[place]).collect()
    }

    /// The list of blocks of three scanned lists.
    pub fn placed(&self, lists: &[Vec<i32>; 3]) -> Vec<i32> {
        let mut blocks = vec![0; self.length()];
        self.order.iter().zip(lists.iter().flatten()).for_each(|(&place, &value)| blocks[place] = value);
        blocks
    }
}

/// The blocks of a chroma component in a macroblock, and all of a macroblock's; refusal 13 for an unknown format.
pub fn blocks_per_mb(chroma: usize) -> Result<[usize; 2], u32> {
    match chroma {
        2 => Ok([2, 8]),
        3 => Ok([4, 12]),
        _ => Err(13),
    }
}

pub struct Slices;

impl Coder<3> for Slices {
    type Value = i32;
    type Known = Layout;

    fn decode_arguments(payloads: [&[u8]; 3], shape: [usize; 3], length: usize) -> Result<Layout, u32> {
        let [macroblocks, chroma, scan] = shape;
        let layout = Layout::of(Shape { macroblocks, chroma, scan })?;
        if payloads.iter().any(|payload| payload.len() > MOST_BYTES) {
            return Err(1);
        }
        if length == layout.length() { Ok(layout) } else { Err(2) }
    }

    fn encode_arguments(blocks: &[i32], shape: [usize; 3]) -> Result<Layout, u32> {
        let layout = Self::decode_arguments([&[]; 3], shape, blocks.len())?;
        if blocks.iter().all(|&value| in_range(value.into())) { Ok(layout) } else { Err(4) }
    }

    fn read(payloads: [&[u8]; 3], layout: &Layout, exact: &mut Vec<i64>) -> Outcome<3> {
        exact.clear();
        let mut list = Vec::new();
        by_component(|component| {
            let read = decode(payloads[component], layout.blocks(component), &mut list);
            exact.append(&mut list);
            read
        })
    }

    fn parts(layout: &Layout) -> [usize; 3] {
        [0, 1, 2].map(|component| layout.part(component).len())
    }

    fn place(layout: &Layout, read: usize) -> usize {
        layout.order[read]
    }

    fn bounds(list: &[i32], layout: &Layout) -> ([usize; 3], usize) {
        let bits = [0, 1, 2].map(|component| 8 * most_code(&layout.scanned(component, list)));
        (bits, MOST_BLOCK * layout.length() / 64)
    }

    fn rust_decode(rust: &Rust, payloads: [&[u8]; 3], layout: &Layout) -> Given<i32> {
        (rust.decode_slice)(payloads, layout.shape.numbers())
    }

    /// By the coefficient coder, component by component.
    fn plain_bits(payloads: [&[u8]; 3], layout: &Layout, _: &Given<i32>) -> Option<Outcome<3>> {
        let read = |component| (PLAIN.decode)(payloads[component], layout.blocks(component)).map(|_| bits_read());
        Some(by_component(read))
    }

    /// The bits by the coefficient coder, from the lists that the model scans.
    fn rust_encode(rust: &Rust, list: &[i32], layout: &Layout) -> ([Vec<u8>; 3], [usize; 3]) {
        let bits = [0, 1, 2].map(|component| {
            (PLAIN.encode)(&layout.scanned(component, list), layout.blocks(component));
            bits_written()
        });
        ((rust.encode_slice)(list, layout.shape.numbers()).expect("blocks of this shape"), bits)
    }
}

/// What is read of each component, or the first that is refused.
fn by_component(mut read: impl FnMut(usize) -> Result<usize, u32>) -> Outcome<3> {
    let mut bits = [0; 3];
    for component in 0..3 {
        bits[component] = read(component).map_err(|number| (component + 1, number))?;
    }
    Ok(bits)
}
