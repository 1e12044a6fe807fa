// Payloads that are refused with a given number. Each number can be had in four ways, of which `way` chooses one.
use model::{coefficients::MOST, slices::Layout};

use crate::streams::Elements;

/// A payload of two blocks or more that is refused with 5, 6, 7 or 8, or for 0 is good.
pub fn refused_with(number: u32, blocks: usize, way: usize) -> Vec<u8> {
    match number {
        5 => short(blocks, way % 4),
        6 => bad_codeword(blocks, way % 4),
        7 => long_run(blocks, way % 4),
        8 => out_of_range(blocks, way % 4),
        _ => good(blocks, way % 4),
    }
}

/// Such a payload for each component of a slice.
pub fn slice_refused_with(numbers: [u32; 3], layout: &Layout, way: usize) -> [Vec<u8>; 3] {
    [0, 1, 2].map(|component| refused_with(numbers[component], layout.blocks(component), way + component))
}

/// As many DCs, all 0, and what is written behind them.
fn flat(blocks: usize, write: impl FnOnce(&mut Elements)) -> Vec<u8> {
    Elements::payload(|stream| {
        (0..blocks).for_each(|_| stream.dc(0));
        write(stream);
    })
}

fn good(blocks: usize, way: usize) -> Vec<u8> {
    flat(blocks, |stream| (0..way as u32).for_each(|i| stream.pair(3 * i, i, i % 2)))
}

fn short(blocks: usize, way: usize) -> Vec<u8> {
    // the last DC loses its end, or a level, whose codeword is longer than what it loses
    let (mut bytes, lost) = match way {
        0 => (Vec::new(), 0),
        1 => (vec![0; 4], 0),
        2 => (flat(blocks, |_| {}), 1),
        _ => (flat(blocks, |stream| stream.pair(0, MOST as u32, 1)), 2),
    };
    bytes.truncate(bytes.len() - lost);
    bytes
}

/// Too many zeros before the first DC, the last, a run or a level.
fn bad_codeword(blocks: usize, way: usize) -> Vec<u8> {
    flat([0, blocks - 1, blocks, blocks][way], |stream| {
        if way == 3 {
            stream.run(0);
        }
        (0..40).for_each(|_| stream.bits.write_bit(0));
        stream.bits.write_bit(1);
    })
}

/// A run to just behind the last place, far behind it, or there by a second run.
fn long_run(blocks: usize, way: usize) -> Vec<u8> {
    let places = 63 * blocks as u32;
    flat(blocks, |stream| match way {
        0 => stream.pair(places, 0, 0),
        1 => stream.pair(u32::MAX, 0, 0),
        _ => {
            stream.pair(3, 1, 1);
            stream.pair(places - 4, 1, way as u32 % 2);
        }
    })
}

/// The first DC, the last, or a level of either sign.
fn out_of_range(blocks: usize, way: usize) -> Vec<u8> {
    flat([0, blocks - 1, blocks, blocks][way], |stream| match way {
        0 => {
            stream.dc_to(MOST + 1);
            (1..blocks).for_each(|_| stream.dc(0));
        }
        1 => stream.dc_to(-MOST - 1),
        _ => stream.pair(way as u32, MOST as u32, way as u32 % 2),
    })
}
