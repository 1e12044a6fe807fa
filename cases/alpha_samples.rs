// Lists of alpha samples to encode.
use model::alpha::{Kind, MOST_RUN};

use crate::random::Random;

#[derive(Clone, Copy)]
pub enum Texture {
    /// One sample throughout.
    Flat,
    /// From sample to sample by what has the small form, mostly in one direction, and past the ends of the range.
    Gradient,
    /// Anything.
    Noise,
    /// Runs of any length, most of them of the smallest or the largest sample.
    Matte,
    /// Differences around the small limit, in both directions, each for a short while.
    Steps,
}

pub const TEXTURES: [Texture; 5] =
    [Texture::Flat, Texture::Gradient, Texture::Noise, Texture::Matte, Texture::Steps];

/// Run lengths around those at which the form changes.
pub const RUNS: [usize; 13] =
    [1, 2, 3, 15, 16, 17, 18, MOST_RUN - 1, MOST_RUN, MOST_RUN + 1, 2 * MOST_RUN - 1, 2 * MOST_RUN, 2 * MOST_RUN + 1];

/// So many samples of a kind.
pub fn samples(random: &mut Random, count: usize, kind: Kind, texture: Texture) -> Vec<u16> {
    let range = 1u64 << kind.width;
    let limit = u64::from(kind.limit);
    let mut list = Vec::with_capacity(count);
    let mut last = random.below(range);
    let mut down = false;
    while list.len() < count {
        let (step, run) = match texture {
            Texture::Flat => (0, count),
            Texture::Gradient => {
                down ^= random.once_in(32);
                (1 + random.below(limit), 1)
            }
            Texture::Noise => (random.below(range), 1),
            Texture::Matte => {
                let next = if random.once_in(3) { random.below(range) } else { random.pick(&[0, range - 1]) };
                let run = if random.once_in(2) { 1 + random.below(20) as usize } else { random.pick(&RUNS[..10]) };
                (next + range - last, run)
            }
            Texture::Steps => {
                down = random.once_in(2);
                (limit - 2 + random.below(5), random.pick(&[1, 1, 2, 16, 17]))
            }
        };
        last = (if down { last + range - step } else { last + step }) % range;
        list.resize(count.min(list.len() + run), last as u16);
    }
    list
}

/// Any samples of a kind, now and then with one that is too large for it.
pub fn random_samples(random: &mut Random, count: usize, kind: Kind) -> Vec<u16> {
    let texture = random.pick(&TEXTURES);
    let mut list = samples(random, count, kind, texture);
    if random.once_in(16) && count > 0 && kind.width < 16 {
        let place = random.below(count as u64) as usize;
        list[place] = random.pick(&TOO_LARGE);
    }
    list
}

/// 8-bit samples above 255.
pub const TOO_LARGE: [u16; 4] = [256, 257, 0xff00, 0xffff];

/// Samples at the ends of the range and in its middle, and those that are about as far from them as the small form
/// reaches.
pub fn edges(kind: Kind) -> Vec<u16> {
    let (most, limit) = (kind.most(), kind.limit as u16);
    let mut edges = Vec::new();
    for from in [0, most / 2, most] {
        for step in [0, 1, 2, limit - 1, limit, limit + 1] {
            // past one end it goes on from the other
            edges.extend([from.wrapping_add(step) & most, from.wrapping_sub(step) & most]);
        }
    }
    edges.sort_unstable();
    edges.dedup();
    edges
}
