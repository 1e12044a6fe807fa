// Lists of coefficients to encode, as many as 64 x their blocks.
use model::coefficients::{MOST, MOST_BLOCKS};

use crate::random::Random;

#[derive(Clone, Copy)]
pub enum Kind {
    /// Small and large ones mixed.
    Mixed,
    /// Few that are not 0, beside the DCs.
    Sparse,
    /// None that is 0.
    Dense,
    /// The largest magnitude everywhere, in both signs.
    Extreme,
}

pub const KINDS: [Kind; 4] = [Kind::Mixed, Kind::Sparse, Kind::Dense, Kind::Extreme];

/// A list of magnitudes below 2^b.
pub fn list(random: &mut Random, blocks: usize, b: u32, kind: Kind) -> Vec<i32> {
    let most = (1u64 << b) - 1;
    let mut value = |place: usize| {
        let magnitude = match kind {
            Kind::Sparse if place >= blocks && !random.once_in(24) => 0,
            Kind::Mixed | Kind::Sparse => {
                let width = random.below(u64::from(b) + 1);
                random.below(1 << width)
            }
            Kind::Dense if b > 0 => 1 + random.below(most),
            Kind::Dense | Kind::Extreme => most,
        };
        if random.once_in(2) { -(magnitude as i32) } else { magnitude as i32 }
    };
    (0..64 * blocks).map(|place| value(place)).collect()
}

/// A list like those of real slices, or a far larger one; seldom with a coefficient out of range.
pub fn random_list(random: &mut Random, blocks: usize) -> Vec<i32> {
    let kind = random.pick(&[Kind::Mixed, Kind::Sparse, Kind::Sparse, Kind::Sparse, Kind::Dense, Kind::Extreme]);
    let b = random.pick(&[0, 1, 2, 3, 4, 6, 9, 13, 29]);
    let mut list = list(random, blocks, b, kind);
    // the code of a list that ends in zeros ends before them
    if random.once_in(2) && blocks > 0 {
        let end = blocks + random.below(63 * blocks as u64 + 1) as usize;
        list[end..].fill(0);
    }
    if random.once_in(32) && blocks > 0 {
        let place = random.below(list.len() as u64) as usize;
        list[place] = random.pick(&OUT_OF_RANGE);
    }
    list
}

pub const OUT_OF_RANGE: [i32; 4] = [MOST as i32 + 1, -(MOST as i32) - 1, i32::MAX, i32::MIN];

/// Mostly few blocks, since a case of many takes long, and seldom more than are allowed.
pub fn random_blocks(random: &mut Random) -> usize {
    match random.below(64) {
        0 => random.below(MOST_BLOCKS as u64 + 2) as usize,
        1 => 0,
        2..=7 => random.pick(&[3, 4, 5, 8, 16]),
        8..=23 => 2,
        _ => 1,
    }
}
