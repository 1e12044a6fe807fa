// The stored cases of the matrices, the block scans and the scale of an index: `w`, `b`, `s`, `f` and `q`.
//
// An answer is quant.rs's. Where it has none (a blend number that is no profile's, a selector that is unknown)
// document 01's rule answers, and wherever both do they must agree.
use model::matrices::blend;
use oracle_plain::asked::{self, Pair};

use crate::{bad_lines, hex, refused, Stored};

/// No selector of any letter, though the low bits of some of them are.
const UNKNOWN: [u64; 7] = [9, 64, 255, 256, 1 << 32, (1 << 32) + 1, u64::MAX];

pub fn add_to(stored: &mut Stored) {
    stored.tables('w', (0..).zip(pairs()), &[6, 7]);
    stored.tables('b', (1..=8).map(|number| (number, blended(number))), &[0]);
    stored.tables('s', (0..).zip(asked::scans()), &[2, 3]);
    flags(stored);
    (0..=255).for_each(|index: u8| stored.add(format!("q {}", index), asked::qscale(index).to_string()));
    stored.bad(&bad_lines::MATRICES);
    // one weight too few, and one too many
    [127, 129].into_iter().for_each(|bytes| stored.bad(&[&format!("f {}", hex(&vec![4; bytes]))]));
}

impl Stored {
    /// Both tables of each pair, and numbers that name none; and selectors that are unknown.
    fn tables(&mut self, letter: char, known: impl Iterator<Item = (u64, Pair)>, unknown: &[u64]) {
        for (selector, pair) in known {
            for which in [0, 1, 2, 256, 1 << 32, u64::MAX] {
                let table = pair.get(which as usize).map_or(refused(13), |table| format!("64 {}", hex(table)));
                self.add(format!("{} {} {}", letter, selector, which), table);
            }
        }
        for selector in unknown.iter().chain(&UNKNOWN) {
            [0, 1].iter().for_each(|which| self.add(format!("{} {} {}", letter, selector, which), refused(13)));
        }
    }

    fn flags(&mut self, pair: Pair) {
        self.add(format!("f {}", hex(&pair.concat())), format!("4 {}", hex(&asked::flags(pair).map(u8::from))));
    }
}

/// In the order of their numbers.
fn pairs() -> [Pair; 6] {
    asked::pairs().map(|names| names[0])
}

fn blended(number: u64) -> Pair {
    let by_rule = blend(number as usize, pairs()[1]).expect("a blend number");
    for by_rust in asked::blends(number as usize) {
        assert_eq!(by_rust, by_rule, "the Rust and document 01 on the blend {}", number);
    }
    by_rule
}

fn flags(stored: &mut Stored) {
    pairs().into_iter().chain((1..=8).map(blended)).for_each(|pair| stored.flags(pair));
    // one weight of a flat pair: at the ends of the range, and at every place
    let mut flat_but = |place: usize, weight: u8| {
        let (flat, mut other) = ([4; 64], [4; 64]);
        other[place] = weight;
        [[other, flat], [flat, other], [other, other]].into_iter().for_each(|pair| stored.flags(pair));
    };
    for weight in [0, 1, 2, 3, 5, 62, 63, 64, 65, 128, 255] {
        [0, 63].into_iter().for_each(|place| flat_but(place, weight));
    }
    (1..63).for_each(|place| flat_but(place, if place % 2 == 0 { 5 } else { 64 }));
}
