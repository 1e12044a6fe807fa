// Bytes, places in them, and numbers to try.
use model::MOST_BYTES;

use crate::random::Random;

/// Every string of this many bytes.
pub fn every(bytes: usize) -> impl Iterator<Item = Vec<u8>> + Clone {
    (0..1u64 << (8 * bytes)).map(move |number| number.to_be_bytes()[8 - bytes..].to_vec())
}

/// Mostly up to 40 bytes, now and then as long as the limit or one more.
pub fn random_bytes(random: &mut Random) -> Vec<u8> {
    let length = match random.below(500) {
        0 => random.pick(&[MOST_BYTES - 1, MOST_BYTES, MOST_BYTES, MOST_BYTES + 1, MOST_BYTES + 1]),
        1..=249 => random.below(11) as usize,
        _ => random.below(41) as usize,
    };
    let mut bytes = vec![0; length];
    match random.below(8) {
        // no 1 at all, or a single one: the longest runs of zeros
        1 | 2 if length > 0 => bytes[random.below(length as u64) as usize] = 1 << random.below(8),
        0..=2 => {}
        3 => bytes.fill(0xff),
        // few 1s
        4 | 5 => bytes.iter_mut().for_each(|byte| *byte = if random.once_in(8) { 1 << random.below(8) } else { 0 }),
        _ => bytes.iter_mut().for_each(|byte| *byte = random.next() as u8),
    }
    bytes
}

/// A bit position in so many bytes: anywhere, around the end, or far behind it.
pub fn random_place(random: &mut Random, length: usize) -> usize {
    let end = 8 * length;
    match random.below(16) {
        0 => {
            let last = usize::MAX;
            let far = [last, last - 1, last - 56, last / 2 + 1, (1 << 61) - 1, 1 << 61, (1 << 61) + 1, 1 << 32];
            random.pick(&[&far[..], &[8 * MOST_BYTES + 1]].concat())
        }
        1..=6 => (end + 3).saturating_sub(random.below(70) as usize),
        _ => random.below(end as u64 + 3) as usize,
    }
}

/// Numbers that are a small one in fewer bits, and must not be taken for it.
pub fn wide(small: usize) -> impl Iterator<Item = usize> {
    let high = [1 << 8, 1 << 16, 1 << 31, 1 << 32, 1 << 33, 1 << 63, !0xff, !0xffff_ffff, 0x9e37_79b9_7f4a_7c00];
    high.into_iter().map(move |high| high | small)
}

/// Each of the first with each of the second.
pub fn each<I: IntoIterator, J: IntoIterator>(first: I, second: J) -> impl Iterator<Item = (I::Item, J::Item)> + Clone
where
    I::IntoIter: Clone,
    I::Item: Clone,
    J::IntoIter: Clone,
{
    let second = second.into_iter();
    first.into_iter().flat_map(move |a| second.clone().map(move |b| (a.clone(), b)))
}
