// Cases of the slice coder: every shape, arguments, coefficients at every place, and payloads that are refused, cut or
// continued.
use model::{
    coefficients::MOST, slices::{every_shape, layout, shapes_of, Shape, Slices, KINDS, MOST_MACROBLOCKS}, MOST_BYTES,
};
use oracle_plain::asked;

use crate::{
    asking::{Asking, Extent, Room}, bad_payloads::slice_refused_with, bytes::each, document::{list_of, Set},
    lists::{list, Kind, KINDS as LISTS, OUT_OF_RANGE}, random::Random,
};

pub type Payloads = [Vec<u8>; 3];

pub fn ask(extent: Extent, to: &mut impl Asking<Slices, 3>) {
    every_shape().for_each(|shape| shapes(to, shape));
    whole_blocks(to);
    arguments(extent, to);
    ranges(extent, to);
    refusals(extent, to);
    ends(extent, to);
    lists(extent, to);
}

/// Decodes into a list of the length that the shape asks for, which must be a known one.
pub fn decode(to: &mut impl Asking<Slices, 3>, shape: Shape, payloads: &Payloads) {
    decode_into(to, shape, layout(shape).length(), payloads);
}

fn decode_into(to: &mut impl Asking<Slices, 3>, shape: Shape, length: usize, [y, cb, cr]: &Payloads) {
    to.decode([y, cb, cr], shape.numbers(), length);
}

fn encode_set(to: &mut impl Asking<Slices, 3>, shape: Shape, set: Set<'_>, room: Room) {
    to.encode(&list_of(layout(shape).length(), set), shape.numbers(), room);
}

/// With room to the byte and so many bytes more; and the codes, decoded.
pub fn both_ways(to: &mut impl Asking<Slices, 3>, shape: Shape, list: &[i32], more: usize) {
    to.encode(list, shape.numbers(), Room::Needed(more));
    decode(to, shape, &codes(shape, list));
}

fn codes(shape: Shape, list: &[i32]) -> Payloads {
    asked::encode_slice(list, shape.numbers()).expect("blocks of this shape")
}

/// The blocks of a slice whose components are lists of these.
pub fn blocks_of(shape: Shape, mut list: impl FnMut(usize) -> Vec<i32>) -> Vec<i32> {
    let layout = layout(shape);
    layout.placed(&[0, 1, 2].map(|component| list(layout.blocks(component))))
}

/// At most one coefficient a block, from block to block at another place, and the first and the last of all.
fn sparse(shape: Shape) -> Vec<i32> {
    let length = layout(shape).length();
    let mut list = vec![0; length];
    for (block, value) in (0..length / 64).zip([3, -1, 0, 40, 1, -7].into_iter().cycle()) {
        list[64 * block + 13 * block % 64] = value;
    }
    list[0] = 9;
    list[length - 1] = -2;
    list
}

// ---- shapes and arguments

/// All zero and few that are not; room to the byte, more of it and a byte less; lists one short and one long.
/// With the fewest and the most macroblocks also room for a part of the codes, and the other format's length.
fn shapes(to: &mut impl Asking<Slices, 3>, shape: Shape) {
    let length = layout(shape).length();
    both_ways(to, shape, &vec![0; length], 0);
    let set = &sparse(shape);
    both_ways(to, shape, set, 3);
    let payloads = &codes(shape, set);
    let [y, cb, cr] = [0, 1, 2].map(|component| payloads[component].len());
    let mut rooms = vec![Room::Needed(0), Room::Short];
    let mut wrong = vec![length - 1, length + 1];
    if [1, MOST_MACROBLOCKS].contains(&shape.macroblocks) {
        rooms.extend([y + cb, y, 0].map(Room::Of));
        wrong.push(layout(Shape { chroma: 5 - shape.chroma, ..shape }).length());
    }
    rooms.into_iter().for_each(|room| to.encode(set, shape.numbers(), room));
    for length in wrong {
        decode_into(to, shape, length, payloads);
        to.encode(&list_of(length, &[(0, 9)]), shape.numbers(), Room::Of(y + cb + cr));
    }
}

/// In a block of each component every coefficient is another number, so that each has its place.
fn whole_blocks(to: &mut impl Asking<Slices, 3>) {
    for shape in shapes_of(2) {
        let length = layout(shape).length();
        let blocks = length / 64;
        // the second of Y; the last of Cr in the first macroblock; the first of Cb in the second
        for block in [1, blocks / 2 - 1, blocks / 2 + 4] {
            let value = |i: usize| if i % 2 == 0 { i as i32 + 1 } else { -(i as i32) - 1 };
            let set: Vec<(usize, i32)> = (0..64).map(|i| (64 * block + i, value(i))).collect();
            both_ways(to, shape, &list_of(length, &set), 1);
        }
    }
}

/// Arguments past their limits, alone and with those behind them wrong too: 13, 1, 2, 4, 3.
fn arguments(extent: Extent, to: &mut impl Asking<Slices, 3>) {
    for (chroma, scan) in KINDS {
        let per_macroblock = if chroma == 2 { 512 } else { 768 };
        arguments_of(to, Shape { macroblocks: 1, chroma, scan }, per_macroblock + 64);
        for macroblocks in [0, 9, 1 << 52, 1 << 58, usize::MAX] {
            arguments_of(to, Shape { macroblocks, chroma, scan }, per_macroblock * macroblocks.min(9));
        }
    }
    for macroblocks in [1, 0, 9] {
        for chroma in [0, 1, 4, 258, usize::MAX] {
            arguments_of(to, Shape { macroblocks, chroma, scan: 0 }, 512 * macroblocks);
        }
        for (scan, chroma) in [(2, 2), (2, 3), (3, 2), (256, 3), (usize::MAX, 2), (2, 4)] {
            arguments_of(to, Shape { macroblocks, chroma, scan }, 768 * macroblocks);
        }
    }
    // every number of macroblocks up to one too many with known and unknown formats and scans, and lists of right and
    // wrong lengths: every two refusals meet
    let numbers = each(extent.of(&[], 0..=MOST_MACROBLOCKS + 1), each([0, 2, 3, 4, 258], [0, 1, 2, 256]));
    for (macroblocks, (chroma, scan)) in numbers {
        for length in [0, 64, 512 * macroblocks, 512 * macroblocks + 1, 768 * macroblocks, 768 * macroblocks + 64] {
            arguments_of(to, Shape { macroblocks, chroma, scan }, length);
        }
    }
}

fn arguments_of(to: &mut impl Asking<Slices, 3>, shape: Shape, length: usize) {
    let payloads = &codes(Shape { macroblocks: 1, chroma: 3, scan: 0 }, &[0; 768]);
    to.encode(&vec![0; length], shape.numbers(), Room::Of(8));
    decode_into(to, shape, length, payloads);
    // of a list of no coefficients `kept` says nothing
    let some = length.max(1);
    to.encode(&list_of(some, &[(some - 1, i32::MIN)]), shape.numbers(), Room::Of(0));
    decode_into(to, shape, some, payloads);
}

// ---- lists

/// Coefficients at and past the ends of the range, at the first and the last place of each component.
fn ranges(extent: Extent, to: &mut impl Asking<Slices, 3>) {
    let few: Vec<Shape> = [1, MOST_MACROBLOCKS].into_iter().flat_map(shapes_of).collect();
    for shape in extent.of(&few, every_shape()) {
        let length = layout(shape).length();
        let chroma = if shape.chroma == 2 { 128 } else { 256 };
        let places = [0, length - 1, 255, 256, length - chroma - 1, length - chroma, length / 2, length - 64];
        // of many macroblocks the first and the last place will do
        let few = if shape.macroblocks == 1 { &places[..6] } else { &places[..2] };
        for (turn, place) in extent.of(few, places).into_iter().enumerate() {
            let most = if turn % 2 == 0 { MOST as i32 } else { -MOST as i32 };
            both_ways(to, shape, &list_of(length, &[(place, most)]), 0);
            for value in extent.of(&[OUT_OF_RANGE[(turn + shape.chroma + shape.scan) % 4]], OUT_OF_RANGE) {
                encode_set(to, shape, &[(place, value)], Room::Of(if turn % 3 == 0 { 0 } else { 40 }));
            }
        }
    }
}

/// A slice whose coefficients are all different; lists of every kind and, over the shapes, of every width; and a single
/// coefficient at every place or, where they are many, at each STEPth.
fn lists(extent: Extent, to: &mut impl Asking<Slices, 3>) {
    let random = &mut Random::new(extent.seed());
    for (turn, shape) in extent.of(&[], every_shape()).into_iter().enumerate() {
        let different = (0..layout(shape).length() as i32).map(|place| if place % 2 == 0 { place } else { -place });
        to.encode(&different.collect::<Vec<_>>(), shape.numbers(), Room::Needed(0));
        for (b, kind) in each([turn as u32 % 30, (3 * turn as u32 + 1) % 30], LISTS) {
            to.encode(&blocks_of(shape, |blocks| list(random, blocks, b, kind)), shape.numbers(), Room::Needed(0));
        }
    }
    let places = every_shape().flat_map(|shape| (0..layout(shape).length()).map(move |place| (shape, place)));
    for (shape, place) in extent.some(places) {
        encode_set(to, shape, &[(place, if place % 3 == 0 { -1 } else { 5 })], Room::Exactly);
    }
}

// ---- payloads

/// Each refusal in each component, in each way; then in two components and in all three; and of all components good or
/// refused every combination: the first that is refused is named, whatever stands behind it.
fn refusals(extent: Extent, to: &mut impl Asking<Slices, 3>) {
    let with = |shape, numbers, way| slice_refused_with(numbers, &layout(shape), way);
    let numbers = [5, 6, 7, 8];
    for (component, number) in each(0..3, numbers) {
        let mut alone = [0; 3];
        alone[component] = number;
        for (way, shape) in shapes_of(1).enumerate() {
            decode(to, shape, &with(shape, alone, way));
            let shape = Shape { macroblocks: MOST_MACROBLOCKS, ..shape };
            decode(to, shape, &with(shape, alone, way + 1));
        }
    }
    for (turn, (first, second)) in each(numbers, numbers).enumerate() {
        let (chroma, scan) = KINDS[turn % 4];
        let shape = Shape { macroblocks: 1 + turn % 3, chroma, scan };
        for together in [[first, second, 0], [first, 0, second], [0, first, second], [first, second, first]] {
            decode(to, shape, &with(shape, together, turn / 2));
        }
    }
    for (turn, shape) in extent.of(&[], every_shape()).into_iter().enumerate() {
        for (way, numbers) in triples([0, 5, 6, 7, 8]).enumerate() {
            decode(to, shape, &with(shape, numbers, turn + way));
        }
    }
}

/// One of these for each component.
fn triples<T: Copy, const K: usize>(of: [T; K]) -> impl Iterator<Item = [T; 3]> {
    each(of, each(of, of)).map(|(y, (cb, cr))| [y, cb, cr])
}

/// Good payloads with zero bytes behind them, cut at every byte, with one bit changed, or divided elsewhere.
fn ends(extent: Extent, to: &mut impl Asking<Slices, 3>) {
    let random = &mut Random::new(extent.seed());
    let mut good = |shape: Shape| match extent {
        Extent::Few => codes(shape, &sparse(shape)),
        Extent::All { .. } => codes(shape, &blocks_of(shape, |blocks| list(random, blocks, 4, Kind::Sparse))),
    };
    for shape in extent.of(&[1], [1, 5]).into_iter().flat_map(shapes_of) {
        let good = good(shape);
        let mut tail = |lengths: [usize; 3]| {
            let mut payloads = good.clone();
            payloads.iter_mut().zip(lengths).for_each(|(payload, length)| payload.resize(length.max(payload.len()), 0));
            decode(to, shape, &payloads);
        };
        let lengths = [0, 1, 2].map(|component| good[component].len());
        let behind = |zeros: [usize; 3]| [0, 1, 2].map(|component| lengths[component] + zeros[component]);
        // from more than 31 bits on the given bit layer differs
        for more in [1, 3, 4, 5] {
            for zeros in [[more, 0, 0], [0, more, 0], [0, 0, more], [more, more, more]] {
                tail(behind(zeros));
            }
        }
        extent.of(&[], triples([0, 1, 3, 4, 9])).into_iter().for_each(|zeros| tail(behind(zeros)));
        extent.of(&[], triples([0, MOST_BYTES, MOST_BYTES + 1])).into_iter().for_each(|lengths| tail(lengths));
    }
    for shape in extent.of(&[Shape { macroblocks: 1, chroma: 2, scan: 0 }], [1, 3].into_iter().flat_map(shapes_of)) {
        let good = good(shape);
        for component in 0..3 {
            for cut in 0..good[component].len() {
                let mut payloads = good.clone();
                payloads[component].truncate(cut);
                decode(to, shape, &payloads);
            }
            for bit in extent.of(&[], 0..64.min(8 * good[component].len())) {
                let mut payloads = good.clone();
                payloads[component][bit / 8] ^= 0x80 >> (bit % 8);
                decode(to, shape, &payloads);
            }
        }
    }
    let shape = Shape { macroblocks: 1, chroma: 2, scan: 0 };
    let [y, cb, cr] = codes(shape, &sparse(shape));
    for other in [[&cb, &y, &cr], [&y, &cr, &cb], [&cr, &cb, &y]] {
        decode(to, shape, &other.map(Vec::clone));
    }
    decode(to, shape, &Payloads::default());
    let bytes = [y, cb, cr].concat();
    for (first, second) in [(0, 0), (bytes.len(), 0), (0, bytes.len()), (2, bytes.len() - 2), (3, 4)] {
        let (y, behind) = bytes.split_at(first);
        let (cb, cr) = behind.split_at(second);
        to.decode([y, cb, cr], shape.numbers(), layout(shape).length());
    }
}
