// Cases of the scanned coefficient coder: document 01's rows, arguments, codewords, ends and edges, lists that choose
// each book.
use model::{coefficients::{Coefficients, MOST, MOST_BLOCKS}, MOST_BYTES};
use oracle_plain::asked::encode;

use crate::{
    asking::{Asking, Extent, Room}, bytes::{each, every}, document::{list_of, Set, CODED, REFUSED},
    lists::{list, Kind, KINDS, OUT_OF_RANGE}, random::Random, streams::{every_state, lead_to, Elements, EDGES},
};

/// One block more than may be coded.
const MOST_LENGTH: usize = 64 * (MOST_BLOCKS + 1);

pub fn ask(extent: Extent, to: &mut impl Asking<Coefficients, 1>) {
    table(to);
    decode_arguments(extent, to);
    codewords(extent, to);
    ends(to);
    edges(extent, to);
    encode_arguments(extent, to);
    books(extent, to);
    widths(extent, to);
    short_payloads(extent, to);
}

fn decode(to: &mut impl Asking<Coefficients, 1>, blocks: usize, payload: &[u8]) {
    to.decode([payload], [blocks], 64 * blocks);
}

fn encode_set(to: &mut impl Asking<Coefficients, 1>, blocks: usize, set: Set<'_>, room: Room) {
    to.encode(&list_of(64 * blocks, set), [blocks], room);
}

fn table(to: &mut impl Asking<Coefficients, 1>) {
    let none: Set<'_> = &[];
    for (blocks, set) in CODED.map(|(blocks, set, _)| (blocks, set)).into_iter().chain([(0, none), (32, none)]) {
        let code = encode(&list_of(64 * blocks, set), blocks);
        encode_set(to, blocks, set, Room::Needed(3));
        (0..=code.len()).for_each(|room| encode_set(to, blocks, set, Room::Of(room)));
        // alone, and with zero bytes behind it, from which the given bit layer differs at more than 31 bits
        for more in [0, 1, 3, 4, 5, 40] {
            let mut payload = code.clone();
            payload.resize(code.len() + more, 0);
            decode(to, blocks, &payload);
        }
    }
    for payload in REFUSED.map(|(payload, _)| payload).into_iter().chain([&[0, 0, 0, 8][..], &[0, 0, 0, 0x10], &[]]) {
        (0..=3).for_each(|blocks| decode(to, blocks, payload));
    }
}

// ---- payloads

/// Counts and lengths at their limits and past them. In a list of no coefficients `zero` and `kept` would both be true,
/// so no stored refusal has one.
fn decode_arguments(extent: Extent, to: &mut impl Asking<Coefficients, 1>) {
    for blocks in [0, 1, 2, 3, 31, 32, 33] {
        let right = 64 * blocks;
        for length in [1, 63, 64, 65, 128, (right + 1).min(MOST_LENGTH), right.max(2) - 1, MOST_LENGTH] {
            to.decode([&[0x80]], [blocks], length);
        }
    }
    // also where 64 x the blocks passes a usize
    let far = [33, 34, 1 << 32, 1 << 58, (1 << 58) + 1, usize::MAX / 64, usize::MAX];
    for ((blocks, length), payload) in each(each(far, [64, MOST_LENGTH]), [&[0x80][..], &[]]) {
        to.decode([payload], [blocks], length);
    }
    for payload in [&[][..], &[0x00], &[0xff], &[0xff; 40]] {
        decode(to, 0, payload);
        decode(to, 32, payload);
    }
    let long = extent.of(&[], MOST_BYTES - 2..=MOST_BYTES + 2);
    for (length, (start, end)) in each(long, each([0x00, 0x80, 0x83], [0x00, 0x01, 0x80])) {
        let mut payload = vec![0; length];
        (payload[0], payload[length - 1]) = (start, end);
        for blocks in [0, 1, 2, 32, 33] {
            decode(to, blocks, &payload);
            to.decode([&payload], [blocks], 64 * blocks + 1);
        }
    }
}

/// In every state a codeword of every symbol up to past each row of the tables; and one with as many zeros
/// as a book allows, one more, and as many as make its suffix 32 or 33 bits wide, or with any number of zeros, then all
/// zeros, all ones or a pattern, cut at every byte.
fn codewords(extent: Extent, to: &mut impl Asking<Coefficients, 1>) {
    const ONES: u64 = u64::MAX;
    let few = [(27, ONES), (28, ONES), (30, ONES), (31, 0), (32, ONES), (33, ONES), (64, ONES), (65, ONES)];
    let all = (0..=70).flat_map(|zeros| [(zeros, 0), (zeros, ONES), (zeros, 0xa5_c396_0f5a)]);
    for state in every_state() {
        for symbol in 0..=17 {
            let (mut stream, blocks) = lead_to(state);
            stream.due(state, symbol, symbol % 2);
            // the DCs that are still due
            (0..blocks - 1).for_each(|_| stream.bits.write_bits(0b1111, 4));
            decode(to, blocks, &stream.bits.finish());
        }
        for (zeros, tail) in extent.of(&few, all.clone()) {
            let (mut stream, blocks) = lead_to(state);
            let before = stream.bits.byte_len();
            (0..zeros).for_each(|_| stream.bits.write_bit(0));
            stream.bits.write_bit(1);
            (0..40).rev().for_each(|i| stream.bits.write_bit((tail >> i) as u32));
            let payload = stream.bits.finish();
            let cuts = extent.of(&[payload.len()], before.saturating_sub(1)..=payload.len());
            cuts.into_iter().for_each(|cut| decode(to, blocks, &payload[..cut]));
        }
    }
}

/// Payloads cut at every byte, so that the bits run out in each sort of element; and a full list, behind
/// which all bits are ignored.
fn ends(to: &mut impl Asking<Coefficients, 1>) {
    let payload = Elements::payload(|stream| {
        [900, 70, 131, 2].iter().for_each(|&symbol| stream.dc(symbol));
        let pairs = [(0, 300), (17, 9), (40, 0), (2, 77), (0, 1), (90, 5000)];
        pairs.iter().for_each(|&(run, symbol)| stream.pair(run, symbol, 1));
    });
    (0..=payload.len()).for_each(|cut| decode(to, 4, &payload[..cut]));

    // the last pair has so long a run, and those before it none; 63 is too long
    for last in [0, 1, 62, 63] {
        let full = Elements::payload(|stream| {
            stream.dc(5);
            (0..62 - last.min(62)).for_each(|place| stream.pair(0, place % 3, place % 2));
            stream.pair(last, 2, 1);
        });
        for tail in [&[][..], &[0xff], &[0x01], &[0x00, 0x80], &[0; 6], &[0, 0, 0, 0, 0, 0, 0, 1]] {
            decode(to, 1, &[&full, tail].concat());
        }
    }
}

/// Symbols at the ends of the ranges of symbols and coefficients: 6, 7 and 8, and the last that are none. A level that
/// is too large waits for its sign, so at the end of the payload it may be 5.
fn edges(extent: Extent, to: &mut impl Asking<Coefficients, 1>) {
    for symbol in EDGES {
        for before in 0..4 {
            let dcs = [0, 7, 2].into_iter().take(before).chain([symbol]);
            decode(to, before + 1, &Elements::payload(|stream| dcs.for_each(|symbol| stream.dc(symbol))));
        }
        for sign in 0..2 {
            let payload = one_pair(1, 3, symbol, sign);
            decode(to, 1, &payload);
            decode(to, 1, &payload[..payload.len() - 1]);
        }
        decode(to, 1, &one_pair(1, symbol, 0, 0));
    }
    // from one end of the coefficients to the other and past it, flipped and not
    for targets in [[MOST, -MOST], [-MOST, MOST], [MOST, -MOST - 1], [-MOST, MOST + 1], [MOST + 1, 0], [-MOST - 1, 0]] {
        let dcs = targets.into_iter().chain([1, -1, MOST - 1]);
        decode(to, 5, &Elements::payload(|stream| dcs.for_each(|value| stream.dc_to(value))));
    }
    // the last place, and each run past it
    (60..=66).for_each(|run| [0, 3].iter().for_each(|&level| decode(to, 1, &one_pair(0, run, level, 0))));
    for (state, (symbol, sign)) in each(extent.of(&[], every_state()), each(EDGES, [0, 1])) {
        let (mut stream, blocks) = lead_to(state);
        stream.due(state, symbol, sign);
        stream.bits.write_bits(u32::MAX, 16);
        let payload = stream.bits.finish();
        (0..=payload.len()).for_each(|cut| decode(to, blocks, &payload[..cut]));
    }
}

/// A DC and a pair.
fn one_pair(dc: u32, run: u32, level: u32, sign: u32) -> Vec<u8> {
    Elements::payload(|stream| {
        stream.dc(dc);
        stream.pair(run, level, sign);
    })
}

/// Every payload of up to 2 bytes for every count of blocks and one more; and those of 3 bytes for few.
fn short_payloads(extent: Extent, to: &mut impl Asking<Coefficients, 1>) {
    for payload in extent.of(&[], 0..=2).into_iter().flat_map(every) {
        (0..=MOST_BLOCKS + 1).for_each(|blocks| decode(to, blocks, &payload));
    }
    for payload in extent.some(every(3)) {
        (0..=2).for_each(|blocks| decode(to, blocks, &payload));
    }
}

// ---- lists

/// A coefficient out of range, lists of a wrong length, and counts past the limit.
fn encode_arguments(extent: Extent, to: &mut impl Asking<Coefficients, 1>) {
    let every_place = [1, 2, 7, 32].into_iter().flat_map(|blocks| (0..64 * blocks).map(move |place| (blocks, place)));
    for (blocks, place) in extent.of(&[(1, 0), (1, 1), (1, 63), (2, 1), (2, 127), (32, 31), (32, 2047)], every_place) {
        for (value, room) in each(OUT_OF_RANGE, [8, 0]) {
            encode_set(to, blocks, &[(place, value)], Room::Of(room));
        }
        encode_set(to, blocks, &[(place, MOST as i32)], Room::Needed(0));
        encode_set(to, blocks, &[(place, -MOST as i32)], Room::Needed(2));
        encode_set(to, blocks, &[(place, -MOST as i32)], Room::Of(0));
    }
    let lengths = [0, 1, 63, 64, 65, 127, 2047, 2048, 2049, 2111, MOST_LENGTH];
    let wrong = each([0, 1, 2, 31, 32, 33, 1 << 58, usize::MAX], lengths);
    for (blocks, length) in wrong.filter(|&(blocks, length)| blocks > MOST_BLOCKS || length != 64 * blocks) {
        to.encode(&vec![0; length], [blocks], Room::Of(8));
        if length > 0 {
            to.encode(&list_of(length, &[(length - 1, i32::MIN)]), [blocks], Room::Of(0));
        }
    }
    encode_set(to, 0, &[], Room::Of(0));
    encode_set(to, 0, &[], Room::Of(4));
}

/// Pairs of runs, of levels and of differences that choose each book, and the books' own limits.
fn books(extent: Extent, to: &mut impl Asking<Coefficients, 1>) {
    let mut pair = |(run, next_run): (usize, usize), (level, next_level): (i32, i32), more: usize| {
        let set = [(1 + run, level), (2 + run + next_run, -next_level)];
        encode_set(to, 1, &set, Room::Needed(more));
    };
    let levels = each(1..=10, 1..=10);
    each(0..=16, [0, 1, 2, 3, 4, 5, 9, 15]).for_each(|runs| pair(runs, (1, 1), 1));
    levels.clone().for_each(|levels| pair((0, 0), levels, 0));
    each(extent.of(&[], each(0..=16, 0..=16)), levels).for_each(|(runs, levels)| pair(runs, levels, 0));
    for (difference, next) in each(-4..=4, -5..=5) {
        let set = [(0, 1), (1, 1 + difference), (2, 1 + difference + next)];
        encode_set(to, 3, &set, Room::Needed(0));
    }
    // all DCs of up to three small differences
    for number in extent.of(&[], 0..9 * 9 * 9) {
        let differences = [number % 9 - 4, number / 9 % 9 - 4, number / 81 - 4];
        for (first, blocks) in each([0, 1, -1, -40], 2..=4) {
            let mut list = vec![0; 64 * blocks];
            list[0] = first;
            (1..blocks).for_each(|i| list[i] = list[i - 1] + differences[i - 1]);
            to.encode(&list, [blocks], Room::Needed(0));
        }
    }
}

/// The first and the last magnitude of each width, as a first DC, a difference, a level and after each, or at every
/// place; and lists of each width.
fn widths(extent: Extent, to: &mut impl Asking<Coefficients, 1>) {
    for magnitude in (0..29).flat_map(|width| [1 << width, (2 << width) - 1]) {
        for value in [magnitude, -magnitude] {
            encode_set(to, 2, &[(0, value)], Room::Of(24));
            encode_set(to, 2, &[(1, value), (2, -value)], Room::Of(24));
            extent.of(&[], 0..64).into_iter().for_each(|place| encode_set(to, 1, &[(place, value)], Room::Needed(0)));
        }
    }
    let random = &mut Random::new(extent.seed());
    let kinds = extent.of(&[Kind::Dense, Kind::Extreme], KINDS);
    for (b, (blocks, kind)) in each(extent.of(&[1, 2, 9, 29], 0..=29), each(extent.of(&[1], 0..=MOST_BLOCKS), kinds)) {
        to.encode(&list(random, blocks, b, kind), [blocks], Room::Needed(1));
    }
}
