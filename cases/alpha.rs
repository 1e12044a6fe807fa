// Cases of the alpha coder: document 01's rows, arguments, both forms of a difference, the three of a run, codes that
// end at each bit of a byte.
use model::{alpha::{Alpha, Kind, KINDS, MOST_RUN, MOST_SAMPLES}, MOST_BYTES};
use oracle_plain::{asked::encode_alpha, bitstream::bits_written};

use crate::{
    alpha_samples::{edges, samples, Texture, RUNS, TEXTURES, TOO_LARGE}, alpha_streams::Elements,
    asking::{Asking, Extent, Room}, bytes::{each, every}, document::{ALPHA_CODED, ALPHA_REFUSED}, random::Random,
};

pub fn ask(extent: Extent, to: &mut impl Asking<Alpha, 1>) {
    table(to);
    arguments(extent, to);
    for kind in KINDS {
        differences(extent, to, kind);
        runs(extent, to, kind);
        ends(extent, to, kind);
        rooms(extent, to, kind);
        short_payloads(extent, to, kind);
    }
    too_large(to);
}

/// With room to the byte and so many bytes more; and the code, decoded.
fn both_ways(to: &mut impl Asking<Alpha, 1>, kind: usize, list: &[u16], more: usize) -> Vec<u8> {
    let code = encode_alpha(list, kind);
    to.encode(list, [kind], Room::Needed(more));
    to.decode([&code], [kind], list.len());
    code
}

fn table(to: &mut impl Asking<Alpha, 1>) {
    for (kind, list, _) in ALPHA_CODED {
        both_ways(to, kind, list, 2);
    }
    for (payload, length, _) in ALPHA_REFUSED {
        to.decode([payload], [1], length);
    }
}

// ---- arguments

/// Arguments past their limits, alone and with those behind them wrong too: 13, 1, 4, 3; and at their limits.
fn arguments(extent: Extent, to: &mut impl Asking<Alpha, 1>) {
    let kinds = [0, 1, 2, 3, 257, 1 << 32 | 2, usize::MAX];
    for (kind, length) in each(kinds, [0, 1, 2, MOST_SAMPLES, MOST_SAMPLES + 1]) {
        for payload in [&[][..], &[0], &[0x74], &[0x00, 0x80], &[0; MOST_BYTES], &[0; MOST_BYTES + 1]] {
            to.decode([payload], [kind], length);
        }
        let flat = vec![0; length];
        let mut steep = flat.clone();
        steep.iter_mut().skip(length.max(1) - 1).for_each(|last| *last = TOO_LARGE[length % TOO_LARGE.len()]);
        for (list, room) in each([&flat, &steep], [40, 0]) {
            to.encode(list, [kind], Room::Of(room));
        }
    }
    // the longest list and the longest payload that are taken
    for kind in KINDS {
        let mut random = Random::new(extent.seed());
        for texture in extent.of(&[Texture::Flat, Texture::Matte], TEXTURES) {
            let mut list = samples(&mut random, MOST_SAMPLES, kind, texture);
            let code = both_ways(to, kind.number, &list, 0);
            let mut behind = code.clone();
            for bytes in [MOST_BYTES, MOST_BYTES + 1] {
                behind.resize(bytes, 0);
                to.decode([&behind], [kind.number], MOST_SAMPLES);
            }
            list.push(0);
            to.encode(&list, [kind.number], Room::Of(code.len()));
            for length in [MOST_SAMPLES + 1].into_iter().chain(extent.of(&[], [0, 1, MOST_SAMPLES - 1])) {
                to.decode([&code], [kind.number], length);
            }
        }
    }
}

/// 8-bit samples above 255: refused before the room is looked at, and taken as 16-bit ones.
fn too_large(to: &mut impl Asking<Alpha, 1>) {
    for sample in TOO_LARGE.into_iter().chain([255]) {
        for list in [&[sample][..], &[sample, 0, 0], &[3, sample, 3], &[0, 0, sample], &[sample; 17]] {
            each([0, 40], KINDS).for_each(|(room, kind)| to.encode(list, [kind.number], Room::Of(room)));
        }
    }
}

// ---- elements

/// Every edge alone and behind others, or all around it; in payloads both forms of a difference wrap, and are cut.
fn differences(extent: Extent, to: &mut impl Asking<Alpha, 1>, kind: Kind) {
    let (edges, most) = (edges(kind), kind.most());
    for (turn, &sample) in edges.iter().enumerate() {
        both_ways(to, kind.number, &[sample], turn % 3);
        for before in [edges[turn / 2], edges[(7 * turn + 3) % edges.len()], most - sample] {
            both_ways(to, kind.number, &[before, sample], turn % 2);
        }
    }
    // of 8 bits every two, of 16 bits each edge before all around it: also what would be small if it wrapped
    let first = if kind.width == 8 { (0..=most).collect() } else { edges.clone() };
    extent.of(&[], 0..=most).iter().for_each(|&sample| to.encode(&[sample], [kind.number], Room::Needed(0)));
    for &sample in &extent.of(&[], first.clone()) {
        let reach = kind.limit as u16 + 2;
        let around = (0..=2 * reach).map(|step| sample.wrapping_sub(reach).wrapping_add(step) & most);
        let seconds = around.chain(first.iter().copied());
        seconds.for_each(|second| to.encode(&[sample, second], [kind.number], Room::Needed(0)));
    }

    let mut ask = |before: Option<u16>, write: &dyn Fn(&mut Elements)| {
        let mut stream = Elements::new(kind);
        if let Some(sample) = before {
            // from -1
            stream.escaped(u32::from(sample) + 1);
            stream.run(1);
        }
        write(&mut stream);
        stream.run(1);
        let payload = stream.bits.finish();
        let length = 1 + usize::from(before.is_some());
        (0..=payload.len()).for_each(|cut| to.decode([&payload[..cut]], [kind.number], length));
    };
    let (limit, range) = (kind.limit, u32::from(most));
    let few = [None, Some(0), Some(1), Some(most - 1), Some(most)];
    for before in extent.of(&few, edges.iter().copied().map(Some).chain([None])) {
        for (field, sign) in each(extent.of(&[0, 1, limit - 2, limit - 1], 0..limit), [0, 1]) {
            ask(before, &|stream| stream.small(field, sign));
        }
        for field in extent.of(&[0, 1, limit, range / 2, range], edges.iter().map(|&edge| edge.into())) {
            ask(before, &|stream| stream.escaped(field));
        }
    }
    for field in extent.some(0..=range) {
        [None, Some(0), Some(most)].iter().for_each(|&before| ask(before, &|stream| stream.escaped(field)));
    }
}

/// Runs around those at which the form changes, or all, alone, behind another sample and two of them; in payloads into
/// as many places as they take, one fewer and one more, and cut. Fields of the long form that are no run.
fn runs(extent: Extent, to: &mut impl Asking<Alpha, 1>, kind: Kind) {
    for (turn, run) in extent.of(&RUNS, RUNS.into_iter().chain(1..=MOST_RUN + 20)).into_iter().enumerate() {
        both_ways(to, kind.number, &vec![kind.most(); run], 1);
        let other = RUNS[(5 * turn + 2) % RUNS.len()];
        let list = [vec![9; run], vec![9 + kind.limit as u16; other], vec![9; 1]].concat();
        both_ways(to, kind.number, &list, 0);
    }
    for (first, second) in extent.of(&[], each(RUNS, RUNS)) {
        let list = [vec![0; first], vec![kind.most(); second], vec![0; 1]].concat();
        to.encode(&list, [kind.number], Room::Needed(0));
    }

    let mut ask = |before: usize, run: usize, write: &dyn Fn(&mut Elements)| {
        let mut stream = Elements::new(kind);
        (0..before).for_each(|_| {
            stream.escaped(5);
            stream.run(1);
        });
        stream.small(kind.limit / 2, 1);
        write(&mut stream);
        let payload = stream.bits.finish();
        for length in [before + run, before + run - 1, before + run + 1] {
            to.decode([&payload], [kind.number], length);
        }
        (0..payload.len()).for_each(|cut| to.decode([&payload[..cut]], [kind.number], before + run));
    };
    let short = RUNS.into_iter().filter(|&run| run <= MOST_RUN).collect::<Vec<_>>();
    for (run, before) in each(extent.of(&short, 1..=MOST_RUN), [0, 1]) {
        ask(before, run, &|stream| stream.run(run));
    }
    for run in extent.of(&[], 1..=MOST_RUN) {
        ask(run % 2, run, &|stream| stream.long_run(run as u32 - 1));
    }
    for field in extent.of(&[0, 1, 14, 15, 16, 17], 0..=17) {
        for length in [0, 1, 5, field as usize, field as usize + 1, 20].into_iter().chain(extent.of(&[], 0..=18)) {
            let mut stream = Elements::new(kind);
            stream.escaped(0);
            stream.long_run(field);
            to.decode([&stream.bits.finish()], [kind.number], length);
        }
    }
}

/// Codes that end at each bit of a byte, with bits set behind them and bytes behind those.
fn ends(extent: Extent, to: &mut impl Asking<Alpha, 1>, kind: Kind) {
    // of kind 1 only a pair with a long run has an odd number of bits
    let few: Vec<(usize, u16)> = (0..4).flat_map(|more| [(1, 2 * more), (17, 2 * more + 1)]).collect();
    for (first, more) in extent.of(&few, (0..8).flat_map(|more| [(1, more), (17, more)])) {
        let mut list = vec![0; first];
        list.extend((1..=more).map(|step| 3 * step));
        let code = encode_alpha(&list, kind.number);
        let free = 8 * code.len() - bits_written();
        // nothing, the first bit, the last bit and all of them
        for value in extent.of(&[0, 1 << free >> 1, u32::from(free > 0), (1 << free) - 1], 0..1 << free) {
            let mut payload = code.clone();
            *payload.last_mut().expect("a code") |= value as u8;
            let few = [&[][..], &[0], &[1], &[0; 5]];
            for behind in extent.of(&few, few.into_iter().chain([&[0x80][..], &[0, 0, 0, 0, 1]])) {
                to.decode([&[&payload, behind].concat()], [kind.number], list.len());
            }
        }
    }
}

/// Room to the byte, more of it, a byte less and none.
fn rooms(extent: Extent, to: &mut impl Asking<Alpha, 1>, kind: Kind) {
    let random = &mut Random::new(extent.seed());
    for count in [0, 1, 2, 16, 17, 40, MOST_RUN, MOST_RUN + 1] {
        // of the longest lists those that have few words
        let textures = if count > 40 { &[Texture::Flat, Texture::Matte][..] } else { &TEXTURES };
        for &texture in textures {
            let list = samples(random, count, kind, texture);
            for room in [Room::Needed(0), Room::Needed(3), Room::Short, Room::Of(0)] {
                to.encode(&list, [kind.number], room);
            }
        }
    }
}

/// Every payload of up to 2 bytes, for up to 3 samples and around 16, the longest run that it can have.
fn short_payloads(extent: Extent, to: &mut impl Asking<Alpha, 1>, kind: Kind) {
    for payload in extent.of(&[], 0..=2).into_iter().flat_map(every) {
        (0..=3).chain(15..=17).for_each(|length| to.decode([&payload], [kind.number], length));
    }
}
