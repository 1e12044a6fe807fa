// The slice coder, over the C face.
use cases::{
    asking::{Asking, Extent, Room}, lists::{list, random_list, Kind}, random::Random,
    slices::{blocks_of, decode, Payloads}, streams::random_payload,
};
use model::slices::{every_shape, layout, Shape, Slices, KINDS};
use oracle_plain::asked::encode;

use crate::{face::Face, report::Report, Run};

/// Of the random cases that a run asks for, one in so many is a slice, which is far more work than a payload.
const CASES_A_SLICE: u64 = 100;

pub fn run(run: &Run, report: &mut Report) {
    let mut face = Face::<Slices, 3>::new();
    cases::slices::ask(Extent::All { seed: run.seed, step: run.step }, &mut face);
    every_shape().for_each(|shape| face.ask_own(shape.numbers(), layout(shape).length()));
    random_cases(&mut face, &mut Random::new(run.seed), run.cases / CASES_A_SLICE);
    face.close(report);
}

fn random_cases(face: &mut Face<Slices, 3>, random: &mut Random, cases: u64) {
    for _ in 0..cases {
        let (chroma, scan) = random.pick(&KINDS);
        // mostly few macroblocks, since a case of many takes long
        let macroblocks = random.pick(&[1, 1, 1, 1, 2, 2, 3, 4, 5, 6, 7, 8]);
        let shape = Shape { macroblocks, chroma, scan };
        if random.once_in(4) {
            face.encode(&blocks_of(shape, |blocks| random_list(random, blocks)), shape.numbers(), Room::Needed(0));
        } else {
            decode(face, shape, &random_payloads(random, shape));
        }
    }
}

/// Good payloads, of which none, one, two or all three are made bad.
fn random_payloads(random: &mut Random, shape: Shape) -> Payloads {
    let layout = layout(shape);
    // Y is the lowest bit; one alone comes most often, and more often the later it is read
    let bad = random.pick(&[0b000, 0b000, 0b001, 0b010, 0b010, 0b100, 0b100, 0b100, 0b011, 0b101, 0b110, 0b111]);
    [0, 1, 2].map(|component| match (bad >> component & 1, layout.blocks(component)) {
        (0, blocks) => encode(&list(random, blocks, 5, Kind::Sparse), blocks),
        (_, blocks) => random_payload(random, blocks),
    })
}
