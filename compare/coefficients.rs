// The scanned coefficient coder, over the C face.
use cases::{
    asking::{Asking, Extent, Room}, lists::{random_blocks, random_list}, random::Random, streams::random_payload,
};
use model::coefficients::{Coefficients, MOST_BLOCKS};

use crate::{face::Face, report::Report, Run};

pub fn run(run: &Run, report: &mut Report) {
    let mut face = Face::<Coefficients, 1>::new();
    cases::coefficients::ask(Extent::All { seed: run.seed, step: run.step }, &mut face);
    (0..=MOST_BLOCKS + 1).for_each(|blocks| face.ask_own([blocks], 64 * blocks));
    let random = &mut Random::new(run.seed);
    for _ in 0..run.cases {
        let blocks = random_blocks(random);
        if random.once_in(16) {
            face.encode(&random_list(random, blocks), [blocks], Room::Needed(0));
        } else {
            face.decode([&random_payload(random, blocks)], [blocks], 64 * blocks);
        }
    }
    face.close(report);
}
