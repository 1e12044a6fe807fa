// The alpha coder, over the C face.
use cases::{
    alpha_samples::random_samples, alpha_streams::random_payload, asking::{Asking, Extent, Room}, random::Random,
};
use model::alpha::{Alpha, KINDS, MOST_SAMPLES};

use crate::{face::Face, report::Report, Run};

pub fn run(run: &Run, report: &mut Report) {
    let mut face = Face::<Alpha, 1>::new();
    cases::alpha::ask(Extent::All { seed: run.seed, step: run.step }, &mut face);
    for (kind, samples) in KINDS.into_iter().flat_map(|kind| [0, 1, 300].map(|samples| (kind, samples))) {
        face.ask_own([kind.number], samples);
    }
    random_cases(&mut face, &mut Random::new(run.seed), run.cases);
    face.close(report);
}

fn random_cases(face: &mut Face<Alpha, 1>, random: &mut Random, cases: u64) {
    for _ in 0..cases {
        let kind = random.pick(&KINDS);
        let count = random_count(random);
        if random.once_in(16) {
            face.encode(&random_samples(random, count, kind), [kind.number], Room::Needed(0));
        } else {
            let payload = random_payload(random, kind, count);
            // mostly as many as were meant
            let more = if random.once_in(8) { random.pick(&[0, 2]) } else { 1 };
            face.decode([&payload], [kind.number], (count + more).saturating_sub(1));
        }
    }
}

/// Mostly few samples, since a case of many takes long, and seldom as many as are allowed or one more.
fn random_count(random: &mut Random) -> usize {
    match random.below(4096) {
        0 => MOST_SAMPLES - 1 + random.below(3) as usize,
        1..=15 => random.below(5000) as usize,
        16..=600 => random.below(100) as usize,
        _ => random.below(16) as usize,
    }
}
