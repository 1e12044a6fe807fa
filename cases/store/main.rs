// store FOLDER: writes FOLDER/cases.txt and FOLDER/answers.txt, the stored cases, one a line, and their answers: those
// of the bit layer, then those of each coder. The same bytes on every machine. The code under test has no part in it.
use std::{collections::HashSet, fs, path::Path};

use cases::{
    alpha, alpha_samples, alpha_streams, asking::{Asking, Extent, Room, SEED}, coefficients, random::Random, slices,
    streams,
};
use model::{alpha::{Alpha, KINDS}, coefficients::Coefficients, slices::{layout, Shape, Slices}};
use oracle_plain::asked;

mod bad_lines;
mod bits;
mod coders;
mod matrices;

/// The cases so far, one a line, and the answer to each.
#[derive(Default)]
struct Stored {
    seen: HashSet<String>,
    cases: String,
    answers: String,
}

impl Stored {
    fn add(&mut self, case: String, answer: String) {
        // edges meet: a case is stored once
        if !self.seen.insert(case.clone()) {
            return;
        }
        self.cases += &(case + "\n");
        self.answers += &(answer + "\n");
    }

    fn bad(&mut self, lines: &[&str]) {
        lines.iter().for_each(|line| self.add(line.to_string(), "bad line".to_string()));
    }
}

fn refused(number: u32) -> String {
    format!("refused {}", number)
}

fn hex(bytes: &[u8]) -> String {
    if bytes.is_empty() {
        return "-".to_string();
    }
    bytes.iter().map(|byte| format!("{:02x}", byte)).collect()
}

// ---- random cases of each coder, of which a line is short

fn random_coefficients(to: &mut impl Asking<Coefficients, 1>) {
    let random = &mut Random::new(SEED);
    for _ in 0..500 {
        let blocks = random.pick(&[1, 1, 2, 3, 5]);
        let mut payload = streams::random_payload(random, blocks);
        payload.truncate(40);
        to.decode([&payload], [blocks], 64 * blocks);
    }
    for _ in 0..150 {
        let blocks = random.pick(&[1, 2, 4, 8, 16, 32]);
        let more = random.below(4) as usize;
        to.encode(&short_list(random, blocks), [blocks], Room::Needed(more));
    }
}

/// Up to 12 coefficients that are not 0, a quarter of them DCs, of small and large widths.
fn short_list(random: &mut Random, blocks: usize) -> Vec<i32> {
    let width = random.pick(&[2, 4, 6, 11, 29]);
    let mut list = vec![0; 64 * blocks];
    for _ in 0..random.below(13) {
        let end = if random.once_in(4) { blocks } else { 64 * blocks };
        let value = random.below(1 << width) as i32;
        list[random.below(end as u64) as usize] = if random.once_in(2) { -value } else { value };
    }
    list
}

fn random_slices(to: &mut impl Asking<Slices, 3>) {
    let random = &mut Random::new(SEED);
    for _ in 0..40 {
        let (chroma, scan) = random.pick(&model::slices::KINDS);
        let shape = Shape { macroblocks: random.pick(&[1, 1, 2, 3, 5, 8]), chroma, scan };
        let layout = layout(shape);
        let mut payloads = [0, 1, 2].map(|component| {
            let blocks = layout.blocks(component);
            asked::encode(&short_list(random, blocks), blocks)
        });
        // one in four has none that is bad
        if let Some(component) = random.pick(&[Some(0), Some(1), Some(2), None]) {
            payloads[component] = streams::random_payload(random, layout.blocks(component));
            payloads[component].truncate(60);
        }
        slices::decode(to, shape, &payloads);
        let more = random.below(4) as usize;
        slices::both_ways(to, shape, &short_list(random, layout.length() / 64), more);
    }
}

fn random_alpha(to: &mut impl Asking<Alpha, 1>) {
    let random = &mut Random::new(SEED);
    for _ in 0..150 {
        let kind = random.pick(&KINDS);
        let count = random.pick(&[0, 1, 2, 5, 16, 17, 40, 100]);
        let list = alpha_samples::random_samples(random, count, kind);
        // also where a sample is too large there is a code, whose bytes are the room
        let needed = asked::encode_alpha(&list, kind.number).len();
        to.encode(&list, [kind.number], Room::Of(needed + random.below(4) as usize));
        let mut payload = alpha_streams::random_payload(random, kind, count);
        payload.truncate(200);
        to.decode([&payload], [kind.number], count);
    }
}

fn main() {
    let folder = std::env::args().nth(1).expect("usage: store FOLDER");
    let stored = &mut Stored::default();
    bits::add_to(stored);
    coefficients::ask(Extent::Few, stored);
    stored.bad(&bad_lines::COEFFICIENTS);
    random_coefficients(stored);
    matrices::add_to(stored);
    slices::ask(Extent::Few, stored);
    stored.bad(&bad_lines::SLICES);
    random_slices(stored);
    alpha::ask(Extent::Few, stored);
    stored.bad(&bad_lines::ALPHA);
    random_alpha(stored);
    fs::write(Path::new(&folder).join("cases.txt"), &stored.cases).expect("the cases are written");
    fs::write(Path::new(&folder).join("answers.txt"), &stored.answers).expect("the answers are written");
}
