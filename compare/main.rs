// driver [SEED] [CASES] [STEP] [NAME..]: holds the proved code, linked in as C would link it, to the oracle: the coders and the
// matrices over the C face, which is what ships, and what that does not show over the crate `probe`.
//
// Each coder has every small input tried, then CASES random ones, or a fixed share of them where one case is
// the work of many; SEED repeats a run. Of the inputs that are too many for every run, each STEPth is
// tried. Everything is asked three times: of the proved code, of the Rust over the plain bit layer, which
// decides, and of the Rust over its own bitstream.rs, from which only the listed difference is allowed.
// The last line counts checks, not cases: one for each function and what it is held to, and one for each answer that
// must have been met, so that a run that never came by a refusal does not pass for one that tried it. NAMEs choose
// what is compared: bits, codewords, reader, coefficients, slices, alpha, matrices.
use std::time::Instant;

#[macro_use]
mod oracles;
mod face;
mod lent;
mod proved;
mod report;

mod alpha;
mod bits;
mod codewords;
mod coefficients;
mod matrices;
mod reader;
mod slices;

/// What is compared, each in the file of its name.
const COMPARED: [(&str, fn(&Run, &mut report::Report)); 7] = [
    ("bits", bits::run),
    ("codewords", codewords::run),
    ("reader", reader::run),
    ("coefficients", coefficients::run),
    ("slices", slices::run),
    ("alpha", alpha::run),
    ("matrices", matrices::run),
];

/// What the command line asks for.
pub struct Run {
    pub seed: u64,
    pub cases: u64,
    pub step: usize,
}

fn main() {
    let number = |place: usize, default: u64| {
        let word = std::env::args().nth(place).unwrap_or(default.to_string());
        word.parse().unwrap_or_else(|_| panic!("usage: driver [SEED] [CASES] [STEP] [NAME..], three numbers; not {}", word))
    };
    let run = Run { seed: number(1, 1), cases: number(2, 1_000_000), step: number(3, 1).max(1) as usize };
    println!("seed {}, {} random cases, step {}", run.seed, run.cases, run.step);
    // those that the command line names, or all; so that two runs can share the work
    let named: Vec<String> = std::env::args().skip(4).collect();
    let known = |word: &String| COMPARED.iter().any(|(name, _)| name == word);
    assert!(named.iter().all(known), "driver: what is compared has other names than {:?}", named);
    // a panic of the oracle is a fault of the case, and the report tells of it
    std::panic::set_hook(Box::new(|_| {}));
    let mut report = report::Report::default();
    let asked = |name: &str| named.is_empty() || named.iter().any(|word| word == name);
    for (name, compare) in COMPARED.into_iter().filter(|(name, _)| asked(name)) {
        let began = Instant::now();
        compare(&run, &mut report);
        println!("{}: {:.1} s", name, began.elapsed().as_secs_f64());
    }
    std::process::exit(report.end());
}
