// bench [ROUNDS [CODER]]: times the proved code, as C calls it, against the Rust over its own bitstream.rs, and for the
// coders also over the plain bit layer, in one process. The sides take turns, round after round, and the best round of
// each counts, so that what else the machine does hits all alike. Before they are timed, all must give right answers.
//
// bench count [CODER]: runs each side of each race once and prints its name, for bench/count.sh to count instructions.
//
// Compiled with --cfg against, the sides are today's archive and that of an earlier commit (bench/against).
use std::time::Instant;

mod races;

/// Makes the module of each coder known, and puts its `run` into the list.
macro_rules! coders {
    ($($(#[$when:meta])? $name:ident)*) => {
        $($(#[$when])? mod $name;)*
        const CODERS: &[(&str, fn(&Plan))] = &[$($(#[$when])? (stringify!($name), $name::run)),*];
    };
}

// One line for each coder, whose benchmark is the file of that name. The face of C does not have the bit layer.
coders! {
    #[cfg(not(against))] bits
    coefficients
    slices
    alpha
}

/// Who takes part in a race.
#[derive(Clone, Copy, PartialEq)]
pub enum Side {
    /// The proved code of today, and that of an earlier commit.
    Proved,
    Base,
    /// The Rust over its own bits, and over plain ones.
    Real,
    Plain,
}

/// The sides of a coder's race.
pub const SIDES: &[Side] =
    if cfg!(against) { &[Side::Proved, Side::Base] } else { &[Side::Proved, Side::Real, Side::Plain] };

impl Side {
    fn name(self) -> &'static str {
        match self {
            Side::Proved => if cfg!(against) { "now" } else { "proved" },
            Side::Base => "base",
            Side::Real => "Rust",
            Side::Plain => "Rust over plain bits",
        }
    }

    /// Has the C face call the archive of this side. Tells whether that has a function, named as in C.
    fn choose(self, _function: &str) -> bool {
        #[cfg(against)]
        {
            extern "C" {
                fn against_choose(base: bool, function: *const u8, len: usize) -> bool;
            }
            return unsafe { against_choose(self == Side::Base, _function.as_ptr(), _function.len()) };
        }
        #[cfg(not(against))]
        true
    }
}

/// How many rounds are timed; none where the instructions of one are counted.
pub struct Plan {
    rounds: Option<u32>,
}

impl Plan {
    /// Races `sides`, which do so many things a round by a function of the C face. `right` tells whether a side's
    /// answers are right, or its times would say nothing, and `run` is a round of it.
    pub fn race(
        &self, what: &str, function: &str, things: usize, sides: &[Side],
        right: &dyn Fn(Side) -> bool, run: &mut dyn FnMut(Side),
    ) {
        for side in sides {
            if !side.choose(function) {
                return eprintln!("{}: left out, since {} has no {}", what, side.name(), function);
            }
            assert!(right(*side), "{}: the answers of {} are not right", what, side.name());
        }
        let Some(least) = self.rounds else {
            for side in sides {
                side.choose(function);
                counted(run, *side);
                println!("{}\t{}", what, side.name());
            }
            return;
        };
        let mut best = vec![f64::MAX; sides.len()];
        let first = Instant::now();
        let mut rounds = 0;
        // a round of few milliseconds needs more of them to have one undisturbed
        while rounds < least || first.elapsed().as_secs_f64() < 1.0 {
            rounds += 1;
            for (best, side) in best.iter_mut().zip(sides) {
                side.choose(function);
                let began = Instant::now();
                run(*side);
                *best = best.min(began.elapsed().as_secs_f64());
            }
        }
        let each = 1e9 / things as f64;
        print!("{:44} {} {:7.2} ns", what, sides[0].name(), best[0] * each);
        for (side, time) in sides.iter().zip(&best).skip(1) {
            print!(", {} {:7.2} ns, {} / it {:.2}", side.name(), time * each, sides[0].name(), best[0] / time);
        }
        println!();
    }
}

/// The round that is counted, under a name that valgrind can be told.
#[no_mangle]
#[inline(never)]
fn counted(run: &mut dyn FnMut(Side), side: Side) {
    run(side);
}

fn main() {
    let words: Vec<String> = std::env::args().skip(1).collect();
    let rounds = match words.first().map(String::as_str) {
        None => Some(Some(7)),
        Some("count") => Some(None),
        Some(word) => word.parse().ok().map(Some),
    };
    let asked = |name| words.get(1).map_or(true, |word| word == name);
    let coders: Vec<_> = CODERS.iter().filter(|(name, _)| asked(name)).collect();
    let (Some(rounds), false, 0..=2) = (rounds, coders.is_empty(), words.len()) else {
        eprintln!("usage: bench [ROUNDS | count [CODER]]");
        std::process::exit(2);
    };
    if let Some(rounds) = rounds {
        println!("best of {} rounds, or of as many as a second takes, taking turns", rounds);
    }
    coders.iter().for_each(|(_, run)| run(&Plan { rounds }));
}
