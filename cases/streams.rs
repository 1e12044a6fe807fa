// Payloads to decode: elements with symbols of any size, each written in the book whose turn it is; codes of
// good lists; and both of them damaged.
use model::{coefficients::MOST, MOST_BYTES};
use oracle_plain::{
    asked::encode, bitstream::BitWriter, entropy::{dc_diff_codebook, level_codebook, run_codebook, write_exp_golomb},
};

use crate::{lists::random_list, random::Random};

/// Elements one after another. Symbols that no list has are written like any other.
pub struct Elements {
    pub bits: BitWriter,
    /// The last DC, over whole numbers.
    dc: i64,
    last_difference: Option<i64>,
    last_run: u32,
    last_symbol: u32,
}

impl Elements {
    pub fn new() -> Self {
        Elements { bits: BitWriter::new(), dc: 0, last_difference: None, last_run: 4, last_symbol: 1 }
    }

    /// The payload of what is written.
    pub fn payload(write: impl FnOnce(&mut Elements)) -> Vec<u8> {
        let mut stream = Elements::new();
        write(&mut stream);
        stream.bits.finish()
    }

    /// A DC: the first one, or a difference to the last.
    pub fn dc(&mut self, symbol: u32) {
        let stored = (i64::from(symbol) + 1) / 2 * if symbol % 2 == 0 { 1 } else { -1 };
        match self.last_difference {
            None => {
                write_exp_golomb(&mut self.bits, symbol, 5);
                self.last_difference = Some(3);
                self.dc = stored;
            }
            Some(last) => {
                // from 3 on the magnitude does not matter
                dc_diff_codebook(last.abs().min(3) as u32).write(&mut self.bits, symbol);
                let difference = if last < 0 { -stored } else { stored };
                self.last_difference = Some(difference);
                self.dc += difference;
            }
        }
    }

    /// A DC of this value, from wherever the last one is.
    pub fn dc_to(&mut self, value: i64) {
        let difference = value - self.dc;
        let stored = if self.last_difference.unwrap_or(0) < 0 { -difference } else { difference };
        self.dc((if stored < 0 { -2 * stored - 1 } else { 2 * stored }) as u32);
    }

    pub fn run(&mut self, run: u32) {
        run_codebook(self.last_run).write(&mut self.bits, run);
        self.last_run = run;
    }

    pub fn level(&mut self, symbol: u32) {
        level_codebook(self.last_symbol).write(&mut self.bits, symbol);
        self.last_symbol = symbol;
    }

    pub fn pair(&mut self, run: u32, symbol: u32, sign: u32) {
        self.run(run);
        self.level(symbol);
        self.bits.write_bit(sign);
    }

    /// A symbol for what a state stands before, and what must follow it.
    pub fn due(&mut self, state: State, symbol: u32, sign: u32) {
        match state {
            State::FirstDc | State::Difference(_) => self.dc(symbol),
            State::Run(_) => self.pair(symbol, 0, sign),
            State::Level(_) => {
                self.level(symbol);
                self.bits.write_bit(sign);
            }
        }
    }
}

/// What the reader stands before, and what it read last of that sort; `None` at its first.
#[derive(Clone, Copy)]
pub enum State {
    FirstDc,
    Difference(Option<u32>),
    Run(Option<u32>),
    Level(Option<u32>),
}

/// Every state that chooses a book: each row of the tables from its first to its last value, and one more.
pub fn every_state() -> Vec<State> {
    let mut states = vec![State::FirstDc, State::Difference(None), State::Run(None), State::Level(None)];
    states.extend((0..=8).map(|symbol| State::Difference(Some(symbol))));
    states.extend((0..=16).map(|run| State::Run(Some(run))));
    states.extend((0..=9).map(|symbol| State::Level(Some(symbol))));
    states
}

/// The elements that lead to a state, and the blocks of such a payload.
pub fn lead_to(state: State) -> (Elements, usize) {
    let mut lead = Elements::new();
    if let State::FirstDc = state {
        return (lead, 2);
    }
    lead.dc(0);
    match state {
        State::FirstDc => {}
        State::Difference(last) => last.iter().for_each(|&symbol| lead.dc(symbol)),
        State::Run(last) => last.iter().for_each(|&run| lead.pair(run, 0, 0)),
        State::Level(last) => {
            last.iter().for_each(|&symbol| lead.pair(0, symbol, 1));
            lead.run(0);
        }
    }
    (lead, if let State::Difference(_) = state { 4 } else { 1 })
}

/// Symbols at which a rule ends.
pub const EDGES: [u32; 14] = [
    2 * LAST - 1, 2 * LAST, 2 * LAST + 1, 2 * LAST + 2, LAST - 1, LAST,
    (1 << 31) - 2, (1 << 31) - 1, 1 << 31, (1 << 31) + 1,
    u32::MAX - 3, u32::MAX - 2, u32::MAX - 1, u32::MAX,
];
const LAST: u32 = MOST as u32;

fn small(random: &mut Random) -> u32 {
    let width = random.below(6);
    random.below(1 << width) as u32
}

/// Elements of which most are small and some at the edge of a rule.
fn random_elements(random: &mut Random, blocks: usize) -> Vec<u8> {
    let mut stream = Elements::new();
    for _ in 0..blocks {
        match random.below(8 * blocks as u64) {
            0 => stream.dc(random.pick(&EDGES)),
            1 | 2 => stream.dc_to(random.pick(&[MOST, MOST + 1, -MOST, -MOST - 1, MOST - 1])),
            _ => stream.dc(small(random)),
        }
    }
    let mut left = 63 * blocks as u64;
    let pairs = random.below(40);
    for _ in 0..pairs {
        if left == 0 {
            break;
        }
        let run = match random.below(32) {
            // to the last place, and past it
            0 => (left - 1) as u32,
            1 => left as u32 + small(random),
            2 => random.pick(&EDGES),
            _ => small(random),
        };
        let symbol = if random.once_in(32) { random.pick(&EDGES) } else { small(random) };
        stream.pair(run, symbol, random.below(2) as u32);
        left = left.saturating_sub(u64::from(run) + 1);
    }
    stream.bits.finish()
}

/// A payload, good or bad in one of many ways.
pub fn random_payload(random: &mut Random, blocks: usize) -> Vec<u8> {
    damaged(random, [3, 12], &|random| random_elements(random, blocks), &|random| {
        let mut list = random_list(random, blocks);
        // the Rust may panic on what is out of range, and here only a code is wanted
        list.iter_mut().for_each(|value| *value = (*value).clamp(-MOST as i32, MOST as i32));
        encode(&list, blocks)
    })
}

type Making<'a> = &'a dyn Fn(&mut Random) -> Vec<u8>;

/// Noise, elements or a code. Five times in eight it has a bit changed, loses its end or a stretch, or has zero bytes
/// behind it.
pub fn damaged(random: &mut Random, noise: [u64; 2], elements: Making<'_>, code: Making<'_>) -> Vec<u8> {
    let mut bytes = match random.below(8) {
        i @ 0..=1 => random_noise(random, noise[i as usize]),
        2..=4 => elements(random),
        _ => code(random),
    };
    match random.below(8) {
        0 if !bytes.is_empty() => {
            let place = random.below(bytes.len() as u64) as usize;
            bytes[place] ^= 1 << random.below(8);
        }
        1 => bytes.truncate(random.below(bytes.len() as u64 + 1) as usize),
        2 => bytes.truncate(bytes.len().saturating_sub(1 + random.below(3) as usize)),
        3 => bytes.resize(bytes.len() + random.below(12) as usize, 0),
        4 if !bytes.is_empty() => {
            let from = random.below(bytes.len() as u64) as usize;
            let to = (from + 1 + random.below(12) as usize).min(bytes.len());
            bytes[from..to].fill(0);
        }
        5 if random.once_in(100) => bytes.resize(MOST_BYTES + random.below(3) as usize - 1, 0),
        _ => {}
    }
    bytes
}

/// Up to 40 bytes, in which a bit of a byte is 1 about once in so many.
fn random_noise(random: &mut Random, once_in: u64) -> Vec<u8> {
    let mut byte = || (0..8).fold(0, |byte, _| byte << 1 | u8::from(random.once_in(once_in)));
    let bytes: Vec<u8> = (0..40).map(|_| byte()).collect();
    bytes[..random.below(41) as usize].to_vec()
}
