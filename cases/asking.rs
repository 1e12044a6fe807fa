// Who is asked, and how much: the stored cases and the comparison go through the same cases of each coder.
use model::coder::Coder;

/// Whoever a coder's cases are put to.
pub trait Asking<C: Coder<N>, const N: usize> {
    /// To decode into a list of this length.
    fn decode(&mut self, payloads: [&[u8]; N], shape: [usize; N], length: usize);
    fn encode(&mut self, list: &[C::Value], shape: [usize; N], room: Room);
}

/// The bytes of a buffer to encode into. The comparison tries many for each list, but for the last of these.
#[derive(Clone, Copy, PartialEq)]
pub enum Room {
    Of(usize),
    /// As many as the code has, and so many more.
    Needed(usize),
    /// One fewer, if there is one.
    Short,
    /// As many as the code has, and no others.
    Exactly,
}

/// How many cases are asked for.
#[derive(Clone, Copy)]
pub enum Extent {
    /// Few enough to be stored.
    Few,
    /// All that are small, those at every edge, and of those that are too many for every run each STEPth.
    All { seed: u64, step: usize },
}
use Extent::{All, Few};

/// The seed of stored cases.
pub const SEED: u64 = 36;

impl Extent {
    pub fn seed(self) -> u64 {
        if let All { seed, .. } = self { seed } else { SEED }
    }

    /// Those of one kind or the other.
    pub fn of<T: Clone>(self, few: &[T], all: impl IntoIterator<Item = T>) -> Vec<T> {
        if let All { .. } = self { all.into_iter().collect() } else { few.to_vec() }
    }

    /// Each STEPth of these, or none of them. Another seed begins elsewhere.
    pub fn some<T>(self, all: impl Iterator<Item = T>) -> impl Iterator<Item = T> {
        let (seed, step, most) = match self {
            Few => (0, 1, 0),
            All { seed, step } => (seed, step, usize::MAX),
        };
        all.skip(seed as usize % step).step_by(step).take(most)
    }
}
