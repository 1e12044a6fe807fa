// The coders of the C face, as the model has them.
use faces::cart::{self, Decoded, Encoded};
use model::{alpha::{Alpha, Kind}, coder::{Coder, Lent}, coefficients::Coefficients, slices::Slices, MOST_BYTES};

type Answers = (&'static str, &'static [u32]);

pub trait Proved<const N: usize>: Coder<N> {
    /// Its functions, and the numbers that each can answer.
    const DECODE: Answers;
    const ENCODE: Answers;
    /// Of whom answers to payloads must be met one by one, and which.
    const MEET: (&'static [&'static str], &'static [u32]) = (&[], &[]);
    /// Whether its reading ends where data does, of which bitstream.rs has another idea.
    const ENDS_WITH_DATA: bool = true;

    fn decode(payloads: [&[u8]; N], shape: [usize; N], list: &mut [Lent<Self, N>]) -> Decoded<N>;
    fn encode(list: &[Lent<Self, N>], shape: [usize; N], out: &mut [u8]) -> Encoded<N>;

    /// Whom of those an answer is about.
    fn about(_shape: [usize; N], _told: &Decoded<N>) -> Option<usize> {
        None
    }

    /// Lengths that a first code of so many bytes and bits can be brought to, with zeros where it grows; and the answer
    /// then.
    fn resized(_known: &Self::Known, _bytes: usize, _bits: usize) -> Vec<(usize, u32)> {
        Vec::new()
    }
}

impl Proved<1> for Coefficients {
    const DECODE: Answers = ("cart_decode", &[0, 1, 2, 5, 6, 7, 8]);
    const ENCODE: Answers = ("cart_encode", &[0, 1, 2, 3, 4]);

    fn decode([payload]: [&[u8]; 1], [blocks]: [usize; 1], list: &mut [u8]) -> Decoded<1> {
        cart::decode(payload, blocks, list)
    }

    fn encode(list: &[u8], [blocks]: [usize; 1], out: &mut [u8]) -> Encoded<1> {
        cart::encode(list, blocks, out)
    }

    /// Zero bytes behind a code are no part of it. As many as a payload may have take long, so not at every list.
    fn resized(_: &usize, bytes: usize, bits: usize) -> Vec<(usize, u32)> {
        let zeros: &[usize] = if bits % 16 == 0 { &[1, 4, 5, MOST_BYTES] } else { &[1, 4, 5] };
        zeros.iter().map(|zeros| ((bytes + zeros).min(MOST_BYTES), 0)).collect()
    }
}

impl Proved<3> for Slices {
    const DECODE: Answers = ("cart_decode_slice", &[0, 1, 2, 5, 6, 7, 8, 13]);
    const ENCODE: Answers = ("cart_encode_slice", &[0, 1, 2, 3, 4, 13]);
    const MEET: (&'static [&'static str], &'static [u32]) = (&["Y", "Cb", "Cr"], &[5, 6, 7, 8]);

    fn decode(payloads: [&[u8]; 3], shape: [usize; 3], list: &mut [u8]) -> Decoded<3> {
        cart::decode_slice(payloads, shape, list)
    }

    fn encode(list: &[u8], shape: [usize; 3], out: &mut [u8]) -> Encoded<3> {
        cart::encode_slice(list, shape, out)
    }

    fn about(_: [usize; 3], told: &Decoded<3>) -> Option<usize> {
        told.component.checked_sub(1).filter(|&component| component < 3)
    }
}

impl Proved<1> for Alpha {
    const DECODE: Answers = ("cart_decode_alpha", &[0, 1, 5, 9, 10, 11, 12, 13]);
    const ENCODE: Answers = ("cart_encode_alpha", &[0, 1, 3, 4, 13]);
    const MEET: (&'static [&'static str], &'static [u32]) = (&["kind 1", "kind 2"], &[0, 5, 9, 10, 11, 12]);
    const ENDS_WITH_DATA: bool = false;

    fn decode([payload]: [&[u8]; 1], [kind]: [usize; 1], list: &mut [u16]) -> Decoded<1> {
        cart::decode_alpha(payload, kind, list)
    }

    fn encode(list: &[u16], [kind]: [usize; 1], out: &mut [u8]) -> Encoded<1> {
        cart::encode_alpha(list, kind, out)
    }

    fn about([kind]: [usize; 1], _: &Decoded<1>) -> Option<usize> {
        Some(kind - 1)
    }

    /// A byte more is not read, and with a byte less bits run out.
    fn resized(&(_, samples): &(Kind, usize), bytes: usize, _: usize) -> Vec<(usize, u32)> {
        let shorter = (samples > 0).then(|| (bytes.saturating_sub(1), 5));
        [(bytes + 1, 11)].into_iter().chain(shorter).collect()
    }
}
