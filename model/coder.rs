// What a coder is: document 01's rules for it, and how the Rust is asked for the same. Its lists have N codes, each
// with a payload: one for coefficients and for alpha, three for a slice. And it is asked with N numbers, its shape,
// whether they name something or not: blocks; an alpha kind; macroblocks, format and scan.
use std::fmt::Debug;

/// A coefficient or a sample, and what C lends for it: four bytes, the lowest first, or the sample itself.
pub trait Value: Copy + Debug + Default + PartialEq + Into<i64> {
    type Lent: Copy + Debug + Default + PartialEq + From<u8>;
    /// Lent items of a value.
    const ITEMS: usize;

    fn put(number: i64, items: &mut [Self::Lent]);
    fn of(items: &[Self::Lent]) -> Self;
}

impl Value for i32 {
    type Lent = u8;
    const ITEMS: usize = 4;

    #[inline]
    fn put(number: i64, items: &mut [u8]) {
        items.copy_from_slice(&(number as i32).to_le_bytes());
    }

    #[inline]
    fn of(items: &[u8]) -> i32 {
        i32::from_le_bytes(items.try_into().expect("four"))
    }
}

impl Value for u16 {
    type Lent = u16;
    const ITEMS: usize = 1;

    fn put(number: i64, items: &mut [u16]) {
        items[0] = number as u16;
    }

    fn of(items: &[u16]) -> u16 {
        items[0]
    }
}

/// What a list of a coder is lent as.
pub type Lent<C, const N: usize> = <<C as Coder<N>>::Value as Value>::Lent;

/// The bits that were read of each payload; or the component, 1 to 3 and 0 where a coder has none, and its refusal.
pub type Outcome<const N: usize> = Result<[usize; N], (usize, u32)>;

/// What the Rust gives: a list, or the refusal that its error stands for.
pub type Given<V> = Result<Vec<V>, u32>;

pub trait Coder<const N: usize> {
    type Value: Value;
    /// A shape that names something, with all that follows from it.
    type Known;

    // ---- document 01's rules

    /// The refusal of a decode by its arguments, of which the last is the length of the list.
    fn decode_arguments(payloads: [&[u8]; N], shape: [usize; N], length: usize) -> Result<Self::Known, u32>;
    /// The refusal of an encode by its arguments; the room, which comes last, is left to the caller.
    fn encode_arguments(list: &[Self::Value], shape: [usize; N]) -> Result<Self::Known, u32>;
    /// Reads payloads. What was read is kept over whole numbers in the order of reading; where refusal 8 ends that, the
    /// number out of range is the last that is not 0.
    fn read(payloads: [&[u8]; N], known: &Self::Known, exact: &mut Vec<i64>) -> Outcome<N>;
    /// How much of that is each payload's.
    fn parts(known: &Self::Known) -> [usize; N];
    /// The place in the list of what was read after so many others.
    fn place(_known: &Self::Known, read: usize) -> usize {
        read
    }
    /// The most bits that each code of a list may have, and bytes that are enough for the codes of any such list.
    fn bounds(list: &[Self::Value], known: &Self::Known) -> ([usize; N], usize);

    // ---- the Rust

    fn rust_decode(rust: &Rust, payloads: [&[u8]; N], known: &Self::Known) -> Given<Self::Value>;
    /// The bits of each payload, or which is refused, as the plain bit layer has them once the Rust over it has given
    /// this; nothing where it does not tell, since the Rust reads on.
    fn plain_bits(_: [&[u8]; N], _known: &Self::Known, _given: &Given<Self::Value>) -> Option<Outcome<N>> {
        None
    }
    /// The codes, and the bits of each as the plain bit layer has them.
    fn rust_encode(rust: &Rust, list: &[Self::Value], known: &Self::Known) -> ([Vec<u8>; N], [usize; N]);
}

/// The coders of the Rust, over one of its bit layers.
pub struct Rust {
    pub decode: fn(&[u8], usize) -> Given<i32>,
    pub encode: fn(&[i32], usize) -> Vec<u8>,
    pub decode_slice: fn([&[u8]; 3], [usize; 3]) -> Given<i32>,
    pub encode_slice: fn(&[i32], [usize; 3]) -> Result<[Vec<u8>; 3], u32>,
    pub decode_alpha: fn(&[u8], usize, usize) -> Given<u16>,
    pub encode_alpha: fn(&[u16], usize) -> Vec<u8>,
}

/// The coders of an oracle crate.
#[macro_export]
macro_rules! rust {
    ($oracle:ident) => {
        $crate::coder::Rust {
            decode: $oracle::asked::decode,
            encode: $oracle::asked::encode,
            decode_slice: $oracle::asked::decode_slice,
            encode_slice: $oracle::asked::encode_slice,
            decode_alpha: $oracle::asked::decode_alpha,
            encode_alpha: $oracle::asked::encode_alpha,
        }
    };
}

pub const PLAIN: Rust = rust!(oracle_plain);
