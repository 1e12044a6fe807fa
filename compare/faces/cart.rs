// The C face of the crate `cart`: the coders over N codes, one for coefficients and for alpha and three for a slice,
// in the order Y, Cb, Cr; and the matrices, of which a table is a pointer to 64 weights, with no length.
use crate::UNWRITTEN;

type Table = [u8; 64];
/// A place for a number.
type Number = *mut usize;

mod c {
    use super::{Number, Table};

    extern "C" {
        pub fn cart_encode(
            blocks: usize, coeffs: *const u8, len: usize, out: *mut u8, out_len: usize, bytes: Number, bits: Number,
        ) -> u32;
        pub fn cart_decode(
            blocks: usize, payload: *const u8, len: usize, coeffs: *mut u8, coeffs_len: usize, bits: Number,
        ) -> u32;
        pub fn cart_encode_slice(
            macroblocks: usize, chroma: usize, scan: usize, blocks: *const u8, len: usize, out: *mut u8, out_len: usize,
            y_bytes: Number, cb_bytes: Number, cr_bytes: Number,
            y_bits: Number, cb_bits: Number, cr_bits: Number, needed: Number,
        ) -> u32;
        pub fn cart_decode_slice(
            macroblocks: usize, chroma: usize, scan: usize,
            y: *const u8, y_len: usize, cb: *const u8, cb_len: usize, cr: *const u8, cr_len: usize,
            blocks: *mut u8, blocks_len: usize,
            component: Number, y_bits: Number, cb_bits: Number, cr_bits: Number,
        ) -> u32;
        pub fn cart_encode_alpha(
            kind: usize, samples: *const u16, len: usize, out: *mut u8, out_len: usize, bytes: Number, bits: Number,
        ) -> u32;
        pub fn cart_decode_alpha(
            kind: usize, payload: *const u8, len: usize, samples: *mut u16, samples_len: usize, bits: Number,
        ) -> u32;
        pub fn cart_flat(luma: *mut Table, chroma: *mut Table) -> u32;
        pub fn cart_perceptual(luma: *mut Table, chroma: *mut Table) -> u32;
        pub fn cart_signature_proxy(luma: *mut Table, chroma: *mut Table) -> u32;
        pub fn cart_signature_lt(luma: *mut Table, chroma: *mut Table) -> u32;
        pub fn cart_signature_standard(luma: *mut Table, chroma: *mut Table) -> u32;
        pub fn cart_signature_hq(luma: *mut Table, chroma: *mut Table) -> u32;
        pub fn cart_blend(number: usize, luma: *mut Table, chroma: *mut Table) -> u32;
        pub fn cart_matrix_flags(
            luma: *const Table, chroma: *const Table, valid: Number, load_luma: Number, load_chroma: Number,
        ) -> u32;
        pub fn cart_qscale(index: u8, scale: Number) -> u32;
    }
}

/// What a decoder told: a refusal number, 0 for done; the component that was refused, 1 for Y, 2 for Cb and 3 for Cr,
/// and 0 where none is named; the bits read of each payload.
#[derive(Clone, Copy, Debug, PartialEq, Eq)]
pub struct Decoded<const N: usize> {
    pub number: u32,
    pub component: usize,
    pub bits: [usize; N],
}

/// What an encoder told: a refusal number, 0 for done; the bytes and bits of each code; for refusal 3 the needed bytes.
#[derive(Clone, Copy, Debug, PartialEq, Eq)]
pub struct Encoded<const N: usize> {
    pub number: u32,
    pub bytes: [usize; N],
    pub bits: [usize; N],
    pub needed: usize,
}

// ---- one code

#[inline]
fn decoded(call: impl FnOnce(Number) -> u32) -> Decoded<1> {
    let mut bits = UNWRITTEN;
    let number = call(&mut bits);
    Decoded { number, component: 0, bits: [bits] }
}

/// One number is the code's bytes, or for refusal 3 those that are needed.
#[inline]
fn encoded(call: impl FnOnce(Number, Number) -> u32) -> Encoded<1> {
    let (mut bytes, mut bits) = (UNWRITTEN, UNWRITTEN);
    let number = call(&mut bytes, &mut bits);
    let (bytes, needed) = if number == 3 { (0, bytes) } else { (bytes, 0) };
    Encoded { number, bytes: [bytes], bits: [bits], needed }
}

#[inline]
pub fn decode(payload: &[u8], blocks: usize, coeffs: &mut [u8]) -> Decoded<1> {
    decoded(|bits| unsafe {
        c::cart_decode(blocks, payload.as_ptr(), payload.len(), coeffs.as_mut_ptr(), coeffs.len(), bits)
    })
}

#[inline]
pub fn encode(coeffs: &[u8], blocks: usize, out: &mut [u8]) -> Encoded<1> {
    encoded(|bytes, bits| unsafe {
        c::cart_encode(blocks, coeffs.as_ptr(), coeffs.len(), out.as_mut_ptr(), out.len(), bytes, bits)
    })
}

#[inline]
pub fn decode_alpha(payload: &[u8], kind: usize, samples: &mut [u16]) -> Decoded<1> {
    decoded(|bits| unsafe {
        c::cart_decode_alpha(kind, payload.as_ptr(), payload.len(), samples.as_mut_ptr(), samples.len(), bits)
    })
}

#[inline]
pub fn encode_alpha(samples: &[u16], kind: usize, out: &mut [u8]) -> Encoded<1> {
    encoded(|bytes, bits| unsafe {
        c::cart_encode_alpha(kind, samples.as_ptr(), samples.len(), out.as_mut_ptr(), out.len(), bytes, bits)
    })
}

// ---- three codes: of a shape, which is macroblocks, format and scan

#[inline]
pub fn decode_slice([y, cb, cr]: [&[u8]; 3], shape: [usize; 3], blocks: &mut [u8]) -> Decoded<3> {
    let (mut component, mut bits) = (UNWRITTEN, [UNWRITTEN; 3]);
    let [y_bits, cb_bits, cr_bits] = &mut bits;
    let [macroblocks, chroma, scan] = shape;
    let number = unsafe {
        c::cart_decode_slice(
            macroblocks, chroma, scan, y.as_ptr(), y.len(), cb.as_ptr(), cb.len(), cr.as_ptr(), cr.len(),
            blocks.as_mut_ptr(), blocks.len(), &mut component, y_bits, cb_bits, cr_bits,
        )
    };
    Decoded { number, component, bits }
}

#[inline]
pub fn encode_slice(blocks: &[u8], shape: [usize; 3], out: &mut [u8]) -> Encoded<3> {
    let (mut bytes, mut bits, mut needed) = ([UNWRITTEN; 3], [UNWRITTEN; 3], UNWRITTEN);
    let [y_bytes, cb_bytes, cr_bytes] = &mut bytes;
    let [y_bits, cb_bits, cr_bits] = &mut bits;
    let [macroblocks, chroma, scan] = shape;
    let number = unsafe {
        c::cart_encode_slice(
            macroblocks, chroma, scan, blocks.as_ptr(), blocks.len(), out.as_mut_ptr(), out.len(),
            y_bytes, cb_bytes, cr_bytes, y_bits, cb_bits, cr_bits, &mut needed,
        )
    };
    Encoded { number, bytes, bits, needed }
}

// ---- matrices

/// The functions that give a pair: flat, perceptual, and the signatures of Proxy, LT, Standard and HQ.
pub const PAIRS: [(&str, fn(&mut Table, &mut Table) -> u32); 6] = [
    ("cart_flat", |luma, chroma| unsafe { c::cart_flat(luma, chroma) }),
    ("cart_perceptual", |luma, chroma| unsafe { c::cart_perceptual(luma, chroma) }),
    ("cart_signature_proxy", |luma, chroma| unsafe { c::cart_signature_proxy(luma, chroma) }),
    ("cart_signature_lt", |luma, chroma| unsafe { c::cart_signature_lt(luma, chroma) }),
    ("cart_signature_standard", |luma, chroma| unsafe { c::cart_signature_standard(luma, chroma) }),
    ("cart_signature_hq", |luma, chroma| unsafe { c::cart_signature_hq(luma, chroma) }),
];

pub fn blend(number: usize, luma: &mut Table, chroma: &mut Table) -> u32 {
    unsafe { c::cart_blend(number, luma, chroma) }
}

/// The result, and whether a pair is valid, has its luma loaded and its chroma: 1 where it is so.
pub fn matrix_flags(luma: &Table, chroma: &Table) -> (u32, [usize; 3]) {
    let [mut valid, mut load_luma, mut load_chroma] = [UNWRITTEN; 3];
    let number = unsafe { c::cart_matrix_flags(luma, chroma, &mut valid, &mut load_luma, &mut load_chroma) };
    (number, [valid, load_luma, load_chroma])
}

/// The result and the scale.
pub fn qscale(index: u8) -> (u32, [usize; 1]) {
    let mut scale = UNWRITTEN;
    let number = unsafe { c::cart_qscale(index, &mut scale) };
    (number, [scale])
}
