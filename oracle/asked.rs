// The given coders and tables as document 01 asks for them: by its numbers, with flat lists, and with its refusal
// for an error. Both oracle crates have this file, so what is asked of one can be asked of the other.
use crate::alpha::{self, AlphaChannelType};
use crate::entropy;
use crate::frame::{ChromaFormat, Profile};
use crate::quant::{self, QuantMatrices};
use crate::slice;
use crate::Error;

/// What was asked for, or the refusal of document 01 that the error stands for.
pub type Answer<T> = std::result::Result<T, u32>;

// ---- coefficients

pub fn decode(payload: &[u8], blocks: usize) -> Answer<Vec<i32>> {
    entropy::decode_scanned_coefficients(payload, blocks).map_err(Error::number)
}

/// The code of a list of 64 x its blocks.
pub fn encode(list: &[i32], blocks: usize) -> Vec<u8> {
    entropy::encode_scanned_coefficients(list, blocks).expect("a list of 64 x its blocks")
}

// ---- slices: macroblocks, a format and a scan that must be known ones

fn format(chroma: usize) -> ChromaFormat {
    ChromaFormat::from_code(chroma as u8).expect("a known format")
}

/// The blocks of three payloads as one list.
pub fn decode_slice([y, cb, cr]: [&[u8]; 3], [macroblocks, chroma, scan]: [usize; 3]) -> Answer<Vec<i32>> {
    slice::decode_slice_components(y, cb, cr, macroblocks, format(chroma), scan == 1)
        .map(|blocks| blocks.concat())
        .map_err(Error::number)
}

/// The codes of the components of a list of whole blocks.
pub fn encode_slice(list: &[i32], [macroblocks, chroma, scan]: [usize; 3]) -> Answer<[Vec<u8>; 3]> {
    let blocks: Vec<[i32; 64]> = list.chunks_exact(64).map(|block| block.try_into().expect("64")).collect();
    slice::encode_slice_components(macroblocks, format(chroma), scan == 1, &blocks)
        .map(|(y, cb, cr)| [y, cb, cr])
        .map_err(Error::number)
}

/// The blocks of a chroma component in a macroblock, and all of a macroblock's.
pub fn blocks_per_mb(chroma: u8) -> Answer<[usize; 2]> {
    let format = ChromaFormat::from_code(chroma).map_err(Error::number)?;
    Ok([slice::chroma_blocks_per_mb(format), slice::blocks_per_mb(format)])
}

// ---- alpha: the kind must be 1 or 2, since there are no others to code

fn kind_of(kind: usize) -> AlphaChannelType {
    AlphaChannelType::from_code(kind as u8).expect("a known kind").expect("not the kind for none")
}

/// So many samples of a payload.
pub fn decode_alpha(payload: &[u8], kind: usize, samples: usize) -> Answer<Vec<u16>> {
    alpha::decode_scanned_alpha(payload, samples, kind_of(kind)).map_err(Error::number)
}

/// The code of any samples.
pub fn encode_alpha(samples: &[u16], kind: usize) -> Vec<u8> {
    alpha::encode_scanned_alpha(samples, kind_of(kind)).expect("samples are encoded")
}

/// The code of the kind that a code names. The code 0 names none.
pub fn alpha_code(code: u8) -> Answer<usize> {
    let kind = AlphaChannelType::from_code(code).map_err(Error::number)?;
    kind.map(|kind| kind.code().into()).ok_or(13)
}

// ---- matrices, scans and the scale

/// Luma and chroma.
pub type Pair = [[u8; 64]; 2];

const PROFILES: [Profile; 6] =
    [Profile::Proxy, Profile::Lt, Profile::Standard, Profile::Hq, Profile::Prores4444, Profile::Prores4444Xq];

fn pair(matrices: QuantMatrices) -> Pair {
    [matrices.luma, matrices.chroma]
}

/// Flat, perceptual, and the signatures of Proxy, LT, Standard and HQ: each under every name that the Rust has for it.
pub fn pairs() -> [Vec<Pair>; 6] {
    let signature = |profile| pair(QuantMatrices::signature_for_profile(profile));
    let hq = PROFILES[3..].iter().map(|&profile| signature(profile)).chain([[quant::SIGNATURE_HQ_QMAT; 2]]);
    [
        vec![pair(QuantMatrices::flat()), pair(QuantMatrices::default()), [quant::DEFAULT_QMAT; 2]],
        vec![pair(QuantMatrices::perceptual()), [quant::PERCEPTUAL_LUMA_QMAT, quant::PERCEPTUAL_CHROMA_QMAT]],
        vec![signature(Profile::Proxy), [quant::SIGNATURE_PROXY_LUMA_QMAT, quant::SIGNATURE_PROXY_CHROMA_QMAT]],
        vec![signature(Profile::Lt), [quant::SIGNATURE_LT_QMAT; 2]],
        vec![signature(Profile::Standard), [quant::SIGNATURE_STANDARD_QMAT; 2]],
        hq.collect(),
    ]
}

/// The blends of the profiles whose number this is.
pub fn blends(number: usize) -> Vec<Pair> {
    let profiles = PROFILES.iter().filter(|profile| usize::from(profile.default_quant_index()) == number);
    profiles.map(|&profile| pair(QuantMatrices::perceptual_for_profile(profile))).collect()
}

/// The block scan and its inverse, progressive and interlaced.
pub fn scans() -> [[[u8; 64]; 2]; 2] {
    [
        [quant::BLOCK_SCAN_PROGRESSIVE, quant::PROGRESSIVE_INV_SCAN],
        [quant::BLOCK_SCAN_INTERLACED, quant::INTERLACED_INV_SCAN],
    ]
}

/// Whether a pair is valid, has its luma loaded, its chroma, and is the default.
pub fn flags([luma, chroma]: Pair) -> [bool; 4] {
    let matrices = QuantMatrices { luma, chroma };
    let (load_luma, load_chroma) = matrices.wire_flags();
    [matrices.weights_valid(), load_luma, load_chroma, matrices.is_default()]
}

pub fn qscale(index: u8) -> usize {
    quant::qscale(index) as usize
}
