// The C face of the crate `probe`: the bit layer, codewords of any parameters, the reader object, and single numbers.
use crate::UNWRITTEN;

/// A refusal number, 0 for done, and what came back through the pointers. A function without a value
/// tells 0.
#[derive(Clone, Copy, Debug, PartialEq, Eq)]
pub struct Told {
    pub number: u32,
    pub value: u32,
    pub next: usize,
}

impl Told {
    const UNWRITTEN: Told = Told { number: UNWRITTEN as u32, value: UNWRITTEN as u32, next: UNWRITTEN };

    pub fn done(value: u32, next: usize) -> Self {
        Told { number: 0, value, next }
    }

    /// A refusal leaves 0 behind both pointers.
    pub fn refused(number: u32) -> Self {
        Told { number, value: 0, next: 0 }
    }
}

// ---- reading at a position

macro_rules! reading {
    ($($name:ident, $symbol:ident($($parameter:ident),*);)*) => {
        mod reading {
            extern "C" {
                $(pub fn $symbol(
                    payload: *const u8, len: usize, at: usize $(, $parameter: u32)*, value: *mut u32, next: *mut usize,
                ) -> u32;)*
            }
        }

        $(
            #[inline]
            pub fn $name(payload: &[u8], at: usize $(, $parameter: u32)*) -> Told {
                let mut told = Told::UNWRITTEN;
                let (value, next) = (&mut told.value, &mut told.next);
                let (bytes, len) = (payload.as_ptr(), payload.len());
                told.number = unsafe { reading::$symbol(bytes, len, at $(, $parameter)*, value, next) };
                told
            }
        )*
    };
}

reading! {
    read_bit, probe_read_bit();
    read_bits, probe_read_bits(n);
    zero_prefix, probe_zero_prefix(cap);
    read_exp_golomb, probe_read_exp_golomb(k);
    read_combo, probe_read_combo(last_rice_q, k_rice, k_exp);
}

// ---- all others

mod c {
    extern "C" {
        pub fn probe_end_of_data(payload: *const u8, len: usize, at: usize) -> u32;
        pub fn probe_put(buf: *mut u8, len: usize, at: usize, n: u32, v: u64, next: *mut usize) -> u32;
        pub fn probe_align_byte(at: usize, next: *mut usize) -> u32;
        pub fn probe_first_fields(
            payload: *const u8, len: usize, n: u32, m: u32, first: *mut u32, first_next: *mut usize,
            second_result: *mut u32, second: *mut u32, second_next: *mut usize,
        ) -> u32;
        pub fn probe_scan(scan: usize, inverse: usize, index: usize, place: *mut usize) -> u32;
        pub fn probe_is_default(luma: *const [u8; 64], chroma: *const [u8; 64]) -> u32;
        pub fn probe_blocks_per_mb(chroma: usize, chroma_blocks: *mut usize, blocks: *mut usize) -> u32;
        pub fn probe_alpha_code(code: usize, same: *mut usize) -> u32;
    }
}

/// 1 where data has ended, else 0: told as C has it, since any other number would be a fault.
#[inline]
pub fn end_of_data(payload: &[u8], at: usize) -> u32 {
    unsafe { c::probe_end_of_data(payload.as_ptr(), payload.len(), at) }
}

#[inline]
pub fn put(buf: &mut [u8], at: usize, n: u32, v: u64) -> Told {
    let mut told = Told { value: 0, ..Told::UNWRITTEN };
    told.number = unsafe { c::probe_put(buf.as_mut_ptr(), buf.len(), at, n, v, &mut told.next) };
    told
}

#[inline]
pub fn align_byte(at: usize) -> Told {
    let mut told = Told { value: 0, ..Told::UNWRITTEN };
    told.number = unsafe { c::probe_align_byte(at, &mut told.next) };
    told
}

/// What one reader told of two fields, one after the other.
pub fn first_fields(payload: &[u8], [n, m]: [u32; 2]) -> [Told; 2] {
    let [mut first, mut second] = [Told::UNWRITTEN; 2];
    first.number = unsafe {
        c::probe_first_fields(
            payload.as_ptr(), payload.len(), n, m, &mut first.value, &mut first.next,
            &mut second.number, &mut second.value, &mut second.next,
        )
    };
    [first, second]
}

/// The result and the entry of a scan, or of its inverse.
pub fn scan(scan: usize, inverse: usize, index: usize) -> (u32, [usize; 1]) {
    let mut place = UNWRITTEN;
    let number = unsafe { c::probe_scan(scan, inverse, index, &mut place) };
    (number, [place])
}

/// 1 where a pair is the default one, else 0.
pub fn is_default(luma: &[u8; 64], chroma: &[u8; 64]) -> u32 {
    unsafe { c::probe_is_default(luma, chroma) }
}

/// The result, and the blocks of a chroma component in a macroblock and of a macroblock.
pub fn blocks_per_mb(chroma: usize) -> (u32, [usize; 2]) {
    let [mut of_chroma, mut of_all] = [UNWRITTEN; 2];
    let number = unsafe { c::probe_blocks_per_mb(chroma, &mut of_chroma, &mut of_all) };
    (number, [of_chroma, of_all])
}

/// The result and the code of the alpha kind that a code names.
pub fn alpha_code(code: usize) -> (u32, [usize; 1]) {
    let mut same = UNWRITTEN;
    let number = unsafe { c::probe_alpha_code(code, &mut same) };
    (number, [same])
}
