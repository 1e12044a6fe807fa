// The plain bit layer: document 01, section Bits, one bit at a time, and nothing else.
//
// Bits go from the high end of each byte, byte by byte; zeros fill what is written up to a byte; nothing
// but zeros unread is the end of data. It is written from that section and not
// from the given bitstream.rs; only the names and signatures are those that the given files call.
//
// The given coders do not say how many bits they read or wrote, and document 01 reports both numbers.
// So this layer notes them for its thread: `bits_read` and `bits_written`.
use std::cell::Cell;

use oxideav_core::{Error, Result};

std::thread_local! {
    static BITS_READ: Cell<usize> = const { Cell::new(0) };
    static BITS_WRITTEN: Cell<usize> = const { Cell::new(0) };
}

/// Where the reader that this thread dropped last stood.
pub fn bits_read() -> usize {
    BITS_READ.with(|bits| bits.get())
}

/// The bits written by the writer that this thread finished last, without the zero bits up to a byte.
pub fn bits_written() -> usize {
    BITS_WRITTEN.with(|bits| bits.get())
}

pub struct BitReader<'a> {
    bytes: &'a [u8],
    at: usize,
    /// The place behind the last 1 bit, 0 where there is none: found once, since a decoder asks for the
    /// end of data before each run.
    behind_last_one: usize,
}

impl<'a> BitReader<'a> {
    pub fn new(bytes: &'a [u8]) -> Self {
        let behind_last_one = match bytes.iter().rposition(|&byte| byte != 0) {
            Some(i) => 8 * (i + 1) - bytes[i].trailing_zeros() as usize,
            None => 0,
        };
        Self { bytes, at: 0, behind_last_one }
    }

    pub fn read_bit(&mut self) -> Result<u32> {
        match self.bytes.get(self.at / 8) {
            None => Err(Error::invalid("plain bits: EOF")),
            Some(byte) => {
                let bit = (byte >> (7 - self.at % 8)) & 1;
                self.at += 1;
                Ok(u32::from(bit))
            }
        }
    }

    /// A field of up to 32 bits. One of no bits is 0 and reads nothing.
    pub fn read_bits(&mut self, n: u32) -> Result<u32> {
        assert!(n <= 32, "plain bits: a field of {} bits", n);
        let mut value = 0;
        for _ in 0..n {
            value = value << 1 | self.read_bit()?;
        }
        Ok(value)
    }

    pub fn end_of_data(&self) -> bool {
        self.at >= self.behind_last_one
    }

    pub fn bit_pos(&self) -> usize {
        self.at
    }
}

impl Drop for BitReader<'_> {
    fn drop(&mut self) {
        BITS_READ.with(|bits| bits.set(self.at));
    }
}

#[derive(Default)]
pub struct BitWriter {
    bits: Vec<bool>,
    /// The bits of the code itself: `bits` has those that fill up a byte too.
    coded: usize,
}

impl BitWriter {
    pub fn new() -> Self {
        Self::default()
    }

    pub fn write_bit(&mut self, bit: u32) {
        self.bits.push(bit & 1 == 1);
        self.coded = self.bits.len();
    }

    /// The n low bits of a value. A field of no bits writes nothing.
    pub fn write_bits(&mut self, value: u32, n: u32) {
        assert!(n <= 32, "plain bits: a field of {} bits", n);
        for i in (0..n).rev() {
            self.write_bit(value >> i);
        }
    }

    pub fn align_byte(&mut self) {
        while self.bits.len() % 8 != 0 {
            self.bits.push(false);
        }
    }

    pub fn finish(mut self) -> Vec<u8> {
        self.align_byte();
        BITS_WRITTEN.with(|bits| bits.set(self.coded));
        let byte = |bits: &[bool]| bits.iter().fold(0, |byte, &bit| byte << 1 | u8::from(bit));
        self.bits.chunks(8).map(byte).collect()
    }

    pub fn byte_len(&self) -> usize {
        (self.bits.len() + 7) / 8
    }

    pub fn bit_len(&self) -> usize {
        self.bits.len()
    }
}
