// The bit layer, one call for each field: the proved code across the face of `probe`, which tests the limits anew in
// every call and takes the position by value, against the Rust's reader and writer objects. The Rust writes into a Vec
// that grows; the proved code into a lent buffer.
use std::hint::black_box;

use cases::random::Random;
use faces::probe;
use oracle_real::bitstream::{BitReader, BitWriter};

use crate::{Plan, Side};

const FIELDS: usize = 10_000_000;
/// As long as a payload may be: the fields are read and written in chunks of this many bytes.
const CHUNK: usize = model::MOST_BYTES;

/// Fields that fill a chunk up to where the next would not fit, and the bytes that they make.
struct Chunk {
    widths: Vec<u32>,
    values: Vec<u32>,
    bytes: Vec<u8>,
}

pub fn run(plan: &Plan) {
    let chunks = &chunks();
    let values = sum(chunks.iter().flat_map(|chunk| chunk.values.iter().copied()));
    let proved = || sum(black_box(chunks).iter().flat_map(proved_read));
    let rust = || sum(black_box(chunks).iter().flat_map(rust_read));
    race(plan, "read a field of 1 to 32 bits", FIELDS, values, proved, rust);

    let proved = || {
        let mut buffer = vec![0xff; CHUNK];
        black_box(chunks).iter().all(|chunk| proved_write(chunk, &mut buffer) == chunk.bytes)
    };
    let rust = || black_box(chunks).iter().all(|chunk| rust_write(chunk) == chunk.bytes);
    race(plan, "write a field of 1 to 32 bits", FIELDS, true, proved, rust);

    // for information: a user of the Rust has no such call. A byte with a single 1 after another, each in its place.
    let random = &mut Random::new(2);
    let sparse: &Vec<u8> = &(0..CHUNK).map(|_| 1 << random.below(8)).collect();
    let (proved, rust) = (|| proved_prefixes(black_box(sparse)), || rust_prefixes(black_box(sparse)));
    race(plan, "(count the zeros before a 1, 7 on average)", sparse.len(), rust(), proved, rust);

    let bytes = &chunks[0].bytes;
    let (proved, rust) = (|| proved_asks(black_box(bytes)), || rust_asks(black_box(bytes)));
    race(plan, "(read a bit, then ask for the end of data)", rust(), rust(), proved, rust);
}

/// A race of two, who are to answer what is wanted.
fn race<A: PartialEq>(plan: &Plan, what: &str, things: usize, wanted: A, proved: impl Fn() -> A, rust: impl Fn() -> A) {
    let answer = |side| if side == Side::Real { rust() } else { proved() };
    let (right, mut run) = (|side| answer(side) == wanted, |side| drop(black_box(answer(side))));
    plan.race(what, "", things, &[Side::Proved, Side::Real], &right, &mut run);
}

/// Fields of 1 to 32 bits, widths and values pseudo-random.
fn chunks() -> Vec<Chunk> {
    let random = &mut Random::new(1);
    let mut chunks = Vec::new();
    let mut left = FIELDS;
    while left > 0 {
        let (mut widths, mut values, mut writer) = (Vec::new(), Vec::new(), BitWriter::new());
        while widths.len() < left {
            let n = 1 + random.below(32) as u32;
            if writer.bit_len() + n as usize > 8 * CHUNK {
                break;
            }
            let value = (random.next() >> (64 - n)) as u32;
            writer.write_bits(value, n);
            widths.push(n);
            values.push(value);
        }
        left -= widths.len();
        chunks.push(Chunk { widths, values, bytes: writer.finish() });
    }
    chunks
}

/// One number for values in their order.
fn sum(values: impl Iterator<Item = u32>) -> u32 {
    values.fold(0, |sum, value| sum.rotate_left(1) ^ value)
}

// ---- both sides

fn proved_read(chunk: &Chunk) -> impl Iterator<Item = u32> + '_ {
    let mut at = 0;
    chunk.widths.iter().map(move |&n| {
        let told = probe::read_bits(&chunk.bytes, at, n);
        at = told.next;
        told.value
    })
}

fn rust_read(chunk: &Chunk) -> impl Iterator<Item = u32> + '_ {
    let mut reader = BitReader::new(&chunk.bytes);
    chunk.widths.iter().map(move |&n| reader.read_bits(n).expect("a field of the chunk"))
}

fn proved_write<'a>(chunk: &Chunk, buffer: &'a mut [u8]) -> &'a [u8] {
    let mut at = 0;
    for (&n, &value) in chunk.widths.iter().zip(&chunk.values) {
        at = probe::put(buffer, at, n, value.into()).next;
    }
    &buffer[..at.div_ceil(8)]
}

fn rust_write(chunk: &Chunk) -> Vec<u8> {
    let mut writer = BitWriter::new();
    chunk.widths.iter().zip(&chunk.values).for_each(|(&n, &value)| writer.write_bits(value, n));
    writer.finish()
}

/// The zeros before each 1, to the last one.
fn proved_prefixes(bytes: &[u8]) -> Vec<u32> {
    let (mut prefixes, mut at) = (Vec::with_capacity(bytes.len()), 0);
    loop {
        let told = probe::zero_prefix(bytes, at, 64);
        if told.number != 0 {
            return prefixes;
        }
        at = told.next;
        prefixes.push(told.value);
    }
}

/// The same by the loop that the Rust has inside its codeword readers.
fn rust_prefixes(bytes: &[u8]) -> Vec<u32> {
    let (mut prefixes, mut reader, mut zeros) = (Vec::with_capacity(bytes.len()), BitReader::new(bytes), 0);
    while let Ok(bit) = reader.read_bit() {
        zeros += 1;
        if bit == 1 {
            prefixes.push(zeros - 1);
            zeros = 0;
        }
    }
    prefixes
}

/// The bits read until data has ended, which it has after the last 1.
fn proved_asks(bytes: &[u8]) -> usize {
    let mut at = 0;
    while probe::end_of_data(bytes, at) == 0 {
        at = probe::read_bit(bytes, at).next;
    }
    at
}

fn rust_asks(bytes: &[u8]) -> usize {
    let mut reader = BitReader::new(bytes);
    while !reader.end_of_data() {
        reader.read_bit().expect("a bit is left");
    }
    reader.bit_pos()
}
