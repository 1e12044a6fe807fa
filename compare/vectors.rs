// vectors: the C face on real slices (the crate `real_slices`). Each payload by itself, and each slice as a whole, must
// be read with the bits and the coefficients that are written there, and be written back byte for byte; its alpha as
// is said below. The last line counts payloads and slices, once for reading and once for writing; one for having tried
// all that the file has; and one for each kind of slice and of alpha that must be among them.
use faces::cart::{self, Decoded, Encoded};
use real_slices::{Alpha, Outcome, Payload, Slice, COMPONENTS};

mod sha256;
use sha256::sha256;

fn same<T: PartialEq + std::fmt::Debug>(what: &str, ours: T, theirs: T) -> Result<(), String> {
    if ours == theirs { Ok(()) } else { Err(format!("{}: {:?}, not {:?}", what, ours, theirs)) }
}

#[derive(Default)]
struct Count {
    passed: usize,
    failed: usize,
}

impl Count {
    /// Counts a result, and tells what went wrong.
    fn note<T>(&mut self, what: &str, result: Result<T, String>) -> Option<T> {
        match &result {
            Ok(_) => self.passed += 1,
            Err(why) => {
                self.failed += 1;
                println!("{}: FAILED: {}", what, why);
            }
        }
        result.ok()
    }

    /// Counts a reading, and a writing of what was read.
    fn both_ways<T>(&mut self, what: &str, read: Result<T, String>, write: impl FnOnce(T) -> Result<(), String>) {
        let list = self.note(what, read);
        self.note(what, list.map_or(Err("not read, so not written".to_string()), write));
    }

    /// Payloads, by the decoder and the encoder of their list. What is read must have its hash, and there is just their
    /// room to write it back.
    fn coefficients<const N: usize>(
        &mut self,
        what: &str,
        payloads: [&Payload; N],
        sha: &str,
        decode: impl Fn(&mut [u8]) -> Decoded<N>,
        encode: impl Fn(&[u8], &mut [u8]) -> Encoded<N>,
    ) {
        let (bits, bytes) = (payloads.map(|payload| payload.bits), payloads.map(|payload| payload.bytes.len()));
        // what no payload has, and must not be left in the list
        let mut list = vec![0x3a; 256 * payloads.iter().map(|payload| payload.blocks).sum::<usize>()];
        let told = decode(&mut list);
        let read = same("told", told, Decoded { number: 0, component: 0, bits })
            .and_then(|()| same("hash", &sha256(&list)[..], sha));
        self.both_ways(what, read, |()| {
            let mut buffer = vec![0xff; bytes.iter().sum()];
            same("told", encode(&list, &mut buffer), Encoded { number: 0, bytes, bits, needed: 0 })?;
            same("code", buffer, payloads.map(|payload| &payload.bytes[..]).concat())
        });
    }

    fn must_be_some(&mut self, what: &str, times: usize) {
        println!("{}: {}", what, times);
        self.note(what, if times > 0 { Ok(()) } else { Err("the file has none".to_string()) });
    }
}

// ---- alpha

/// Reads a payload as the file says, and gives its samples. A refused one is then read with the run that its
/// encoder left out.
fn read_alpha(alpha: &Alpha) -> Result<Vec<u16>, String> {
    match &alpha.outcome {
        Outcome::Read { bits, sha } => {
            let list = read_as(&alpha.bytes, alpha, 0, *bits)?;
            let bytes: Vec<u8> = list.iter().flat_map(|sample| sample.to_le_bytes()).collect();
            same("hash of the samples", &sha256(&bytes), sha)?;
            Ok(list)
        }
        Outcome::Refused { number, start } => {
            let list = read_as(&alpha.bytes, alpha, *number, 0)?;
            same("a refused list", list, vec![0; alpha.samples])?;
            read_as(&with_last_run(&alpha.bytes, *start), alpha, 0, start + 1)
        }
    }
}

/// Reads a payload with this answer and these bits into a list that has something else in it.
fn read_as(payload: &[u8], alpha: &Alpha, number: u32, bits: usize) -> Result<Vec<u16>, String> {
    let mut list = vec![0x3a5c; alpha.samples];
    let told = cart::decode_alpha(payload, alpha.kind, &mut list);
    same("answer and bits", (told.number, told.bits), (number, [bits]))?;
    Ok(list)
}

/// A payload up to where the refused element begins, and a run of 1 there. That this is read shows where the element
/// begins: a refusal does not tell it.
fn with_last_run(payload: &[u8], start: usize) -> Vec<u8> {
    let mut bytes = payload.to_vec();
    bytes.resize(start / 8 + 1, 0);
    let one = 0x80 >> (start % 8);
    // all bits behind the 1 are 0
    bytes[start / 8] = bytes[start / 8] & !(2 * one - 1) | one;
    bytes
}

/// Writes samples. What the Rust's encoder wrote comes out byte for byte, into just that room; other encoders may
/// choose other codes, so for theirs our code must only be read back.
fn write_alpha(alpha: &Alpha, list: &[u16]) -> Result<(), String> {
    let room = if alpha.by_rust { alpha.bytes.len() } else { 3 * list.len() };
    let mut buffer = vec![0xff; room];
    let told = cart::encode_alpha(list, alpha.kind, &mut buffer);
    same("answer", told.number, 0)?;
    if alpha.by_rust {
        same("code", &buffer, &alpha.bytes)?;
    }
    let read_back = read_as(&buffer[..told.bytes[0]], alpha, 0, told.bits[0])?;
    same("what is read back", &read_back[..], list)
}

// ---- all

fn try_all(lines: &[String], count: &mut Count) {
    let slice = |line: &String| real_slices::slice(line).map_err(|why| println!("{}: {}", line, why)).ok();
    let slices: Vec<Slice> = lines.iter().filter_map(slice).collect();
    let mut tried = 0;
    for slice in &slices {
        for payload in &slice.payloads {
            tried += 1;
            let decode = |list: &mut [u8]| cart::decode(&payload.bytes, payload.blocks, list);
            let encode = |list: &[u8], out: &mut [u8]| cart::encode(list, payload.blocks, out);
            count.coefficients(&payload.name, [payload], &payload.sha, decode, encode);
        }
        let [y, cb, cr] = &slice.payloads;
        let decode = |list: &mut [u8]| cart::decode_slice([&y.bytes, &cb.bytes, &cr.bytes], slice.shape, list);
        let encode = |list: &[u8], out: &mut [u8]| cart::encode_slice(list, slice.shape, out);
        count.coefficients(&slice.name, [y, cb, cr], &slice.sha, decode, encode);
        if let Some(alpha) = &slice.alpha {
            count.both_ways(&alpha.name, read_alpha(alpha), |list| write_alpha(alpha, &list));
        }
    }
    println!("{} slices with {} payloads, read and written back", slices.len(), tried);
    let all = if tried > 0 && tried == COMPONENTS.len() * lines.len() { Ok(()) } else { Err("not all".to_string()) };
    count.note("all that the file has", all);

    for (chroma, scan) in [(2, 0), (2, 1), (3, 0), (3, 1)] {
        let of_kind = slices.iter().filter(|slice| slice.shape[1..] == [chroma, scan]).count();
        count.must_be_some(&format!("slices of format {}, scan {}", chroma, scan), of_kind);
    }
    let alphas: Vec<&Alpha> = slices.iter().filter_map(|slice| slice.alpha.as_ref()).collect();
    count.must_be_some("alpha payloads", alphas.len());
    for kind in [1, 2] {
        let of_kind = || alphas.iter().filter(|alpha| alpha.kind == kind);
        let refused = of_kind().filter(|alpha| matches!(alpha.outcome, Outcome::Refused { .. })).count();
        count.must_be_some(&format!("alpha payloads of kind {}, read", kind), of_kind().count() - refused);
        count.must_be_some(&format!("alpha payloads of kind {}, refused, and read with a last run", kind), refused);
        let by_rust = of_kind().filter(|alpha| alpha.by_rust).count();
        count.must_be_some(&format!("alpha payloads of kind {}, written back byte for byte", kind), by_rust);
    }
}

fn main() {
    // a hash that is wrong would fail every payload, for a reason that is not theirs
    assert_eq!(sha256(b"abc"), "ba7816bf8f01cfea414140de5dae2223b00361a396177a9cb410ff61f20015ad");

    let mut count = Count::default();
    let lines = real_slices::lines().unwrap_or_else(|why| {
        println!("vectors: {}", why);
        Vec::new()
    });
    try_all(&lines, &mut count);
    println!("{} passed, {} failed", count.passed, count.failed);
    std::process::exit(i32::from(count.failed > 0));
}
