// oracle_check: the oracles alone, before anything is held to them. Document 01's table 'Bits written
// out' and its single numbers on slices, matrices and alpha must hold for the Rust over both bit layers, the
// model of alpha must read as it does, and the layers must differ in the end of data as listed. What only our own code
// can answer is not here: the room of a buffer. Built over the checked oracles too: no line may overflow. The last
// line counts these lines, once for each oracle.
use cases::{bytes::every, document::{list_of, Set, ALPHA_CODED, ALPHA_REFUSED, CODED, REFUSED}};
use model::{alpha::{Alpha, KINDS}, coder::{Coder, Rust, PLAIN}, coefficients::Coefficients, matrices::before_holding};
use oracle_plain::bitstream::{bits_read, bits_written};

#[macro_use]
mod oracles;
use oracles::{guarded, RUST};

/// Lines that came out as they should, and others.
#[derive(Default)]
struct Lines {
    passed: u64,
    failed: u64,
}

impl Lines {
    /// What each oracle gives, and what document 01 has.
    fn each(&mut self, input: &str, expected: &str, ask: impl Fn(&Rust) -> String) {
        self.both(input, [expected; 2], [0, 1].map(|oracle| guarded(|| ask(&RUST[oracle]))));
    }

    /// The same of answers that are there, or not where an oracle panicked.
    fn both(&mut self, input: &str, expected: [&str; 2], got: [Option<String>; 2]) {
        let over = ["plain bits", "bitstream.rs"].into_iter();
        over.zip(expected).zip(got).for_each(|((over, expected), got)| self.one(over, input, expected, got));
    }

    fn one(&mut self, over: &str, input: &str, expected: &str, got: Option<String>) {
        if got.as_deref() == Some(expected) {
            self.passed += 1;
        } else {
            self.failed += 1;
            println!("the Rust over {}: {}: got {:?}, expected {}", over, input, got, expected);
        }
    }
}

fn hex(bytes: &[u8]) -> String {
    format!("{:02x?}", bytes)
}

/// An answer in words.
fn told<T>(answer: Result<T, u32>, tell: impl FnOnce(T) -> String) -> String {
    answer.map_or_else(|number| format!("refused {}", number), tell)
}

fn decoded_alpha(rust: &Rust, payload: &[u8], kind: usize, samples: usize) -> String {
    told((rust.decode_alpha)(payload, kind, samples), |list| format!("{:?}", list))
}

// ---- the table

/// A list whose code must be read back.
fn coded<C: Coder<1>>(lines: &mut Lines, list: &[C::Value], shape: usize, code: &[u8]) {
    let known = C::encode_arguments(list, [shape]).unwrap_or_else(|number| panic!("refused {}", number));
    lines.each(&format!("{}: {:?}", shape, list), &hex(code), |rust| {
        let ([code], _) = C::rust_encode(rust, list, &known);
        let read = C::rust_decode(rust, [&code], &known);
        if read.as_deref() == Ok(list) { hex(&code) } else { "not read back".to_string() }
    });
}

fn table(lines: &mut Lines) {
    for (blocks, set, code) in CODED {
        coded::<Coefficients>(lines, &list_of(64 * blocks, set), blocks, code);
    }
    for (payload, number) in REFUSED {
        // the Rust has no limit where document 01 gives 8, and must read 2^29
        let expected = if number == 8 { "DC 536870912".to_string() } else { format!("refused {}", number) };
        let dc = |list: Vec<i32>| format!("DC {}", list[0]);
        lines.each(&hex(payload), &expected, |rust| told((rust.decode)(payload, 1), dc));
    }
    for (kind, list, code) in ALPHA_CODED {
        coded::<Alpha>(lines, list, kind, code);
    }
    for (payload, samples, number) in ALPHA_REFUSED {
        let expected = format!("refused {}", number);
        lines.each(&hex(payload), &expected, |rust| decoded_alpha(rust, payload, 1, samples));
    }
    // the bits that it names, which only the plain layer tells
    let named: [(usize, Set<'_>, usize); 3] = [(1, &[], 6), (2, &[], 10), (3, &[(1, -1), (2, -2)], 14)];
    for (blocks, set, bits) in named {
        let code = (PLAIN.encode)(&list_of(64 * blocks, set), blocks);
        let written = bits_written();
        let read = told((PLAIN.decode)(&code, blocks), |_| bits_read().to_string());
        let expected = format!("{} written, {} read", bits, bits);
        lines.one("plain bits", &hex(&code), &expected, Some(format!("{} written, {} read", written, read)));
    }
    // up to 31 zero bits may follow for bitstream.rs, any number by document 01
    for (payload, over_real) in [(&[0x80, 0, 0, 0][..], "read"), (&[0x80, 0, 0, 0, 0], "refused 6")] {
        let read = |oracle: usize| told((RUST[oracle].decode)(payload, 1), |_| "read".to_string());
        lines.both(&hex(payload), ["read", over_real], [0, 1].map(|oracle| guarded(|| read(oracle))));
    }
}

// ---- slices, matrices and the scale

/// Where document 01 has single numbers, and where the Rust's own limits on slices are.
fn slices(lines: &mut Lines) {
    // the second Cb block, natural place 8: scanned index 2 or 1, so place 2 x 2 + 1 or 1 x 2 + 1
    let second_cb = [5, 3].map(|place| hex(&(PLAIN.encode)(&list_of(128, &[(place, 1)]), 2)));
    let [progressive, interlaced] = second_cb.map(|cb| format!("[82, 30]; {}; [82, 00]", cb));
    // macroblocks, format, scan; blocks; places that are not 0; codes. The limit of 1 to 8 is in encode alone
    let encoded: [([usize; 3], usize, Set<'_>, &str); 7] = [
        ([1, 2, 0], 8, &[], "[82, 30]; [82, 00]; [82, 00]"),
        ([1, 3, 0], 12, &[], "[82, 30]; [82, 30]; [82, 30]"),
        ([1, 2, 0], 8, &[(64 * 5 + 8, 1)], &progressive),
        ([1, 2, 1], 8, &[(64 * 5 + 8, 1)], &interlaced),
        ([0, 2, 0], 0, &[], "refused 1"),
        ([9, 2, 0], 72, &[], "refused 1"),
        ([1, 2, 0], 7, &[], "refused 2"),
    ];
    for (shape, blocks, set, expected) in encoded {
        let list = list_of(64 * blocks, set);
        let tell = |codes: [Vec<u8>; 3]| codes.map(|code| hex(&code)).join("; ");
        let input = format!("encode {:?} of {} blocks, {:?}", shape, blocks, set);
        lines.each(&input, expected, |rust| told((rust.encode_slice)(&list, shape), tell));
    }
    let [y, cb, cr] = [36, 18, 18].map(|blocks| (PLAIN.encode)(&vec![0; 64 * blocks], blocks));
    let decoded: [([&[u8]; 3], [usize; 3], &str); 3] =
        [([&[]; 3], [0, 2, 0], "0"), ([&[0]; 3], [0, 3, 0], "0"), ([&y, &cb, &cr], [9, 2, 0], "72")];
    for (payloads, shape, blocks) in decoded {
        let tell = |list: Vec<i32>| format!("{}", list.len() / 64);
        lines.each(&format!("decode {:?}", shape), blocks, |rust| told((rust.decode_slice)(payloads, shape), tell));
    }

    lines.both("blend 4 of weight 2", ["3"; 2], both!(|rust| rust::asked::blends(4)[0][0][0].to_string()));
    let scales = both!(|rust| format!("{:?}", [0, 128, 129, 224, 255].map(rust::asked::qscale)));
    lines.both("qscale of 0, 128, 129, 224, 255", ["[0, 128, 132, 512, 636]"; 2], scales);
    let held = |pair: [[u8; 64]; 2]| {
        let blends = (1..=8).flat_map(|number| pair.iter().flatten().map(move |&w| before_holding(number, w)));
        blends.filter(|blend| !(2..=63).contains(blend)).count().to_string()
    };
    let blends = both!(|rust| held(rust::asked::pairs()[1][0]));
    lines.both("blends of perceptual weights that are held to 2..63", ["0"; 2], blends);
}

// ---- alpha

/// What document 01 says beside its table, where the Rust's own limits are, and whether the model reads as it does.
fn alpha(lines: &mut Lines) {
    let mut long = vec![0; 65_537];
    long[0] = 0x74;
    // a small difference wraps like an escaped one: -1 - 1, and one more below that
    let read: [(&[u8], usize, usize, &str); 9] = [
        (&[0x0c], 1, 1, "[254]"),
        (&[0x01, 0x80], 2, 1, "[65534]"),
        (&[0x0c, 0x10], 1, 2, "[254, 255]"),
        (&[0x0c, 0x30], 1, 2, "[254, 253]"),
        // a field below 16 is no run, so it cannot pass the last sample
        (&[0, 0, 0x78], 1, 5, "refused 9"),
        // RDD 36 reads at least one element
        (&[], 1, 0, "[]"),
        (&[0], 1, 0, "refused 11"),
        (&[], 1, 1, "refused 5"),
        (&long, 1, 1, "refused 11"),
    ];
    for (payload, kind, samples, answer) in read {
        let input = format!("{} bytes, {} samples, kind {}", payload.len(), samples, kind);
        lines.each(&input, answer, |rust| decoded_alpha(rust, payload, kind, samples));
    }
    // what is above 255 is masked, but equal samples are counted before
    lines.each("kind 1: 256", "[04]", |rust| hex(&(rust.encode_alpha)(&[256], 1)));
    lines.each("kind 1: 0, 256", "[06, 01]", |rust| hex(&(rust.encode_alpha)(&[0, 256], 1)));
    lines.each("kind 1: 16385 zeros", "26 bytes, read back true", |rust| {
        let code = (rust.encode_alpha)(&[0; 16_385], 1);
        let read = (rust.decode_alpha)(&code, 1, 16_385) == Ok(vec![0; 16_385]);
        format!("{} bytes, read back {}", code.len(), read)
    });
    lines.each("short payloads that the model reads otherwise", "0", |rust| {
        // behind a zero byte 2 bytes hold every run
        let behind_zero = every(2).map(|bytes| [0, bytes[0], bytes[1]].to_vec());
        let payloads = (0..=2).flat_map(every).chain(behind_zero);
        payloads.map(|payload| model_differs(rust, &payload)).sum::<usize>().to_string()
    });
}

/// For how many kinds and numbers of samples the model does not give the Rust's samples or refusal.
fn model_differs(rust: &Rust, payload: &[u8]) -> usize {
    let mut list = Vec::new();
    let mut differs = |known: &_| {
        let by_model = Alpha::read([payload], known, &mut list).map(|_| &list).map_err(|(_, number)| number);
        let by_rust = Alpha::rust_decode(rust, [payload], known);
        by_rust.map(|list| list.into_iter().map(i64::from).collect()).as_ref() != by_model.as_ref().copied()
    };
    let asked = KINDS.into_iter().flat_map(|kind| (0..=3).chain(15..=17).map(move |samples| (kind, samples)));
    asked.filter(|known| differs(known)).count()
}

fn main() {
    std::panic::set_hook(Box::new(|_| {}));
    let mut lines = Lines::default();
    table(&mut lines);
    slices(&mut lines);
    alpha(&mut lines);
    println!("{} passed, {} failed", lines.passed, lines.failed);
    std::process::exit(i32::from(lines.failed > 0));
}
